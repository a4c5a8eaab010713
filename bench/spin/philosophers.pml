/* N philosophers, each with a processor of its own, eat once: they get two forks, the left one first, and write into that.
   A state has what tokens.pml keeps of forks and threads, and nothing else. It is one of the script's, since nobody reads a cell, so
   that all logs are empty, and a fork's cell has one writer, so that a bit says what it is and was. */

#define CPUS    N
#define TOKENS  N
#define THREADS N
#define OF_CPU  1
#define WORD    byte
#define CELL    bit
#define PLACE   byte
#define TOKEN(place)  ((thread + place) % N)
#define SHARED(place) false
#define STEPS 5

inline step(number) {
    if
    :: number <= 2 -> get()
    :: number == 3 -> cell[thread] = 1
    :: number >= 4 -> release()
    fi
}

inline tell() { printf("outcome\n") }

#include "tokens.pml"
