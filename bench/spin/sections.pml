/* Each of OF_CPU threads on each of CPUS processors makes N sections of one token, and adds 1 to its cell in each.
   A state has what tokens.pml keeps, and nothing else. It is one of the script's, since nobody reads the cell, so that all logs are
   empty, and what a processor added is one for each step `add` that its threads asked for. */

#define TOKENS  1
#define THREADS (CPUS * OF_CPU)
#define WORD    int
#define CELL    short
#define PLACE   short
#define TOKEN(place)  0
#define SHARED(place) false
#define STEPS (3 * N)

inline step(number) {
    if
    :: number % 3 == 1 -> get()
    :: number % 3 == 2 -> cell[0]++
    :: number % 3 == 0 -> release()
    fi
}

inline tell() { printf("outcome cell %d\n", cell[0]) }

#include "tokens.pml"
