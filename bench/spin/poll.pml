/* A reader on one processor gets a token shared N times, and reads its cell into a variable. A writer on another one stores 1 once.
   A state has what tokens.pml keeps, the variable, and the number that was read. It is one of the script's, since that is kept as the
   answer until the thread asks next, and only then goes into the variable, which no log has. */

#define CPUS    2
#define TOKENS  1
#define THREADS 2
#define OF_CPU  1
#define WORD    byte
#define CELL    bit
#define PLACE   short
#define IS_READER (thread == 0)
#define TOKEN(place)  0
#define SHARED(place) IS_READER
#define STEPS (IS_READER -> 3 * N : 3)

bit answer, variable;

inline step(number) {
    if
    :: number % 3 == 1 -> get()
    :: number % 3 == 2 && IS_READER -> answer = cell[0]
    :: number % 3 == 2 && !IS_READER -> cell[0] = 1
    :: number % 3 == 0 && IS_READER -> variable = answer; answer = 0; release()
    :: number % 3 == 0 && !IS_READER -> release()
    fi
}

inline tell() { printf("outcome\n") }

#include "tokens.pml"
