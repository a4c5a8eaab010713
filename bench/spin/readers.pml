/* N readers and a writer, each with a processor of its own, get one token once: the readers shared, the writer exclusively.
   A state has what tokens.pml keeps, and what each reader read: that is its log. It is one of the script's, since a number that was
   read is kept here at once, there as the answer and then in the log; the steps say where. */

#define CPUS    (N + 1)
#define TOKENS  1
#define THREADS (N + 1)
#define OF_CPU  1
#define WORD    byte
#define CELL    byte
#define PLACE   byte
#define IS_READER (thread < N)
#define TOKEN(place)  0
#define SHARED(place) IS_READER
#define STEPS 3

byte saw[N];

inline step(number) {
    if
    :: number == 1 -> get()
    :: number == 2 && IS_READER -> saw[thread] = cell[0]
    :: number == 2 && !IS_READER -> cell[0] = 7
    :: number == 3 -> release()
    fi
}

inline tell() {
    printf("outcome saw");
    spot = 0;
    do
    :: spot < N -> printf(" %d", saw[spot]); spot++
    :: else -> break
    od;
    printf("\n")
}

#include "tokens.pml"
