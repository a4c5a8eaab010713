/* N threads, each with a processor of its own, want two tokens: the even ones token 0 first, and they give up both between two reads.
   A state has what tokens.pml keeps, and what each even thread read, the first time and the later time: that is its log. It is one of
   the script's, since a number that was read is kept here at once, there as the answer and then in the log; the steps say where. */

#define CPUS    N
#define TOKENS  2
#define THREADS N
#define OF_CPU  1
#define WORD    short
#define CELL    byte
#define PLACE   byte
#define IS_EVEN (thread % 2 == 0)
#define TOKEN(place)  ((thread + place) % 2)
#define SHARED(place) false
#define STEPS (IS_EVEN -> 8 : 5)

byte saw[THREADS], later[THREADS];

inline step(number) {
    if
    :: number <= 2 -> get()
    :: IS_EVEN && number == 3 -> saw[thread] = cell[0]
    :: IS_EVEN && number == 4 -> cell[0] = 8
    :: IS_EVEN && number == 5 -> yield()
    :: IS_EVEN && number == 6 -> later[thread] = cell[0]
    :: !IS_EVEN && number == 3 -> cell[0] = 7
    :: number > STEPS - 2 -> release()
    fi
}

inline tell() {
    printf("outcome word %d cell %d saw", word[0], cell[0]);
    spot = 0;
    do
    :: spot < THREADS -> printf(" %d %d", saw[spot], later[spot]); spot++
    :: else -> break
    od;
    printf("\n")
}

#include "tokens.pml"
