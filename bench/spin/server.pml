/* N clients, each with a processor of its own, call a server once. It takes the calls as they come, and replies by rising number: to
   a call that it wasn't given the reply is refused. A state has where each call is, the calls at the port, those that the server was
   given, in order, and how many steps it asked for. It is one of the script's, since the server's token and log follow from these. */

#define STEPS (5 * N)       /* for each call: wait, get, add, rel, reply */

#define REST  0             /* a client's call: it isn't sent yet */
#define OUT   1             /* in the lane to the server */
#define AT    2             /* at the port */
#define WITH  3             /* the server was given it */
#define BACK  4             /* in the lane to the client */
#define ENDED 5             /* the client has the reply, and has ended */

byte call[N];
chan port = [N] of { byte };
byte given[N];              /* the log: which calls the server was given, each as its number and 1 */
byte taken;                 /* how many */
byte at;                    /* how many steps the server has asked for, its end too */
bool waits;                 /* whether it waits for its port */
byte living = N + 1;

hidden byte client;         /* for use within a turn; in no state */

inline end() {
    living--;
    if
    :: living > 0 -> skip
    :: else ->
        printf("outcome given");
        client = 0;
        do
        :: client < N -> printf(" %d", given[client]); client++
        :: else -> break
        od;
        printf("\n")
    fi
}

/* All calls in one place come to another, by rising number. */
inline move(from, to) {
    client = 0;
    do
    :: client < N ->
        if
        :: call[client] == from ->
            call[client] = to;
            if
            :: to == AT -> port!client
            :: else -> skip
            fi
        :: else -> skip
        fi;
        client++
    :: else -> break
    od
}

inline look() {
    waits = empty(port);
    if
    :: waits -> skip
    :: else -> port?client; call[client] = WITH; given[taken] = client + 1; taken++
    fi
}

inline step() {
    at++;
    if
    :: at > STEPS -> end()
    :: at <= STEPS && at % 5 == 1 -> look()
    :: at <= STEPS && at % 5 > 1 -> skip
    :: at <= STEPS && at % 5 == 0 -> call[at / 5 - 1] = (call[at / 5 - 1] == WITH -> BACK : call[at / 5 - 1])
    fi
}

/* Once the server has ended, its next turn answers the calls that it was given and hasn't answered. */
active proctype server() {
    do
    :: d_step {
        if
        :: at > STEPS -> move(WITH, BACK)
        :: else ->
            move(OUT, AT);
            if
            :: waits -> look()
            :: else -> skip
            fi;
            if
            :: waits -> skip
            :: else -> step()
            fi
        fi
    }
    od
}

active [N] proctype clients() {
    do
    :: d_step {
        if
        :: call[_pid - 1] == REST -> call[_pid - 1] = OUT
        :: call[_pid - 1] == BACK -> call[_pid - 1] = ENDED; end()
        :: else -> skip
        fi
    }
    od
}
