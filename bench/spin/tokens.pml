/* Processors whose threads take tokens, turn by turn, as docs/MODEL.md has them: what the models of this folder share. A turn is one
   step, and leads from one state to one. A state has what `lwkt explore --plain` tells states apart by. The rest of that follows:
   which processor holds a token from who runs and its list, a list from its length, a kept answer from the steps asked for.

   A model defines before: CPUS, TOKENS, THREADS, and OF_CPU, how many threads each processor has; WORD, CELL and PLACE, the types of
   a word, of a cell, and of a place in a program; TOKEN(place) and SHARED(place), the references of `thread`; STEPS, how many steps
   `thread` has before its end; step(number), which makes one; and tell(), which prints the outcome. */

#define EXCLUSIVE  1                        /* the parts of a token's word */
#define MARK       2
#define COUNT      4
#define GENERATION 32
#define COUNTS     (GENERATION - COUNT)

#define NOBODY 255

WORD word[TOKENS];
CELL cell[TOKENS], first[TOKENS];           /* a token's cell, now and at the beginning of its section */
byte running[CPUS] = NOBODY, cursor[CPUS];  /* the thread that runs, and where the next search for one begins */
PLACE at[THREADS];                          /* how many steps a thread has asked for, its end too */
byte length[THREADS];                       /* how many references its list has */
WORD refused[THREADS];                      /* the word that refused its list, if it can do so again, or 0 */
byte where[THREADS];                        /* which reference that word refused */
byte living = THREADS;

hidden byte thread, spot, token, tried, missed; /* for use within a turn; in no state */

/* Takes the reference of a place in the list of `thread`, if its token's word lets it. */
inline take(place) {
    token = TOKEN(place);
    missed = (word[token] & EXCLUSIVE) || (SHARED(place) -> (word[token] & MARK) && length[thread] == 1 : word[token] & COUNTS);
    if
    :: missed -> skip
    :: !missed && SHARED(place) -> word[token] = word[token] + COUNT
    :: !missed && !SHARED(place) -> word[token] = (word[token] & ~MARK) + EXCLUSIVE
    fi
}

/* Gives a reference back. That ends a section, which is a written one if the cell has changed. */
inline give(place) {
    token = TOKEN(place);
    if
    :: SHARED(place) -> word[token] = word[token] - COUNT
    :: !SHARED(place) && cell[token] == first[token] -> word[token] = word[token] - EXCLUSIVE
    :: !SHARED(place) && cell[token] != first[token] -> word[token] = word[token] + GENERATION - EXCLUSIVE; first[token] = cell[token]
    fi
}

/* Gives back the references before a place, the last one first. */
inline give_before(place) {
    spot = place;
    do
    :: spot > 0 -> spot--; give(spot)
    :: else -> break
    od
}

/* Takes the whole list of `thread`, or nothing. A word that refused it at its first place isn't kept: a try that is refused there again
   changes nothing. */
inline resume() {
    spot = 0; missed = false; refused[thread] = 0; where[thread] = 0;
    do
    :: spot < length[thread] ->
        take(spot);
        if
        :: missed ->
            if
            :: spot > 0 -> refused[thread] = word[token]; where[thread] = spot
            :: else -> skip
            fi;
            give_before(spot); break
        :: else -> spot++
        fi
    :: else -> break
    od
}

/* Forgets the words whose token has another generation now: they never come again. */
inline forget() {
    thread = 0;
    do
    :: thread < THREADS ->
        if
        :: refused[thread] && refused[thread] / GENERATION != word[TOKEN(where[thread])] / GENERATION -> refused[thread] = 0; where[thread] = 0
        :: else -> skip
        fi;
        thread++
    :: else -> break
    od
}

/* `thread` is the one that runs, or the first from the cursor on that can: one whose list is taken. Or it is NOBODY. */
inline choose() {
    tried = 0;
    do
    :: running[_pid] != NOBODY || tried == OF_CPU -> thread = running[_pid]; break
    :: else ->
        thread = _pid * OF_CPU + (cursor[_pid] + tried) % OF_CPU; tried++;
        if
        :: at[thread] > STEPS || (refused[thread] && refused[thread] == word[TOKEN(where[thread])]) -> skip
        :: else ->
            resume();
            if
            :: missed -> skip
            :: else -> running[_pid] = thread; cursor[_pid] = thread % OF_CPU + 1
            fi
        fi
    od
}

/* The step `get` or `gets`. Where the token is missed, an exclusive request marks it, and the other references are given up. */
inline get() {
    length[thread]++;
    take(length[thread] - 1);
    if
    :: missed ->
        word[token] = word[token] | (SHARED(length[thread] - 1) -> 0 : MARK);
        give_before(length[thread] - 1); running[_pid] = NOBODY
    :: else -> skip
    fi
}

inline release() { length[thread]--; give(length[thread]) }

inline yield() { give_before(length[thread]); running[_pid] = NOBODY }

inline end() {
    yield(); length[thread] = 0; living--;
    if
    :: living == 0 -> tell()
    :: else -> skip
    fi
}

active [CPUS] proctype processor() {
    do
    :: d_step {
        choose();
        if
        :: thread == NOBODY -> skip
        :: else ->
            at[thread]++;
            if
            :: at[thread] > STEPS -> end()
            :: else -> step(at[thread])
            fi
        fi;
        forget();
        skip /* (a d_step may not end with a loop) */
    }
    od
}
