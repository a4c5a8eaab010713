// lwkt_wait: seats that are lent to threads, and threads that wait for tokens, over the calls of lwkt.h, which don't wait. C11 or C++17 by
// GCC or Clang; inline functions, nothing more to link.
//
// A thread sleeps and is woken by two functions of the program's own, such as futex calls (examples/c/waits.c has them). These functions
// only decide when. Nothing here is proved but the calls below it; `examples/c/check` tries it under threads that are delayed at each step.
//
//     static lwkt_seating seating;                               // seating.bank and seating.seats are set when the bank is open
//     static lwkt_waiters waiters[2];                            // one for each token of the bank, zeros at first
//     static const lwkt_parking parking = {park, unpark, NULL};
//     status = lwkt_enter_waiting(&seating, &seat, &parking);
//     status = lwkt_take_waiting(bank, seat, 0, waiters, &parking);
//     ...
//     status = lwkt_give_waking(bank, seat, 0, waiters, &parking);
//     status = lwkt_leave(&seating, seat, &parking);
//
// No wake-up is lost, if every reference to a token that somebody waits for is given back by `lwkt_give_waking` or `lwkt_block_waking`
// with the same waiters. A waiting thread counts itself, reads `turn`, asks for the token once more, and only then parks, for as long as
// `turn` is what it read. Who gives a reference back does so first, and then looks whether anybody is counted: if so, `turn` is one more,
// and one thread is woken. So a thread that missed the token parks before that, and is woken, or finds another `turn`, and doesn't park.
// A thread that is woken and gets no reference, nor has to wait on, wakes the next one.
//
// Who comes first gets the token, also before those that wait: no order is promised, and no bound on the wait. Threads that hold one token
// and wait for another can wait for each other for ever; `lwkt_resume_waiting` holds nothing while it waits.
#ifndef LWKT_WAIT_H
#define LWKT_WAIT_H

#include "lwkt.h"

// A test of these functions may define it, to delay threads between their steps.
#ifndef LWKT_WAIT_STEP
#define LWKT_WAIT_STEP ((void)0)
#endif

// Those that wait for one token. Its members are the functions' own. It is there as long as a thread may wait or give.
typedef struct lwkt_waiters {
    // One more with each reference that was given back while a thread was counted.
    uint32_t turn;
    // How many threads wait, or are about to.
    uint32_t count;
} lwkt_waiters;

// How a thread sleeps and is woken.
typedef struct lwkt_parking {
    // Sleeps while `*turn` is `seen`: where it isn't, or is no more, it returns. It may return at any time. It looks at `*turn` and goes to
    // sleep as one step, for `unpark`.
    void (*park)(void *mine, uint32_t *turn, uint32_t seen);
    // Wakes one thread at least of those that sleep there, if there is one.
    void (*unpark)(void *mine, uint32_t *turn);
    // Passed on to both.
    void *mine;
} lwkt_parking;

// Who has the seats of a bank. Threads get a seat here before they ask for tokens, and no two the same: a seat holds tokens, so threads
// that share one don't exclude each other. A program that lends seats calls with lent ones alone.
typedef struct lwkt_seating {
    lwkt_bank bank;
    // How many seats the bank has.
    uint32_t seats;
    // A bit for each seat that is lent: 0 at first.
    uint32_t lent;
    // Those that wait for a seat: zeros at first.
    lwkt_waiters waiters;
} lwkt_seating;

// All seats are lent.
#define LWKT_ALL_LENT 57u
// The seat isn't lent.
#define LWKT_NOT_LENT 58u

#ifdef __cplusplus
extern "C" {
#endif

// Lends a seat to the calling thread: the lowest one that isn't lent, rests in its place and holds nothing; and stores its number. With
// another status than 0 `seat` stays as it was. Refused with 52; with 57 where there is no such seat.
static inline uint32_t lwkt_enter(lwkt_seating *seating, uint32_t *seat) LWKT_MUST_USE;

// As `lwkt_enter`, but where that answers 57 it waits until a seat is given back.
static inline uint32_t lwkt_enter_waiting(lwkt_seating *seating, uint32_t *seat, const lwkt_parking *parking) LWKT_MUST_USE;

// Takes a lent seat back, and wakes a thread that waits for one. Refused with 30; with 58 where it isn't lent; with 52, 50, 54, and 51
// where it holds a token, which `lwkt_block` gives up.
static inline uint32_t lwkt_leave(lwkt_seating *seating, uint32_t seat, const lwkt_parking *parking) LWKT_MUST_USE;

// As `lwkt_take`, but where that answers 23 or 34 it waits, and asks again. `waiters` has a place for each token of the bank.
static inline uint32_t lwkt_take_waiting(lwkt_bank bank, uint32_t seat, uint32_t token, lwkt_waiters *waiters,
                                         const lwkt_parking *parking) LWKT_MUST_USE;

// As `lwkt_share`, but where that answers 23 or 34 it waits, and asks again. A mark that holds it off is cleared by an exclusive holder
// alone: the thread that set it has to take the token.
static inline uint32_t lwkt_share_waiting(lwkt_bank bank, uint32_t seat, uint32_t token, lwkt_waiters *waiters,
                                          const lwkt_parking *parking) LWKT_MUST_USE;

// As `lwkt_resume`, but where that answers 23 or 34 it waits for the token that is missed, and asks for the whole list again.
static inline uint32_t lwkt_resume_waiting(lwkt_bank bank, uint32_t seat, const lwkt_reference *list, size_t count, size_t *missed,
                                           lwkt_waiters *waiters, const lwkt_parking *parking) LWKT_MUST_USE;

// As `lwkt_give`; where that answers 0 it wakes a thread that waits for the token.
static inline uint32_t lwkt_give_waking(lwkt_bank bank, uint32_t seat, uint32_t token, lwkt_waiters *waiters,
                                        const lwkt_parking *parking) LWKT_MUST_USE;

// As `lwkt_block`, of a bank with so many tokens; where that answers 0 or 19 it wakes a thread for each token that one waits for.
static inline uint32_t lwkt_block_waking(lwkt_bank bank, uint32_t seat, uint32_t *restored, lwkt_waiters *waiters, size_t tokens,
                                         const lwkt_parking *parking);

// Wakes a thread that waits, if one is counted.
static inline void lwkt_wait_wake(lwkt_waiters *waiters, const lwkt_parking *parking) {
    LWKT_WAIT_STEP;
    if (__atomic_load_n(&waiters->count, __ATOMIC_SEQ_CST) == 0) return;
    LWKT_WAIT_STEP;
    __atomic_fetch_add(&waiters->turn, 1, __ATOMIC_SEQ_CST);
    LWKT_WAIT_STEP;
    parking->unpark(parking->mine, &waiters->turn);
}

// From here to the end of the wait a giver sees that a thread waits.
static inline void lwkt_wait_begins(lwkt_waiters *waiters) {
    LWKT_WAIT_STEP;
    __atomic_fetch_add(&waiters->count, 1, __ATOMIC_SEQ_CST);
    LWKT_WAIT_STEP;
}

static inline void lwkt_wait_ends(lwkt_waiters *waiters, const lwkt_parking *parking, uint32_t status) {
    LWKT_WAIT_STEP;
    __atomic_fetch_sub(&waiters->count, 1, __ATOMIC_SEQ_CST);
    if (status != 0) lwkt_wait_wake(waiters, parking);
}

// Whether a seat rests and holds nothing: 0, or why not, as `lwkt_resume` answers a list of no references.
static inline uint32_t lwkt_wait_idle(lwkt_bank bank, uint32_t seat) {
    lwkt_reference none = {0, LWKT_SHARED};
    size_t missed;
    return lwkt_resume(bank, seat, &none, 0, &missed);
}

// Where LWKT_CHECK_THREADS is defined, in all files of a program alike, each call on a seat that isn't lent to the calling thread answers
// 51, and changes nothing. A thread has seats of 8 banks at most then: `lwkt_enter` answers 39 for a ninth.
#ifdef LWKT_CHECK_THREADS
typedef struct lwkt_wait_bank {
    void *place;
    uint32_t seats;
} lwkt_wait_bank;

__attribute__((weak)) __thread lwkt_wait_bank lwkt_wait_banks[8];

// What the calling thread has of a bank: its entry, or else one without a seat, or null.
static inline lwkt_wait_bank *lwkt_wait_mine(lwkt_bank bank) {
    lwkt_wait_bank *found = NULL;
    for (int i = 0; i < 8; i += 1) {
        if (lwkt_wait_banks[i].seats == 0)
            found = &lwkt_wait_banks[i];
        else if (lwkt_wait_banks[i].place == bank.place)
            return &lwkt_wait_banks[i];
    }
    return found;
}

static inline bool lwkt_wait_is_mine(lwkt_bank bank, uint32_t seat) {
    lwkt_wait_bank *mine = lwkt_wait_mine(bank);
    return seat >= 32 || (mine != NULL && mine->place == bank.place && (mine->seats >> seat & 1) != 0);
}
#endif

static inline uint32_t lwkt_enter(lwkt_seating *seating, uint32_t *seat) {
    for (uint32_t number = 0; number < seating->seats; number += 1) {
        uint32_t bit = UINT32_C(1) << number, status;
        if ((__atomic_fetch_or(&seating->lent, bit, __ATOMIC_SEQ_CST) & bit) != 0) continue;
        status = lwkt_wait_idle(seating->bank, number);
#ifdef LWKT_CHECK_THREADS
        lwkt_wait_bank *mine = lwkt_wait_mine(seating->bank);
        if (status == 0 && mine == NULL) status = 39;
        if (status == 0) mine->place = seating->bank.place, mine->seats |= bit;
#endif
        if (status == 0) {
            *seat = number;
            return 0;
        }
        __atomic_fetch_and(&seating->lent, ~bit, __ATOMIC_SEQ_CST);
        if (status == LWKT_BANK_CLOSED || status == 39) return status;
    }
    return LWKT_ALL_LENT;
}

static inline uint32_t lwkt_leave(lwkt_seating *seating, uint32_t seat, const lwkt_parking *parking) {
    if (seat >= seating->seats) return 30;
    uint32_t bit = UINT32_C(1) << seat, status;
    if ((__atomic_load_n(&seating->lent, __ATOMIC_SEQ_CST) & bit) == 0) return LWKT_NOT_LENT;
#ifdef LWKT_CHECK_THREADS
    if (!lwkt_wait_is_mine(seating->bank, seat)) return LWKT_SEAT_HOLDS;
#endif
    status = lwkt_wait_idle(seating->bank, seat);
    if (status != 0) return status;
#ifdef LWKT_CHECK_THREADS
    lwkt_wait_mine(seating->bank)->seats &= ~bit;
#endif
    __atomic_fetch_and(&seating->lent, ~bit, __ATOMIC_SEQ_CST);
    lwkt_wait_wake(&seating->waiters, parking);
    return 0;
}

static inline uint32_t lwkt_enter_waiting(lwkt_seating *seating, uint32_t *seat, const lwkt_parking *parking) {
    uint32_t status = lwkt_enter(seating, seat), seen;
    if (status != LWKT_ALL_LENT) return status;
    lwkt_wait_begins(&seating->waiters);
    for (;;) {
        seen = __atomic_load_n(&seating->waiters.turn, __ATOMIC_SEQ_CST);
        LWKT_WAIT_STEP;
        status = lwkt_enter(seating, seat);
        if (status != LWKT_ALL_LENT) break;
        LWKT_WAIT_STEP;
        parking->park(parking->mine, &seating->waiters.turn, seen);
    }
    lwkt_wait_ends(&seating->waiters, parking, status);
    return status;
}

#ifdef LWKT_CHECK_THREADS
#define LWKT_WAIT_MINE(call, parameters, arguments) \
    static inline uint32_t lwkt_wait_my_##call parameters { return lwkt_wait_is_mine(bank, seat) ? lwkt_##call arguments : LWKT_SEAT_HOLDS; }
LWKT_WAIT_MINE(take, (lwkt_bank bank, uint32_t seat, uint32_t token), (bank, seat, token))
LWKT_WAIT_MINE(share, (lwkt_bank bank, uint32_t seat, uint32_t token), (bank, seat, token))
LWKT_WAIT_MINE(again, (lwkt_bank bank, uint32_t seat, uint32_t token), (bank, seat, token))
LWKT_WAIT_MINE(mark, (lwkt_bank bank, uint32_t seat, uint32_t token), (bank, seat, token))
LWKT_WAIT_MINE(give, (lwkt_bank bank, uint32_t seat, uint32_t token), (bank, seat, token))
LWKT_WAIT_MINE(load, (lwkt_bank bank, uint32_t seat, uint32_t token, uint32_t cell, uint64_t *value), (bank, seat, token, cell, value))
LWKT_WAIT_MINE(store, (lwkt_bank bank, uint32_t seat, uint32_t token, uint32_t cell, uint64_t value), (bank, seat, token, cell, value))
LWKT_WAIT_MINE(take_load, (lwkt_bank bank, uint32_t seat, uint32_t token, uint32_t cell, uint64_t *value), (bank, seat, token, cell, value))
LWKT_WAIT_MINE(store_give, (lwkt_bank bank, uint32_t seat, uint32_t token, uint32_t cell, uint64_t value), (bank, seat, token, cell, value))
LWKT_WAIT_MINE(add, (lwkt_bank bank, uint32_t seat, uint32_t token, uint64_t amount, uint64_t *value), (bank, seat, token, amount, value))
LWKT_WAIT_MINE(lawful, (lwkt_bank bank, uint32_t seat, uint32_t token), (bank, seat, token))
LWKT_WAIT_MINE(restore, (lwkt_bank bank, uint32_t seat, uint32_t token), (bank, seat, token))
LWKT_WAIT_MINE(read_record, (lwkt_bank bank, uint32_t seat, uint32_t token, uint8_t *buffer, size_t room, size_t *length), (bank, seat, token, buffer, room, length))
LWKT_WAIT_MINE(write_record, (lwkt_bank bank, uint32_t seat, uint32_t token, const uint8_t *bytes, size_t length), (bank, seat, token, bytes, length))
LWKT_WAIT_MINE(resume, (lwkt_bank bank, uint32_t seat, const lwkt_reference *list, size_t count, size_t *missed), (bank, seat, list, count, missed))
LWKT_WAIT_MINE(block, (lwkt_bank bank, uint32_t seat, uint32_t *restored), (bank, seat, restored))
#undef lwkt_take
#undef lwkt_share
#undef lwkt_give
#undef lwkt_take_load
#undef lwkt_store_give
#undef lwkt_resume
#undef lwkt_block
#define lwkt_take lwkt_wait_my_take
#define lwkt_share lwkt_wait_my_share
#define lwkt_again lwkt_wait_my_again
#define lwkt_mark lwkt_wait_my_mark
#define lwkt_give lwkt_wait_my_give
#define lwkt_load lwkt_wait_my_load
#define lwkt_store lwkt_wait_my_store
#define lwkt_take_load lwkt_wait_my_take_load
#define lwkt_store_give lwkt_wait_my_store_give
#define lwkt_add lwkt_wait_my_add
#define lwkt_lawful lwkt_wait_my_lawful
#define lwkt_restore lwkt_wait_my_restore
#define lwkt_read_record lwkt_wait_my_read_record
#define lwkt_write_record lwkt_wait_my_write_record
#define lwkt_resume lwkt_wait_my_resume
#define lwkt_block lwkt_wait_my_block
#endif

static inline uint32_t lwkt_wait_ask(lwkt_bank bank, uint32_t seat, uint32_t token, uint32_t mode) {
    uint32_t status;
    do status = mode == LWKT_EXCLUSIVE ? lwkt_take(bank, seat, token) : lwkt_share(bank, seat, token);
    while (status == LWKT_RACE);
    return status;
}

static inline uint32_t lwkt_wait_for(lwkt_bank bank, uint32_t seat, uint32_t token, uint32_t mode, lwkt_waiters *waiters,
                                        const lwkt_parking *parking) {
    uint32_t status = lwkt_wait_ask(bank, seat, token, mode), seen;
    if (status != LWKT_BUSY) return status;
    lwkt_wait_begins(&waiters[token]);
    for (;;) {
        seen = __atomic_load_n(&waiters[token].turn, __ATOMIC_SEQ_CST);
        LWKT_WAIT_STEP;
        status = lwkt_wait_ask(bank, seat, token, mode);
        if (status != LWKT_BUSY) break;
        LWKT_WAIT_STEP;
        parking->park(parking->mine, &waiters[token].turn, seen);
    }
    lwkt_wait_ends(&waiters[token], parking, status);
    return status;
}

static inline uint32_t lwkt_take_waiting(lwkt_bank bank, uint32_t seat, uint32_t token, lwkt_waiters *waiters, const lwkt_parking *parking) {
    return lwkt_wait_for(bank, seat, token, LWKT_EXCLUSIVE, waiters, parking);
}

static inline uint32_t lwkt_share_waiting(lwkt_bank bank, uint32_t seat, uint32_t token, lwkt_waiters *waiters, const lwkt_parking *parking) {
    return lwkt_wait_for(bank, seat, token, LWKT_SHARED, waiters, parking);
}

static inline uint32_t lwkt_give_waking(lwkt_bank bank, uint32_t seat, uint32_t token, lwkt_waiters *waiters, const lwkt_parking *parking) {
    uint32_t status = lwkt_give(bank, seat, token);
    if (status == 0) lwkt_wait_wake(&waiters[token], parking);
    return status;
}

static inline uint32_t lwkt_block_waking(lwkt_bank bank, uint32_t seat, uint32_t *restored, lwkt_waiters *waiters, size_t tokens,
                                         const lwkt_parking *parking) {
    uint32_t status = lwkt_block(bank, seat, restored);
    for (size_t token = 0; (status == 0 || status == 19) && token < tokens; token += 1) lwkt_wait_wake(&waiters[token], parking);
    return status;
}

// What `lwkt_resume` took of the list before it missed one it gave back, which nobody was told: those that wait for it are woken.
static inline uint32_t lwkt_wait_resume(lwkt_bank bank, uint32_t seat, const lwkt_reference *list, size_t count, size_t *missed,
                                        lwkt_waiters *waiters, const lwkt_parking *parking) {
    uint32_t status;
    do {
        status = lwkt_resume(bank, seat, list, count, missed);
        if (status != LWKT_BUSY && status != LWKT_RACE && status != 20) break;
        for (size_t i = 0; i < *missed; i += 1) lwkt_wait_wake(&waiters[list[i].token], parking);
    } while (status == LWKT_RACE);
    return status;
}

static inline uint32_t lwkt_resume_waiting(lwkt_bank bank, uint32_t seat, const lwkt_reference *list, size_t count, size_t *missed,
                                           lwkt_waiters *waiters, const lwkt_parking *parking) {
    uint32_t status = lwkt_wait_resume(bank, seat, list, count, missed, waiters, parking), seen, token;
    while (status == LWKT_BUSY) {
        token = list[*missed].token;
        lwkt_wait_begins(&waiters[token]);
        for (;;) {
            seen = __atomic_load_n(&waiters[token].turn, __ATOMIC_SEQ_CST);
            LWKT_WAIT_STEP;
            status = lwkt_wait_resume(bank, seat, list, count, missed, waiters, parking);
            if (status != LWKT_BUSY || list[*missed].token != token) break;
            LWKT_WAIT_STEP;
            parking->park(parking->mine, &waiters[token].turn, seen);
        }
        lwkt_wait_ends(&waiters[token], parking, status);
    }
    return status;
}

#ifdef __cplusplus
}
#endif

#endif
