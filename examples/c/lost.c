// Seats that are lost to a call that never comes back: one that a signal's handler left by siglongjmp, and one whose thread was cancelled.
// Such a seat is given up, its bank isn't closed any more, and is freed. It writes a line for each thing that isn't so, and last a line
// that counts.
#define _POSIX_C_SOURCE 200809L
#include <pthread.h>
#include <sched.h>
#include <setjmp.h>
#include <signal.h>
#include <stdatomic.h>
#include <stdio.h>
#include <sys/time.h>

#include "lwkt.h"

#define TRIES 5000

static int passed, failed;
static sigjmp_buf out_of_the_call;
static lwkt_bank bank;
static atomic_int calls;

static void count(int good, const char *what) {
    good ? (passed += 1) : (failed += 1, printf("lost: %s\n", what));
}

// Calls on seat 1 that hold nothing, without an end.
static void call_on(void) {
    for (;;) {
        lwkt_mark(bank, 1, 0);
        atomic_fetch_add_explicit(&calls, 1, memory_order_relaxed);
    }
}

static void leave(int signal_number) {
    (void)signal_number;
    siglongjmp(out_of_the_call, 1);
}

static void lose_by_a_jump(void) {
    struct itimerval soon = {{0, 0}, {0, 500}};
    if (sigsetjmp(out_of_the_call, 1) == 0) {
        setitimer(ITIMER_REAL, &soon, NULL);
        call_on();
    }
}

static void *call_until_cancelled(void *told) {
    (void)told;
    pthread_setcanceltype(PTHREAD_CANCEL_ASYNCHRONOUS, NULL);
    call_on();
    return NULL;
}

static void lose_by_a_cancel(void) {
    pthread_t thread;
    int before = atomic_load(&calls);
    if (pthread_create(&thread, NULL, call_until_cancelled, NULL) != 0) return;
    while (atomic_load(&calls) < before + 1000) sched_yield();
    pthread_cancel(thread);
    pthread_join(thread, NULL);
}

// A bank of one token and two seats, of which the second was lost in this way; tried until the call was left inside the library.
static int opens_and_loses(void (*lose)(void)) {
    static const lwkt_token token = {.cells = {100}, .cell_count = 1, .law = LWKT_LAW_ANY};
    for (int i = 0; i < TRIES; i += 1) {
        lwkt_closing closing;
        if (lwkt_bank_open(&token, 1, 2, &bank) != 0) return 0;
        lose();
        if (lwkt_mark(bank, 1, 0) == LWKT_SEAT_IN_USE) return 1;
        if (lwkt_abandon(bank, 1) != LWKT_SEAT_AT_REST || lwkt_bank_close(bank, &closing, 1) != 0 || lwkt_bank_free(&bank) != 0) return 0;
    }
    return 0;
}

static void try_lost(void (*lose)(void), const char *what) {
    lwkt_closing closing = {.generation = 77};
    uint64_t value = 0;
    uint32_t restored = 77;
    count(opens_and_loses(lose), what);
    count(lwkt_bank_close(bank, &closing, 1) == 50 && lwkt_bank_free(&bank) == LWKT_BANK_OPEN, "a seat is away: the bank isn't closed, and isn't freed");
    count(lwkt_abandon(bank, 0) == LWKT_SEAT_AT_REST && lwkt_abandon(bank, 2) == 30, "the other seat isn't lost");
    count(lwkt_abandon(bank, 1) == 0 && lwkt_abandon(bank, 1) == LWKT_SEAT_LOST, "the lost seat is given up, once");
    count(lwkt_mark(bank, 1, 0) == 54 && lwkt_take(bank, 1, 9) == 54 && lwkt_load(bank, 1, 0, 0, &value) == 54 && lwkt_block(bank, 1, &restored) == 54 && restored == 77, "calls on it say so");
    count(lwkt_bank_close(bank, &closing, 1) == LWKT_BANK_IN_USE && lwkt_bank_close(bank, &closing, 0) == 53 && closing.generation == 77, "the bank is in use still");
    count(lwkt_take(bank, 0, 0) == 0 && lwkt_load(bank, 0, 0, 0, &value) == 0 && value == 100 && lwkt_store(bank, 0, 0, 0, 101) == 0 && lwkt_give(bank, 0, 0) == 0, "the other seat goes on");
    count(lwkt_bank_free(&bank) == 0 && bank.place == NULL && lwkt_mark(bank, 1, 0) == 52 && lwkt_bank_free(&bank) == 52, "the bank is freed");
}

int main(void) {
    struct sigaction action = {.sa_handler = leave};
    sigaction(SIGALRM, &action, NULL);
    try_lost(lose_by_a_jump, "a seat is lost by a jump");
    try_lost(lose_by_a_cancel, "a seat is lost by a cancel");
    printf("%d passed, %d failed\n", passed, failed);
    return failed != 0;
}
