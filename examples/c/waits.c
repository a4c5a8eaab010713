// Threads that wait: sixteen over the eight seats of a bank, which are lent to them, with a futex to sleep on. They take one token, or two in
// one order or the other, and change data of the program's own under it; each is delayed at random between the steps of lwkt_wait.h. A
// thread that sleeps for ever shows: nothing goes on for ten seconds. It writes a line for each thing that isn't so, and last a line that
// counts. An argument says how many sections there are; a second one, whatever it is, has it write the longest wait.
#define _GNU_SOURCE
#include <linux/futex.h>
#include <pthread.h>
#include <sched.h>
#include <stdatomic.h>
#include <stdio.h>
#include <stdlib.h>
#include <sys/syscall.h>
#include <time.h>
#include <unistd.h>

static void step(void);
#define LWKT_WAIT_STEP step()
#include "lwkt_wait.h"

#define THREADS 16
#define SEATS 8
#define IN_A_ROUND 2

enum { LEFT, RIGHT, TOKENS };

static lwkt_seating seating = {.seats = SEATS};
static lwkt_waiters waiters[TOKENS];
static long left_sum, right_sum, both_sum;
static atomic_long sections;
static atomic_int ended;
static pthread_barrier_t barrier;
static long wanted = 200000;
static int passed, failed, tells;

static void count(int good, const char *what) {
    good ? (passed += 1) : (failed += 1, printf("waits: %s\n", what));
}

static _Thread_local uint64_t random_state;

static uint32_t random_number(uint32_t below) {
    random_state = random_state * UINT64_C(6364136223846793005) + UINT64_C(1442695040888963407);
    return (uint32_t)(random_state >> 33) % below;
}

// Delays the thread: mostly not, else until others have run, or for a while.
static void delay(uint32_t yields, uint32_t sleeps) {
    uint32_t number = random_number(65536);
    if (number < sleeps) nanosleep(&(struct timespec){0, 1000}, NULL);
    else if (number < sleeps + yields) sched_yield();
}

static void step(void) {
    delay(512, 16);
}

// While a token is held, so that others come.
static void linger(void) {
    delay(8192, 64);
}

static void park(void *mine, uint32_t *turn, uint32_t seen) {
    (void)mine;
    syscall(SYS_futex, turn, FUTEX_WAIT_PRIVATE, seen, NULL, NULL, 0);
}

static void unpark(void *mine, uint32_t *turn) {
    (void)mine;
    syscall(SYS_futex, turn, FUTEX_WAKE_PRIVATE, 1, NULL, NULL, 0);
}

static const lwkt_parking parking = {park, unpark, NULL};

typedef struct {
    uint32_t number;
    int good;
    long left, right, both;
    double longest;
} worker;

static double now(void) {
    struct timespec time;
    clock_gettime(CLOCK_MONOTONIC, &time);
    return (double)time.tv_sec + 1e-9 * (double)time.tv_nsec;
}

static void note(worker *mine, double since) {
    double wait = now() - since;
    if (wait > mine->longest) mine->longest = wait;
}

// A section on one token, or on both.
static int section(worker *mine, uint32_t seat) {
    static const lwkt_reference lists[2][2] = {{{LEFT, LWKT_EXCLUSIVE}, {RIGHT, LWKT_EXCLUSIVE}}, {{RIGHT, LWKT_EXCLUSIVE}, {LEFT, LWKT_EXCLUSIVE}}};
    uint32_t kind = random_number(8), token = kind % 2, restored;
    size_t missed;
    double since = now();
    int good;
    if (kind < 6) {
        good = lwkt_take_waiting(seating.bank, seat, token, waiters, &parking) == 0;
        note(mine, since);
        linger();
        *(token == LEFT ? &left_sum : &right_sum) += 1;
        *(token == LEFT ? &mine->left : &mine->right) += 1;
        return good && lwkt_give_waking(seating.bank, seat, token, waiters, &parking) == 0;
    }
    if (kind == 6) {
        good = lwkt_share_waiting(seating.bank, seat, LEFT, waiters, &parking) == 0;
        note(mine, since);
        linger();
        good = good && left_sum >= 0;
        return good && lwkt_give_waking(seating.bank, seat, LEFT, waiters, &parking) == 0;
    }
    good = lwkt_resume_waiting(seating.bank, seat, lists[mine->number % 2], 2, &missed, waiters, &parking) == 0;
    note(mine, since);
    linger();
    both_sum += 1, left_sum += 1, right_sum += 1;
    mine->both += 1, mine->left += 1, mine->right += 1;
    return good && lwkt_block_waking(seating.bank, seat, &restored, waiters, TOKENS, &parking) == 0;
}

// Rounds of some sections each. Between two rounds nobody gives anything back, so that a wake-up that was lost is missed.
static void *work(void *told) {
    worker *mine = told;
    random_state = mine->number * UINT64_C(7919) + 1;
    for (long round = 0; round < wanted / (THREADS * IN_A_ROUND); round += 1) {
        for (int i = 0; i < IN_A_ROUND && mine->good; i += 1) {
            uint32_t seat = 77;
            mine->good = lwkt_enter_waiting(&seating, &seat, &parking) == 0 && seat < SEATS && section(mine, seat);
            mine->good = mine->good && lwkt_leave(&seating, seat, &parking) == 0;
            atomic_fetch_add(&sections, 1);
        }
        pthread_barrier_wait(&barrier);
    }
    return NULL;
}

// Ends the program where nothing goes on.
static void *watch(void *told) {
    long before = -1, seen;
    (void)told;
    while ((seen = atomic_load(&sections)) != before) {
        before = seen;
        sleep(10);
    }
    if (!atomic_load(&ended)) {
        printf("waits: a thread sleeps for ever\n0 passed, 1 failed\n");
        fflush(stdout);
        _exit(1);
    }
    return NULL;
}

static void all_wait(void) {
    pthread_t threads[THREADS];
    worker workers[THREADS] = {0};
    long left = 0, right = 0, both = 0;
    double longest = 0;
    count(pthread_barrier_init(&barrier, NULL, THREADS) == 0, "a barrier is made");
    for (uint32_t i = 0; i < THREADS; i += 1) {
        workers[i].number = i, workers[i].good = 1;
        count(pthread_create(&threads[i], NULL, work, &workers[i]) == 0, "a thread starts");
    }
    for (int i = 0; i < THREADS; i += 1) {
        pthread_join(threads[i], NULL);
        count(workers[i].good, "each call of each section went as it has to");
        left += workers[i].left, right += workers[i].right, both += workers[i].both;
        if (workers[i].longest > longest) longest = workers[i].longest;
    }
    count(left_sum == left && right_sum == right && both_sum == both, "no section was lost");
    count(seating.lent == 0 && seating.waiters.count == 0 && waiters[LEFT].count == 0 && waiters[RIGHT].count == 0, "nobody waits, and no seat is lent");
    if (tells) printf("waits: %ld sections, the longest wait %.3f s\n", wanted, longest);
}

static void lent_seats(void) {
    uint32_t seat = 77, other = 77, seats[SEATS], restored;
    int all = 1;
    count(lwkt_leave(&seating, 0, &parking) == LWKT_NOT_LENT && lwkt_leave(&seating, SEATS, &parking) == 30, "no such seat, or not lent");
    count(lwkt_enter(&seating, &seat) == 0 && seat == 0 && lwkt_enter(&seating, &other) == 0 && other == 1, "the lowest seat is lent");
    count(lwkt_take(seating.bank, seat, LEFT) == 0 && lwkt_leave(&seating, seat, &parking) == LWKT_SEAT_HOLDS, "a seat that holds a token stays lent");
    count(lwkt_block(seating.bank, seat, &restored) == 0 && lwkt_leave(&seating, seat, &parking) == 0 && lwkt_leave(&seating, other, &parking) == 0, "given back");
#ifndef LWKT_CHECK_THREADS
    count(lwkt_take(seating.bank, 0, LEFT) == 0 && lwkt_enter(&seating, &seat) == 0 && seat == 1, "a seat that holds a token isn't lent");
    count(lwkt_leave(&seating, 1, &parking) == 0 && lwkt_give(seating.bank, 0, LEFT) == 0, "given back");
#endif
    for (int i = 0; i < SEATS; i += 1) all = all && lwkt_enter(&seating, &seats[i]) == 0 && seats[i] == (uint32_t)i;
    seat = 77;
    count(all && lwkt_enter(&seating, &seat) == LWKT_ALL_LENT && seat == 77, "all are lent");
    for (int i = 0; i < SEATS; i += 1) all = all && lwkt_leave(&seating, seats[i], &parking) == 0;
    count(all && seating.lent == 0, "all are given back");
}

#ifdef LWKT_CHECK_THREADS
// What another thread is answered that calls on a seat of this one.
static void *call_on_another(void *told) {
    worker *mine = told;
    uint64_t value = 77;
    uint32_t restored, seat = mine->number;
    size_t missed = 77;
    lwkt_reference list = {LEFT, LWKT_EXCLUSIVE};
    mine->good = lwkt_take(seating.bank, seat, LEFT) == 51 && lwkt_share(seating.bank, seat, LEFT) == 51 && lwkt_again(seating.bank, seat, LEFT) == 51;
    mine->good = mine->good && lwkt_give(seating.bank, seat, LEFT) == 51 && lwkt_load(seating.bank, seat, LEFT, 0, &value) == 51 && value == 77;
    mine->good = mine->good && lwkt_take_load(seating.bank, seat, LEFT, 0, &value) == 51 && lwkt_store_give(seating.bank, seat, LEFT, 0, 1) == 51 && value == 77;
    mine->good = mine->good && lwkt_resume(seating.bank, seat, &list, 1, &missed) == 51 && missed == 77 && lwkt_block(seating.bank, seat, &restored) == 51;
    mine->good = mine->good && lwkt_mark(seating.bank, seat, LEFT) == 51 && lwkt_leave(&seating, seat, &parking) == 51;
    return NULL;
}

static void another_thread(void) {
    pthread_t thread;
    worker other = {.good = 1};
    count(lwkt_enter(&seating, &other.number) == 0 && lwkt_take(seating.bank, other.number, LEFT) == 0, "a seat is lent, and takes");
    count(pthread_create(&thread, NULL, call_on_another, &other) == 0 && pthread_join(thread, NULL) == 0, "a thread starts");
    count(other.good, "another thread's calls are refused");
    count(lwkt_give(seating.bank, other.number, LEFT) == 0 && lwkt_leave(&seating, other.number, &parking) == 0, "its own go on");
    count(lwkt_take(seating.bank, other.number, LEFT) == 51, "a seat that isn't lent any more");
}
#endif

// Two threads wait for a token that comes to its last generation: one is woken, gets nothing, and wakes the other.
static lwkt_seating worn = {.seats = 3};
static lwkt_waiters worn_waiters[1];

static void *wait_in_vain(void *told) {
    worker *mine = told;
    uint32_t seat = 77;
    mine->good = lwkt_enter(&worn, &seat) == 0 && lwkt_take_waiting(worn.bank, seat, 0, worn_waiters, &parking) == 20;
    mine->good = mine->good && lwkt_leave(&worn, seat, &parking) == 0;
    return NULL;
}

static void both_are_told(void) {
    static const lwkt_token token = {.cells = {0}, .generation = UINT64_C(70368744177662), .cell_count = 1, .law = LWKT_LAW_ANY};
    pthread_t threads[2];
    worker workers[2] = {{.good = 1}, {.good = 1}};
    lwkt_closing closing;
    uint32_t seat = 77;
    count(lwkt_bank_open(&token, 1, 3, &worn.bank) == 0 && lwkt_enter(&worn, &seat) == 0 && lwkt_take(worn.bank, seat, 0) == 0, "a token is taken");
    for (int i = 0; i < 2; i += 1) count(pthread_create(&threads[i], NULL, wait_in_vain, &workers[i]) == 0, "a thread starts");
    while (__atomic_load_n(&worn_waiters[0].count, __ATOMIC_SEQ_CST) < 2) sched_yield();
    nanosleep(&(struct timespec){0, 50000000}, NULL);
    count(lwkt_store(worn.bank, seat, 0, 0, 1) == 0 && lwkt_give_waking(worn.bank, seat, 0, worn_waiters, &parking) == 0, "it is written, and given back");
    for (int i = 0; i < 2; i += 1) count(pthread_join(threads[i], NULL) == 0 && workers[i].good, "who waits is told that it can't be taken any more");
    count(lwkt_leave(&worn, seat, &parking) == 0 && lwkt_bank_close(worn.bank, &closing, 1) == 0 && lwkt_bank_free(&worn.bank) == 0, "the bank closes");
}

int main(int arguments, char **argument) {
    static const lwkt_token tokens[TOKENS] = {{.cells = {0}, .cell_count = 1, .law = LWKT_LAW_ANY}, {.cells = {0}, .cell_count = 1, .law = LWKT_LAW_ANY}};
    lwkt_closing closings[TOKENS];
    pthread_t watcher;
    if (arguments > 1) wanted = strtol(argument[1], NULL, 10);
    tells = arguments > 2;
    count(pthread_create(&watcher, NULL, watch, NULL) == 0 && pthread_detach(watcher) == 0, "a thread starts");
    count(lwkt_bank_open(tokens, TOKENS, SEATS, &seating.bank) == 0, "a bank opens");
    if (failed == 0) {
        lent_seats();
        both_are_told();
#ifdef LWKT_CHECK_THREADS
        another_thread();
#endif
        all_wait();
        count(lwkt_bank_close(seating.bank, closings, TOKENS) == 0, "the bank closes");
        uint32_t seat = 77;
        count(lwkt_enter(&seating, &seat) == LWKT_BANK_CLOSED && seat == 77 && lwkt_bank_free(&seating.bank) == 0, "a closed bank lends no seat");
    }
    atomic_store(&ended, 1);
    printf("%d passed, %d failed\n", passed, failed);
    return failed != 0;
}
