// A token of one's own over the steps on words: the word is an atomic of this program, and so is the exchange. Four threads add to
// what the token guards, and read it shared. It writes a line for each thing that isn't so, and last a line that counts.
#include <pthread.h>
#include <sched.h>
#include <stdatomic.h>
#include <stdio.h>
#include <stdlib.h>

#include "lwkt.h"

#define THREADS 4
#define ROUNDS 20000

static _Atomic(uint64_t) token;
static uint64_t guarded[2];
static int passed, failed;

static void count(int good, const char *what) {
    good ? (passed += 1) : (failed += 1, printf("words: %s\n", what));
}

// Makes a step on the token's word until the exchange goes through: 0, or why the step can't be made.
static uint32_t exchange(uint32_t (*step)(uint64_t, uint64_t *)) {
    uint64_t next, word = atomic_load(&token);
    uint32_t refused;
    while ((refused = step(word, &next)) == 0 && !atomic_compare_exchange_weak(&token, &word, next)) {
    }
    return refused;
}

static uint32_t share_alone(uint64_t word, uint64_t *next) {
    return lwkt_word_share(word, true, next);
}

// The mark, where the token is held: a writer has to wait.
static void mark(void) {
    uint64_t word = atomic_load(&token);
    while (!atomic_compare_exchange_weak(&token, &word, lwkt_word_mark(word))) {
    }
}

// Adds to both cells, or looks whether they are the same.
static void *work(void *told) {
    int *good = told;
    for (int i = 0; i < ROUNDS; i += 1) {
        if (i % 4 != 0) {
            while (exchange(share_alone) != 0) sched_yield();
            *good = *good && guarded[0] == guarded[1];
            *good = exchange(lwkt_word_give_one) == 0 && *good;
            continue;
        }
        while (exchange(lwkt_word_take) != 0) {
            mark();
            sched_yield();
        }
        guarded[0] += 1;
        guarded[1] += 1;
        *good = exchange(lwkt_word_give_written) == 0 && *good;
    }
    return NULL;
}

static void try_threads(void) {
    pthread_t threads[THREADS];
    int told[THREADS];
    for (int i = 0; i < THREADS; i += 1) {
        told[i] = 1;
        if (pthread_create(&threads[i], NULL, work, &told[i]) != 0) exit(3);
    }
    for (int i = 0; i < THREADS; i += 1) {
        pthread_join(threads[i], NULL);
        count(told[i], "a thread saw two cells that differ, or couldn't give back");
    }
    uint64_t sections = THREADS * (ROUNDS / 4), word = atomic_load(&token);
    count(guarded[0] == sections && guarded[1] == sections, "an addition was lost");
    count(LWKT_WORD_GENERATION(word) == sections && LWKT_WORD_COUNT(word) == 0 && (word & LWKT_WORD_EXCLUSIVE) == 0, "the last word");
}

// One step on a word: what it answers, and the next word.
static void try_step(uint32_t (*step)(uint64_t, uint64_t *), uint64_t word, uint32_t wanted, uint64_t wanted_next, const char *what) {
    uint64_t next = 77;
    uint32_t refused = step(word, &next);
    count(refused == wanted && next == wanted_next, what);
}

static uint32_t share_not_alone(uint64_t word, uint64_t *next) {
    return lwkt_word_share(word, false, next);
}

static void try_steps(void) {
    const uint64_t generation = 1 << 18, reference = 4, full = 65535 * reference, last = UINT64_C(70368744177663) << 18;
    try_step(lwkt_word_take, 0, 0, 1, "take");
    try_step(lwkt_word_take, generation | 2, 0, generation | 1, "take clears the mark");
    try_step(lwkt_word_take, 1, 23, 77, "take of what is held exclusively");
    try_step(lwkt_word_take, reference, 23, 77, "take of what is held shared");
    try_step(lwkt_word_take, last, 20, 77, "take at the last generation");
    try_step(share_alone, reference, 0, 2 * reference, "share");
    try_step(share_alone, 1, 23, 77, "share of what is held exclusively");
    try_step(share_alone, 2, 23, 77, "share alone of what is marked");
    try_step(share_not_alone, 2, 0, 2 + reference, "share of what is marked");
    try_step(share_alone, full, 39, 77, "share of a full word");
    try_step(lwkt_word_again, 1, 0, 1 + reference, "again, exclusively");
    try_step(lwkt_word_again, reference, 0, 2 * reference, "again, shared");
    try_step(lwkt_word_again, 2, 13, 77, "again of what nobody holds");
    try_step(lwkt_word_again, full, 39, 77, "again of a full word");
    count(lwkt_word_mark(generation | 1) == (generation | 3) && lwkt_word_mark(2) == 2, "mark");
    try_step(lwkt_word_give_one, 2 * reference, 0, reference, "give one, shared");
    try_step(lwkt_word_give_one, 1 + reference, 0, 1, "give one, exclusively");
    try_step(lwkt_word_give_one, 1, 13, 77, "give one of none");
    try_step(lwkt_word_give_clean, generation | 3, 0, generation | 2, "give clean");
    try_step(lwkt_word_give_clean, reference, 13, 77, "give clean of what is held shared");
    try_step(lwkt_word_give_clean, 1 + reference, 12, 77, "give clean with a reference left");
    try_step(lwkt_word_give_written, 1, 0, generation, "give written");
    try_step(lwkt_word_give_written, 1 + reference, 12, 77, "give written with a reference left");
    try_step(lwkt_word_give_written, last | 1, 20, 77, "give written at the last generation");
}

int main(void) {
    try_steps();
    try_threads();
    printf("%d passed, %d failed\n", passed, failed);
    return failed != 0;
}
