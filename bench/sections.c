// Times a section of one thread, which takes a token, adds one to a value and gives the token back, in several ways:
//
//     ./sections [WAY [ROUNDS]]    each way, or this one alone: the fastest round of 300, or so many, in nanoseconds of a section, and how
//                                  many times that of the token by hand it is
//
// By hand is a token of one word, as DragonFly's, written in C11 without a library; its give counts a generation, as all others' do.
#define _POSIX_C_SOURCE 200809L
#include <pthread.h>
#include <stdatomic.h>
#include <stdio.h>
#include <stdlib.h>
#include <string.h>
#include <time.h>

#include "lwkt.h"
#include "lwkt_word.h"

#define SECTIONS 20000

static int rounds = 300;
static lwkt_bank bank;
static _Atomic(uint64_t) word;
static volatile uint64_t value;
static pthread_mutex_t mutex = PTHREAD_MUTEX_INITIALIZER;

static void stop(void) {
    puts("sections: a section was refused");
    exit(1);
}

static void by_hand(void) {
    uint64_t found = atomic_load_explicit(&word, memory_order_relaxed);
    if ((found & 262143) != 0 || !atomic_compare_exchange_strong(&word, &found, found | 1)) stop();
    value = value + 1;
    if (!atomic_compare_exchange_strong(&word, &(uint64_t){found | 1}, found + 262144)) stop();
}

// One step on the word, decided by the function `STEP`.
#define STEP(STEP)                                                                       \
    do {                                                                                 \
        uint64_t next, found = atomic_load_explicit(&word, memory_order_relaxed);        \
        if (STEP(found, &next) != 0 || !atomic_compare_exchange_strong(&word, &found, next)) stop(); \
    } while (0)

static void by_inline_words(void) {
    STEP(lwkt_inline_word_take);
    value = value + 1;
    STEP(lwkt_inline_word_give_written);
}

static void by_words(void) {
    STEP(lwkt_word_take);
    value = value + 1;
    STEP(lwkt_word_give_written);
}

static void by_mutex(void) {
    pthread_mutex_lock(&mutex);
    value = value + 1;
    pthread_mutex_unlock(&mutex);
}

static void by_bank(void) {
    uint64_t found;
    if (lwkt_take_load(bank, 0, 0, 0, &found) != 0 || lwkt_store_give(bank, 0, 0, 0, found + 1) != 0) stop();
}

static void by_bank_around(void) {
    if (lwkt_take(bank, 0, 0) != 0) stop();
    value = value + 1;
    if (lwkt_give(bank, 0, 0) != 0) stop();
}

static const struct {
    const char *name;
    void (*section)(void);
} ways[] = {{"by_hand", by_hand}, {"inline_words", by_inline_words}, {"words", by_words}, {"mutex", by_mutex},
            {"bank_around", by_bank_around}, {"bank", by_bank}};

static double now(void) {
    struct timespec time;
    clock_gettime(CLOCK_THREAD_CPUTIME_ID, &time);
    return (double)time.tv_sec * 1e9 + (double)time.tv_nsec;
}

static double fastest(void (*section)(void)) {
    double best = 1e18;
    for (int round = 0; round < rounds; round += 1) {
        double begin = now();
        for (int i = 0; i < SECTIONS; i += 1) section();
        double took = now() - begin;
        if (took < best) best = took;
    }
    return best / SECTIONS;
}

int main(int count, char **arguments) {
    lwkt_token token = {.cells = {0}, .cell_count = 1, .law = LWKT_LAW_ANY};
    double hand = 0;
    if (count > 2) rounds = atoi(arguments[2]);
    if (lwkt_bank_open(&token, 1, 1, &bank) != 0) stop();
    for (size_t i = 0; i < sizeof ways / sizeof *ways; i += 1) {
        if (count > 1 && strcmp(arguments[1], ways[i].name) != 0) continue;
        double took = fastest(ways[i].section);
        if (i == 0) hand = took;
        printf("%-14s %7.2f ns", ways[i].name, took);
        hand > 0 ? printf(" %6.2f\n", took / hand) : printf("\n");
    }
    return 0;
}
