// Data of the program's own under tokens: four threads change them as exclusive holders, and read them as shared ones, by a list too. It
// writes a line for each thing that isn't so, and last a line that counts. With UNGUARDED the threads leave one token out, which
// ThreadSanitizer has to find.
#include <pthread.h>
#include <sched.h>
#include <stdio.h>

#include "lwkt.h"

#define THREADS 4
#define ROUNDS 5000

enum { ACCOUNT, LOG, TOKENS };

static lwkt_bank bank;
static struct {
    long from, to;
} account = {1000000, 0};
static long lines;
static int passed, failed;

static void count(int good, const char *what) {
    good ? (passed += 1) : (failed += 1, printf("own_data: %s\n", what));
}

typedef struct {
    uint32_t seat;
    int good;
} worker;

#define ASK(call)                                                                          \
    do {                                                                                   \
        uint32_t status;                                                                   \
        while ((status = (call)) == LWKT_BUSY || status == LWKT_RACE) sched_yield();       \
        mine->good = mine->good && status == 0;                                            \
    } while (0)

static void *work(void *told) {
    static const lwkt_reference both[2] = {{LOG, LWKT_EXCLUSIVE}, {ACCOUNT, LWKT_SHARED}};
    worker *mine = told;
    size_t missed;
    uint32_t restored;
    for (int i = 0; i < ROUNDS; i += 1) {
#ifndef UNGUARDED
        ASK(lwkt_take(bank, mine->seat, ACCOUNT));
#endif
        account.from -= 1, account.to += 1;
#ifndef UNGUARDED
        mine->good = mine->good && lwkt_give(bank, mine->seat, ACCOUNT) == 0;
#endif
        ASK(lwkt_share(bank, mine->seat, ACCOUNT));
        mine->good = mine->good && account.from + account.to == 1000000 && lwkt_give(bank, mine->seat, ACCOUNT) == 0;
        ASK(lwkt_resume(bank, mine->seat, both, 2, &missed));
        lines += account.to >= 0;
        mine->good = mine->good && lwkt_block(bank, mine->seat, &restored) == 0;
    }
    return NULL;
}

int main(void) {
    static const lwkt_token tokens[TOKENS] = {{.law = LWKT_LAW_ANY}, {.law = LWKT_LAW_ANY}};
    lwkt_closing closings[TOKENS];
    pthread_t threads[THREADS];
    worker workers[THREADS];
    count(lwkt_bank_open(tokens, TOKENS, THREADS, &bank) == 0, "a bank opens");
    for (uint32_t i = 0; i < THREADS; i += 1) {
        workers[i] = (worker){i, 1};
        count(pthread_create(&threads[i], NULL, work, &workers[i]) == 0, "a thread starts");
    }
    for (int i = 0; i < THREADS; i += 1) {
        pthread_join(threads[i], NULL);
        count(workers[i].good, "each call went as it has to, and nothing was seen in between");
    }
    count(account.to == (long)THREADS * ROUNDS && lines == (long)THREADS * ROUNDS, "no change was lost");
    count(lwkt_bank_close(bank, closings, TOKENS) == 0 && lwkt_bank_free(&bank) == 0, "the bank closes, and is freed");
    printf("%d passed, %d failed\n", passed, failed);
    return failed != 0;
}
