// The close of a bank: what its tokens came to, each misuse, two closes at once, and a close while other threads are inside calls; what a
// closed bank keeps is freed, and a bank of zeros is none. It writes a line for each thing that isn't so, and last a line that counts.
#include <pthread.h>
#include <sched.h>
#include <stdatomic.h>
#include <stdio.h>
#include <string.h>

#include "lwkt.h"

#define THREADS 4
#define ROUNDS 20000
#define BANKS 200

enum { TALLY, SUM, ANY, NOTE, LEN, TOKENS };

static int passed, failed;

static void count(int good, const char *what) {
    good ? (passed += 1) : (failed += 1, printf("closes: %s\n", what));
}

static lwkt_bank open_bank(uint32_t seats) {
    static const lwkt_token tokens[TOKENS] = {
        {.cells = {5}, .param = 5, .generation = 7, .cell_count = 1, .law = LWKT_LAW_TALLY},
        {.cells = {400000, 600000}, .param = 1000000, .cell_count = 2, .law = LWKT_LAW_SUM},
        {.cells = {1, 2, 3, 4}, .generation = UINT64_C(70368744177663), .cell_count = 4, .law = LWKT_LAW_ANY},
        {.law = LWKT_LAW_ANY, .record = "abc", .record_length = 3, .record_count = 1},
        {.cells = {3}, .cell_count = 1, .law = LWKT_LAW_LEN, .record = "aaa", .record_length = 3, .record_count = 1}};
    lwkt_bank bank = {NULL};
    count(lwkt_bank_open(tokens, TOKENS, seats, &bank) == 0, "a bank opens");
    return bank;
}

// Whether a place is that of these cells, this generation and these tallies, and of a record of this text or of none.
static int is_closing(const lwkt_closing *closing, const uint64_t *cells, uint32_t cell_count, uint64_t generation, const uint64_t *tallies, uint32_t tally_count, const char *text) {
    lwkt_closing wanted;
    memset(&wanted, 0, sizeof wanted);
    for (uint32_t i = 0; i < cell_count; i += 1) wanted.cells[i] = cells[i];
    for (uint32_t i = 0; i < tally_count; i += 1) wanted.tallies[i] = tallies[i];
    wanted.generation = generation;
    wanted.cell_count = cell_count;
    wanted.tally_count = tally_count;
    if (text != NULL) {
        wanted.record_count = 1;
        wanted.record_length = (uint32_t)strlen(text);
        memcpy(wanted.record, text, wanted.record_length);
    }
    return memcmp(closing, &wanted, sizeof wanted) == 0;
}

// Places that are filled with a byte, and whether they are so still from one on.
static void mark_places(lwkt_closing *closings, size_t places) {
    memset(closings, 0x5a, places * sizeof *closings);
}

static int are_marked(const lwkt_closing *closings, size_t from, size_t places) {
    const uint8_t *bytes = (const uint8_t *)closings;
    for (size_t i = from * sizeof *closings; i < places * sizeof *closings; i += 1) {
        if (bytes[i] != 0x5a) return 0;
    }
    return 1;
}

// Whether each call on these seats answers that the bank is closed, and stores nothing.
static int answers_closed(lwkt_bank bank, uint32_t seats) {
    lwkt_closing closings[TOKENS];
    lwkt_reference list = {ANY, LWKT_SHARED};
    uint8_t bytes[LWKT_RECORD_ROOM] = {0};
    uint64_t value = 77;
    size_t size = 77;
    uint32_t restored = 77;
    int good = 1;
    for (uint32_t seat = 0; seat < seats; seat += 1) {
        good = good && lwkt_take(bank, seat, ANY) == 52 && lwkt_share(bank, seat, TOKENS) == 52 && lwkt_again(bank, seat, ANY) == 52 && lwkt_mark(bank, seat, ANY) == 52;
        good = good && lwkt_give(bank, seat, ANY) == 52 && lwkt_load(bank, seat, ANY, 0, &value) == 52 && lwkt_store(bank, seat, ANY, 0, 1) == 52;
        good = good && lwkt_take_load(bank, seat, ANY, 0, &value) == 52 && lwkt_store_give(bank, seat, ANY, 0, 1) == 52;
        good = good && lwkt_add(bank, seat, TALLY, 1, &value) == 52 && lwkt_lawful(bank, seat, ANY) == 52 && lwkt_restore(bank, seat, ANY) == 52;
        good = good && lwkt_read_record(bank, seat, NOTE, bytes, sizeof bytes, &size) == 52 && lwkt_write_record(bank, seat, NOTE, bytes, 1) == 52;
        good = good && lwkt_resume(bank, seat, &list, 1, &size) == 52 && lwkt_block(bank, seat, &restored) == LWKT_BANK_CLOSED;
        good = good && lwkt_abandon(bank, seat) == 52;
    }
    mark_places(closings, TOKENS);
    good = good && lwkt_bank_close(bank, closings, TOKENS) == 52 && are_marked(closings, 0, TOKENS) && lwkt_bank_close(bank, closings, 0) == 52;
    return good && value == 77 && size == 77 && restored == 77 && bytes[0] == 0;
}

static int is_closed(lwkt_bank bank, uint32_t seats) {
    return answers_closed(bank, seats) && lwkt_take(bank, seats, ANY) == 30 && lwkt_abandon(bank, seats) == 30;
}

// Frees a closed bank: its handle is a bank of zeros then.
static int is_freed(lwkt_bank *bank) {
    return lwkt_bank_free(bank) == 0 && bank->place == NULL && answers_closed(*bank, 9) && lwkt_bank_free(bank) == 52;
}

static void opening_values(void) {
    static const uint64_t tally[] = {5}, sum[] = {400000, 600000}, any[] = {1, 2, 3, 4}, len[] = {3}, none[8] = {0};
    lwkt_closing closings[TOKENS + 2];
    lwkt_bank bank = open_bank(8);
    mark_places(closings, TOKENS + 2);
    count(lwkt_bank_close(bank, closings, TOKENS + 2) == 0, "a bank closes");
    count(is_closing(&closings[TALLY], tally, 1, 7, none, 8, NULL), "a tally as it was opened");
    count(is_closing(&closings[SUM], sum, 2, 0, NULL, 0, NULL) && is_closing(&closings[ANY], any, 4, UINT64_C(70368744177663), NULL, 0, NULL), "cells as they were opened");
    count(is_closing(&closings[NOTE], NULL, 0, 0, NULL, 0, "abc") && is_closing(&closings[LEN], len, 1, 0, NULL, 0, "aaa"), "records as they were opened");
    count(are_marked(closings, TOKENS, TOKENS + 2), "what lies behind the tokens stays");
    count(is_closed(bank, 8), "each later call answers 52, and 30 where there is no such seat");
    count(is_freed(&bank), "and it is freed");
}

// A bank of zeros is none, and one that is open isn't freed.
static void no_bank_and_open_bank(void) {
    lwkt_bank none = {0};
    count(answers_closed(none, 9) && lwkt_bank_free(&none) == 52 && none.place == NULL, "each call on a bank of zeros answers 52");
    lwkt_bank bank = open_bank(2);
    lwkt_closing closings[TOKENS];
    void *place = bank.place;
    count(lwkt_bank_free(&bank) == LWKT_BANK_OPEN && bank.place == place, "an open bank isn't freed");
    count(lwkt_take(bank, 1, SUM) == 0 && lwkt_bank_free(&bank) == 56 && lwkt_give(bank, 1, SUM) == 0, "and goes on");
    count(lwkt_abandon(bank, 0) == LWKT_SEAT_AT_REST && lwkt_abandon(bank, 1) == 55 && lwkt_abandon(bank, 2) == 30, "a seat that rests isn't lost");
    count(lwkt_take(bank, 0, SUM) == 0 && lwkt_abandon(bank, 0) == 55 && lwkt_give(bank, 0, SUM) == 0, "nor is one that holds a token");
    count(lwkt_bank_close(bank, closings, TOKENS) == 0 && is_closed(bank, 2) && is_freed(&bank), "then it closes, and is freed");
}

static int write_text(lwkt_bank bank, uint32_t seat, uint32_t tok, const char *text) {
    return lwkt_take(bank, seat, tok) == 0 && lwkt_write_record(bank, seat, tok, (const uint8_t *)text, strlen(text)) == 0;
}

static void closing_values(void) {
    static const char whole[] = "0123456789abcdef0123456789abcdef0123456789abcdef0123456789abcdef";
    static const uint64_t tally[] = {16}, sum[] = {1, 999999}, len[] = {0}, added[] = {10, 0, 1};
    lwkt_closing closings[TOKENS];
    lwkt_bank bank = open_bank(3);
    uint64_t value;
    uint32_t restored;
    count(lwkt_take(bank, 0, TALLY) == 0 && lwkt_add(bank, 0, TALLY, 3, &value) == 0 && lwkt_add(bank, 0, TALLY, 7, &value) == 0 && lwkt_give(bank, 0, TALLY) == 0, "a seat adds");
    count(lwkt_take(bank, 2, TALLY) == 0 && lwkt_add(bank, 2, TALLY, 1, &value) == 0 && lwkt_give(bank, 2, TALLY) == 0, "another seat adds");
    count(lwkt_take(bank, 1, SUM) == 0 && lwkt_store(bank, 1, SUM, 0, 1) == 0 && lwkt_store(bank, 1, SUM, 1, 999999) == 0 && lwkt_give(bank, 1, SUM) == 0, "cells are stored to");
    count(lwkt_take(bank, 1, SUM) == 0 && lwkt_give(bank, 1, SUM) == 0 && lwkt_mark(bank, 1, SUM) == 0, "a section that writes nothing, and a mark");
    count(write_text(bank, 0, NOTE, whole) && lwkt_give(bank, 0, NOTE) == 0 && write_text(bank, 1, LEN, "") && lwkt_store(bank, 1, LEN, 0, 0) == 0 && lwkt_give(bank, 1, LEN) == 0, "records are written");
    count(lwkt_take(bank, 0, SUM) == 0 && lwkt_store(bank, 0, SUM, 0, 7) == 0 && lwkt_block(bank, 0, &restored) == 19, "a broken section is given up");
    count(lwkt_bank_close(bank, closings, TOKENS) == 0, "the bank closes");
    count(is_closing(&closings[TALLY], tally, 1, 9, added, 3, NULL), "what each seat added, and two sections");
    count(is_closing(&closings[SUM], sum, 2, 1, NULL, 0, NULL), "cells of one section that wrote");
    count(is_closing(&closings[NOTE], NULL, 0, 1, NULL, 0, whole) && is_closing(&closings[LEN], len, 1, 1, NULL, 0, ""), "records of 64 bytes and of none");
    count(is_freed(&bank), "and it is freed");
}

static void refused_closes(void) {
    lwkt_closing closings[TOKENS];
    lwkt_bank empty;
    lwkt_bank bank = open_bank(2);
    lwkt_token unused = {.law = LWKT_LAW_ANY};
    mark_places(closings, TOKENS);
    count(lwkt_share(bank, 1, ANY) == 0 && lwkt_bank_close(bank, closings, TOKENS) == LWKT_SEAT_HOLDS, "a seat that holds a token");
    count(lwkt_bank_close(bank, closings, 0) == 51 && lwkt_again(bank, 1, ANY) == 0 && lwkt_give(bank, 1, ANY) == 0 && lwkt_give(bank, 1, ANY) == 0, "it holds the token still");
    count(lwkt_take(bank, 0, NOTE) == 0 && lwkt_bank_close(bank, closings, TOKENS) == 51 && lwkt_give(bank, 0, NOTE) == 0, "the first seat holds one");
    count(lwkt_bank_close(bank, closings, TOKENS - 1) == 39 && lwkt_bank_close(bank, closings, 0) == 39, "too few places");
    count(are_marked(closings, 0, TOKENS), "a refused close stores nothing");
    count(lwkt_take(bank, 0, SUM) == 0 && lwkt_take(bank, 1, NOTE) == 0 && lwkt_give(bank, 0, SUM) == 0 && lwkt_give(bank, 1, NOTE) == 0, "the bank is as it was");
    count(lwkt_bank_close(bank, closings, TOKENS) == 0 && is_closed(bank, 2), "then it closes");
    count(lwkt_bank_open(&unused, 0, 1, &empty) == 0 && lwkt_bank_close(empty, closings, 0) == 0 && lwkt_bank_close(empty, closings, 0) == 52, "a bank without tokens");
    count(is_freed(&bank) && is_freed(&empty), "both are freed");
}

typedef struct {
    lwkt_bank bank;
    uint32_t seat;
    atomic_int *ready;
    uint32_t status;
    int good;
    lwkt_closing closings[TOKENS];
} worker;

static void wait_for(atomic_int *ready, int all) {
    atomic_fetch_add(ready, 1);
    while (atomic_load(ready) < all) sched_yield();
}

static void *close_once(void *told) {
    worker *mine = told;
    mark_places(mine->closings, TOKENS);
    wait_for(mine->ready, 2);
    mine->status = lwkt_bank_close(mine->bank, mine->closings, TOKENS);
    return NULL;
}

// Two closes at once: one at most answers 0, and the other 50 or 52.
static void two_closes(void) {
    int both = 1, stored = 1;
    for (int i = 0; i < BANKS; i += 1) {
        static worker workers[2];
        pthread_t threads[2];
        atomic_int ready = 0;
        lwkt_bank bank = open_bank(8);
        for (int k = 0; k < 2; k += 1) {
            workers[k].bank = bank;
            workers[k].ready = &ready;
            if (pthread_create(&threads[k], NULL, close_once, &workers[k]) != 0) count(0, "a thread starts");
        }
        for (int k = 0; k < 2; k += 1) pthread_join(threads[k], NULL);
        uint32_t first = workers[0].status, second = workers[1].status;
        both = both && ((first == 0 && (second == 50 || second == 52)) || (second == 0 && (first == 50 || first == 52)));
        for (int k = 0; k < 2; k += 1) stored = stored && are_marked(workers[k].closings, 0, TOKENS) == (workers[k].status != 0);
        both = both && is_closed(bank, 8) && is_freed(&bank);
    }
    count(both, "of two closes at once one answers 0, and the other 50 or 52");
    count(stored, "the other stores nothing");
}

// Calls until the bank is closed: sections, and calls in between that hold nothing.
static void *work(void *told) {
    worker *mine = told;
    uint64_t value;
    uint32_t status;
    wait_for(mine->ready, THREADS + 1);
    for (mine->status = 0;; mine->status += status == 0) {
        do status = lwkt_take(mine->bank, mine->seat, TALLY);
        while (status == LWKT_BUSY || status == LWKT_RACE || status == LWKT_SEAT_IN_USE);
        if (status != 0) break;
        // While this seat holds the token the bank isn't closed; a close that is tried may have the seat.
        while ((status = lwkt_add(mine->bank, mine->seat, TALLY, 1, &value)) == LWKT_SEAT_IN_USE) sched_yield();
        mine->good = mine->good && status == 0;
        while ((status = lwkt_give(mine->bank, mine->seat, TALLY)) == LWKT_SEAT_IN_USE) sched_yield();
        mine->good = mine->good && status == 0;
        if (mine->status % 16 == 0) sched_yield();
    }
    mine->good = mine->good && status == LWKT_BANK_CLOSED && lwkt_mark(mine->bank, mine->seat, ANY) == LWKT_BANK_CLOSED;
    return NULL;
}

// A close while four threads are inside calls: it is refused with 50 or 51 until none is and nothing is held, and then no addition is
// lost.
static void close_at_work(void) {
    static worker workers[THREADS];
    static lwkt_closing closings[TOKENS];
    pthread_t threads[THREADS];
    atomic_int ready = 0;
    lwkt_bank bank = open_bank(THREADS);
    for (uint32_t i = 0; i < THREADS; i += 1) {
        workers[i] = (worker){.bank = bank, .seat = i, .ready = &ready, .good = 1};
        count(pthread_create(&threads[i], NULL, work, &workers[i]) == 0, "a thread starts");
    }
    wait_for(&ready, THREADS + 1);
    uint32_t status, other = 0, tries = 0;
    while ((status = lwkt_bank_close(bank, closings, TOKENS)) != 0) {
        other += status != LWKT_SEAT_IN_USE && status != LWKT_SEAT_HOLDS;
        if ((tries += 1) % 4 == 0) sched_yield();
    }
    uint64_t sections = 0;
    int each = 1;
    for (int i = 0; i < THREADS; i += 1) {
        pthread_join(threads[i], NULL);
        count(workers[i].good, "each call of each section goes as it has to, and 52 comes once nothing is held");
        each = each && closings[TALLY].tallies[i] == workers[i].status;
        sections += workers[i].status;
    }
    count(other == 0, "a close is refused with 50 or 51 alone");
    count(each && closings[TALLY].cells[0] == 5 + sections && closings[TALLY].generation == 7 + sections, "no addition is lost");
    count(is_freed(&bank), "and the bank is freed");
}

// Calls of another thread on one seat while the bank is closed.
static void *look(void *told) {
    worker *mine = told;
    uint32_t restored, status = 0;
    wait_for(mine->ready, 2);
    for (int i = 0; i < ROUNDS && status != LWKT_BANK_CLOSED; i += 1) {
        status = i % 2 == 0 ? lwkt_mark(mine->bank, mine->seat, ANY) : lwkt_block(mine->bank, mine->seat, &restored);
        mine->good = mine->good && (status == 0 || status == LWKT_SEAT_IN_USE || status == LWKT_BANK_CLOSED);
    }
    return NULL;
}

static void close_beside_calls(void) {
    int good = 1;
    for (int i = 0; i < BANKS; i += 1) {
        static worker mine;
        static lwkt_closing closings[TOKENS];
        pthread_t thread;
        atomic_int ready = 0;
        uint32_t status;
        lwkt_bank bank = open_bank(2);
        mine = (worker){.bank = bank, .seat = 1, .ready = &ready, .good = 1};
        if (pthread_create(&thread, NULL, look, &mine) != 0) count(0, "a thread starts");
        wait_for(&ready, 2);
        while ((status = lwkt_bank_close(bank, closings, TOKENS)) == LWKT_SEAT_IN_USE) sched_yield();
        pthread_join(thread, NULL);
        good = good && status == 0 && mine.good && is_closed(bank, 2) && is_freed(&bank);
    }
    count(good, "a close beside calls that hold nothing is made, or finds a seat in use");
}

int main(void) {
    no_bank_and_open_bank();
    opening_values();
    closing_values();
    refused_closes();
    two_closes();
    close_at_work();
    close_beside_calls();
    printf("%d passed, %d failed\n", passed, failed);
    return failed != 0;
}
