// A bank and its seats. Four threads add to one token by seats of their own, to another one under the law of sums, and write the record
// of a third; each misuse of each call; and two threads on one seat. It writes a line for each thing that isn't so, and last a line that
// counts.
#include <pthread.h>
#include <sched.h>
#include <stdio.h>
#include <string.h>

#include "lwkt.h"

#define THREADS 4
#define ROUNDS 100000

enum { TALLY, SUM, ANY, ORDER, LEN, NOTE, TOKENS };

static lwkt_bank bank;
static int passed, failed;

static void count(int good, const char *what) {
    good ? (passed += 1) : (failed += 1, printf("seats: %s\n", what));
}

static lwkt_token token(uint64_t first, uint64_t second, uint32_t cells, uint32_t law, uint64_t param) {
    lwkt_token made = {.cells = {first, second}, .param = param, .cell_count = cells, .law = law};
    return made;
}

// The same token with a record of this text.
static lwkt_token guarding(lwkt_token made, const char *text) {
    made.record_length = (uint32_t)strlen(text);
    made.record_count = 1;
    memcpy(made.record, text, made.record_length);
    return made;
}

// Takes a token, however often another seat has it.
static uint32_t take(uint32_t seat, uint32_t tok) {
    uint32_t status;
    while ((status = lwkt_take(bank, seat, tok)) == LWKT_BUSY || status == LWKT_RACE) sched_yield();
    return status;
}

// The same with the value of its first cell.
static uint32_t take_load(uint32_t seat, uint32_t tok, uint64_t *value) {
    uint32_t status;
    while ((status = lwkt_take_load(bank, seat, tok, 0, value)) == LWKT_BUSY || status == LWKT_RACE) sched_yield();
    return status;
}

typedef struct {
    uint32_t seat;
    int good;
} worker;

// Writes the record of the token of lengths anew, all of one letter, seven bytes longer or shorter than it was.
static int rewrite(uint32_t seat) {
    uint8_t bytes[LWKT_RECORD_ROOM];
    uint64_t value;
    size_t length;
    int good = take(seat, LEN) == 0 && lwkt_load(bank, seat, LEN, 0, &value) == 0 && lwkt_read_record(bank, seat, LEN, bytes, sizeof bytes, &length) == 0;
    if (!good || value != length) return 0;
    for (size_t i = 1; i < length; i += 1) good = good && bytes[i] == bytes[0];
    length = (length + 7) % (LWKT_RECORD_ROOM + 1);
    memset(bytes, 'a' + (int)seat, sizeof bytes);
    good = good && lwkt_write_record(bank, seat, LEN, bytes, length) == 0 && lwkt_give(bank, seat, LEN) == 19;
    return good && lwkt_store(bank, seat, LEN, 0, length) == 0 && lwkt_give(bank, seat, LEN) == 0;
}

// Adds one in each section, moves one from cell to cell of the token of sums, and writes a record.
static void *work(void *told) {
    worker *mine = told;
    uint64_t value, first, second;
    for (int i = 0; i < ROUNDS; i += 1) {
        int good = take(mine->seat, TALLY) == 0 && lwkt_add(bank, mine->seat, TALLY, 1, &value) == 0 && lwkt_give(bank, mine->seat, TALLY) == 0;
        if (i % 100 == 0) {
            good = good && take_load(mine->seat, SUM, &first) == 0 && lwkt_load(bank, mine->seat, SUM, 1, &second) == 0;
            good = good && first + second == 1000000 && lwkt_store(bank, mine->seat, SUM, 0, first - 1) == 0;
            good = good && lwkt_lawful(bank, mine->seat, SUM) == 19 && lwkt_give(bank, mine->seat, SUM) == 19;
            good = good && lwkt_store_give(bank, mine->seat, SUM, 1, second + 1) == 0 && rewrite(mine->seat);
        }
        mine->good = mine->good && good;
    }
    return NULL;
}

static uint64_t value_of(uint32_t tok, uint32_t cell) {
    uint64_t value = 0;
    count(lwkt_share(bank, 0, tok) == 0 && lwkt_load(bank, 0, tok, cell, &value) == 0 && lwkt_give(bank, 0, tok) == 0, "a value is read");
    return value;
}

static void sections(void) {
    pthread_t threads[THREADS];
    worker workers[THREADS];
    for (uint32_t i = 0; i < THREADS; i += 1) {
        workers[i] = (worker){i, 1};
        count(pthread_create(&threads[i], NULL, work, &workers[i]) == 0, "a thread starts");
    }
    for (int i = 0; i < THREADS; i += 1) {
        pthread_join(threads[i], NULL);
        count(workers[i].good, "each call of each section went as it has to");
    }
    count(value_of(TALLY, 0) == 5 + (uint64_t)THREADS * ROUNDS, "400,000 additions came to the cell");
    count(value_of(SUM, 0) + value_of(SUM, 1) == 1000000, "the sum stands");
}

// Two threads on one seat: the seat is with one call at a time, and a call that finds it away says so.
static void *same_seat(void *told) {
    worker *mine = told;
    for (int i = 0; i < ROUNDS; i += 1) {
        uint32_t restored, status = i % 2 == 0 ? lwkt_mark(bank, mine->seat, ANY) : lwkt_block(bank, mine->seat, &restored);
        mine->good = mine->good && (status == 0 || status == LWKT_SEAT_IN_USE);
    }
    return NULL;
}

static void one_seat(void) {
    pthread_t threads[2];
    worker workers[2] = {{1, 1}, {1, 1}};
    for (int i = 0; i < 2; i += 1) count(pthread_create(&threads[i], NULL, same_seat, &workers[i]) == 0, "a thread starts");
    for (int i = 0; i < 2; i += 1) {
        pthread_join(threads[i], NULL);
        count(workers[i].good, "two threads on one seat: each call is made, or finds it in use");
    }
    count(lwkt_take(bank, 1, ANY) == 0 && lwkt_give(bank, 1, ANY) == 0, "the seat is back in its place");
}

static void numbers(void) {
    uint64_t value = 77;
    count(lwkt_take(bank, 4, 0) == 30 && lwkt_give(bank, 4, 0) == 30 && lwkt_load(bank, 4, 0, 0, &value) == 30, "no such seat");
    count(lwkt_take(bank, 0, TOKENS) == 16 && lwkt_share(bank, 0, TOKENS) == 16 && lwkt_again(bank, 0, TOKENS) == 16 && lwkt_mark(bank, 0, TOKENS) == 16, "no such token");
    count(lwkt_give(bank, 0, UINT32_MAX) == 16 && lwkt_load(bank, 0, 256, 0, &value) == 16 && lwkt_store(bank, 0, TOKENS, 0, 1) == 16, "no such token");
    count(lwkt_add(bank, 0, TOKENS, 1, &value) == 16 && lwkt_lawful(bank, 0, TOKENS) == 16 && lwkt_restore(bank, 0, TOKENS) == 16, "no such token");
    count(lwkt_load(bank, 0, ANY, 1, &value) == 17 && lwkt_store(bank, 0, ANY, 256, 1) == 17, "no such cell");
    count(lwkt_again(bank, 0, ANY) == 13 && lwkt_give(bank, 0, ANY) == 13 && lwkt_load(bank, 0, ANY, 0, &value) == 13, "not held");
    count(lwkt_store(bank, 0, ANY, 0, 1) == 13 && lwkt_add(bank, 0, TALLY, 1, &value) == 13, "not held");
    count(lwkt_lawful(bank, 0, ANY) == 13 && lwkt_restore(bank, 0, ANY) == 13, "not held");
    count(lwkt_share(bank, 0, ANY) == 0 && lwkt_take(bank, 0, ANY) == 11, "exclusive under shared");
    count(lwkt_store(bank, 0, ANY, 0, 1) == 18 && lwkt_lawful(bank, 0, ANY) == 18 && lwkt_restore(bank, 0, ANY) == 18, "held shared");
    count(lwkt_share(bank, 1, ANY) == 0 && lwkt_take(bank, 2, ANY) == 23, "another seat holds it");
    count(lwkt_give(bank, 0, ANY) == 0 && lwkt_give(bank, 1, ANY) == 0 && lwkt_give(bank, 0, ANY) == 13, "given back");
    count(lwkt_mark(bank, 0, ANY) == 0 && lwkt_share(bank, 1, ANY) == 23 && lwkt_take(bank, 1, ANY) == 0 && lwkt_give(bank, 1, ANY) == 0 && lwkt_share(bank, 1, ANY) == 0,
          "a mark holds shared requests off until the token is taken");
    count(lwkt_give(bank, 1, ANY) == 0, "given back");
    count(lwkt_take(bank, 0, ANY) == 0 && lwkt_add(bank, 0, ANY, 1, &value) == 22 && lwkt_give(bank, 0, ANY) == 0, "an addition to no tally");
    count(lwkt_take(bank, 0, TALLY) == 0 && lwkt_store(bank, 0, TALLY, 0, 1) == 22, "a store in a tally");
    count(lwkt_add(bank, 0, TALLY, UINT64_MAX, &value) == 21 && value == 77 && lwkt_give(bank, 0, TALLY) == 0, "a sum too large");
    int all = 1;
    for (int i = 0; i < 32; i += 1) all = all && lwkt_take(bank, 3, ANY) == 0;
    count(all && lwkt_take(bank, 3, ANY) == 10 && lwkt_again(bank, 3, ANY) == 10 && lwkt_share(bank, 3, ORDER) == 10, "32 references");
    for (int i = 0; i < 32; i += 1) all = all && lwkt_give(bank, 3, ANY) == 0;
    count(all && lwkt_give(bank, 3, ANY) == 13, "all are given back");
    count(lwkt_take(bank, 0, ORDER) == 0 && lwkt_store(bank, 0, ORDER, 0, 9) == 0 && lwkt_give(bank, 0, ORDER) == 19 && lwkt_restore(bank, 0, ORDER) == 0, "restored");
    count(lwkt_load(bank, 0, ORDER, 0, &value) == 0 && value == 1 && lwkt_give(bank, 0, ORDER) == 0, "the first row is there again");
}

// Two things in one call: as the two calls one after the other.
static void both_at_once(void) {
    uint64_t value = 77;
    count(lwkt_take_load(bank, 4, ANY, 0, &value) == 30 && lwkt_store_give(bank, 4, ANY, 0, 1) == 30, "no such seat");
    count(lwkt_take_load(bank, 0, TOKENS, 9, &value) == 16 && lwkt_take_load(bank, 0, 256, 0, &value) == 16 && lwkt_store_give(bank, 0, TOKENS, 9, 1) == 16, "no such token");
    count(lwkt_take_load(bank, 0, ANY, 1, &value) == 17 && lwkt_take_load(bank, 0, ANY, 256, &value) == 17 && lwkt_store_give(bank, 0, ANY, 1, 1) == 17, "no such cell");
    count(value == 77 && lwkt_give(bank, 0, ANY) == 13 && lwkt_store_give(bank, 0, ANY, 0, 1) == 13, "nothing was taken");
    count(lwkt_share(bank, 0, ANY) == 0 && lwkt_take_load(bank, 0, ANY, 0, &value) == 11 && lwkt_store_give(bank, 0, ANY, 0, 1) == 18, "held shared");
    count(lwkt_take_load(bank, 1, ANY, 0, &value) == 23 && lwkt_take_load(bank, 1, ANY, 1, &value) == 17 && value == 77, "another seat holds it");
    count(lwkt_give(bank, 0, ANY) == 0 && lwkt_take_load(bank, 0, ANY, 0, &value) == 0 && value == 0, "a token is taken, and its cell loaded");
    count(lwkt_store_give(bank, 0, ANY, 1, 5) == 17 && lwkt_take_load(bank, 0, ANY, 0, &value) == 0 && value == 0, "a further reference");
    count(lwkt_store_give(bank, 0, ANY, 0, 5) == 0 && lwkt_load(bank, 0, ANY, 0, &value) == 0 && value == 5, "stored, and one reference given back");
    count(lwkt_store_give(bank, 0, ANY, 0, 0) == 0 && lwkt_give(bank, 0, ANY) == 13, "stored, and the last one given back");
    count(lwkt_take_load(bank, 1, TALLY, 0, &value) == 0 && lwkt_store_give(bank, 1, TALLY, 0, 6) == 22 && lwkt_give(bank, 1, TALLY) == 0, "a store in a tally");
    count(lwkt_take_load(bank, 1, ORDER, 1, &value) == 0 && value == 2 && lwkt_store_give(bank, 1, ORDER, 0, 9) == 19, "the law is broken");
    count(lwkt_load(bank, 1, ORDER, 0, &value) == 0 && value == 9 && lwkt_take(bank, 0, ORDER) == 23, "it is stored, and the token held");
    count(lwkt_store_give(bank, 1, ORDER, 0, 1) == 0 && lwkt_take_load(bank, 0, ORDER, 0, &value) == 0 && value == 1, "stored again, and given back");
    int all = lwkt_give(bank, 0, ORDER) == 0;
    for (int i = 0; i < 32; i += 1) all = all && lwkt_take_load(bank, 3, ANY, 0, &value) == 0;
    count(all && lwkt_take_load(bank, 3, ORDER, 0, &value) == 10 && lwkt_take_load(bank, 3, ORDER, 2, &value) == 17 && value == 0, "32 references");
    for (int i = 0; i < 32; i += 1) all = all && lwkt_store_give(bank, 3, ANY, 0, 0) == 0;
    count(all && lwkt_give(bank, 3, ANY) == 13, "all are given back");
}

// Whether the record of a token that the seat holds is this text.
static int has_record(uint32_t seat, uint32_t tok, const char *text) {
    uint8_t bytes[LWKT_RECORD_ROOM];
    size_t length = 99;
    return lwkt_read_record(bank, seat, tok, bytes, sizeof bytes, &length) == 0 && length == strlen(text) && memcmp(bytes, text, length) == 0;
}

static uint32_t write_text(uint32_t seat, uint32_t tok, const char *text) {
    return lwkt_write_record(bank, seat, tok, (const uint8_t *)text, strlen(text));
}

static void refused_records(void) {
    uint8_t bytes[LWKT_RECORD_ROOM + 1] = {0};
    size_t length = 77;
    count(lwkt_read_record(bank, 4, NOTE, bytes, 64, &length) == 30 && write_text(4, NOTE, "b") == 30, "no such seat");
    count(lwkt_read_record(bank, 0, TOKENS, bytes, 64, &length) == 16 && write_text(0, UINT32_MAX, "b") == 16, "no such token");
    count(lwkt_read_record(bank, 0, ANY, bytes, 64, &length) == 17 && write_text(0, ANY, "b") == 17, "no record");
    count(lwkt_read_record(bank, 0, NOTE, bytes, 64, &length) == 13 && write_text(0, NOTE, "b") == 13, "not held");
    count(lwkt_write_record(bank, 0, NOTE, bytes, 65) == 13 && lwkt_write_record(bank, 0, ANY, bytes, 65) == 17, "what stands first is answered");
    count(lwkt_share(bank, 0, NOTE) == 0 && lwkt_read_record(bank, 0, NOTE, bytes, 64, &length) == 37, "a record read under shared");
    count(write_text(0, NOTE, "b") == 37 && lwkt_write_record(bank, 0, NOTE, bytes, 65) == 37 && lwkt_give(bank, 0, NOTE) == 0, "a record written under shared");
    count(length == 77 && bytes[0] == 0, "a refused read stores nothing");
    count(lwkt_take(bank, 0, NOTE) == 0 && lwkt_write_record(bank, 0, NOTE, bytes, 65) == 38 && has_record(0, NOTE, "abc") && lwkt_give(bank, 0, NOTE) == 0, "a record too long");
}

static void records(void) {
    uint8_t bytes[LWKT_RECORD_ROOM] = {1, 2, 3, 4, 5};
    size_t length = 0;
    uint64_t value = 0;
    count(lwkt_take(bank, 0, NOTE) == 0 && write_text(0, NOTE, "hello") == 0 && has_record(0, NOTE, "hello"), "a record is written");
    count(lwkt_restore(bank, 0, NOTE) == 0 && has_record(0, NOTE, "abc"), "the first record is there again");
    count(write_text(0, NOTE, "hello") == 0 && lwkt_give(bank, 0, NOTE) == 0, "a record is given back");
    count(lwkt_take(bank, 1, NOTE) == 0 && has_record(1, NOTE, "hello"), "another seat reads it");
    count(lwkt_read_record(bank, 1, NOTE, bytes, 3, &length) == 0 && length == 5 && memcmp(bytes, "hel\4\5", 5) == 0, "as far as there is room");
    count(lwkt_read_record(bank, 1, NOTE, bytes, 0, &length) == 0 && length == 5 && bytes[0] == 'h', "no room");
    memset(bytes, 'x', sizeof bytes);
    count(lwkt_write_record(bank, 1, NOTE, bytes, sizeof bytes) == 0 && lwkt_give(bank, 1, NOTE) == 0, "a record of 64 bytes");
    memset(bytes, 0, sizeof bytes);
    count(lwkt_take(bank, 0, NOTE) == 0 && lwkt_read_record(bank, 0, NOTE, bytes, 64, &length) == 0 && length == 64 && bytes[0] == 'x' && bytes[63] == 'x', "it is read whole");
    count(write_text(0, NOTE, "") == 0 && has_record(0, NOTE, "") && lwkt_give(bank, 0, NOTE) == 0, "a record of no bytes");
    count(lwkt_take(bank, 0, LEN) == 0 && lwkt_load(bank, 0, LEN, 0, &value) == 0 && lwkt_read_record(bank, 0, LEN, bytes, 64, &length) == 0 && value == length, "the cell has its length");
    count(lwkt_store(bank, 0, LEN, 0, 5) == 0 && write_text(0, LEN, "hello") == 0 && lwkt_lawful(bank, 0, LEN) == 0 && lwkt_give(bank, 0, LEN) == 0, "both are written");
    count(lwkt_take(bank, 0, LEN) == 0 && write_text(0, LEN, "x") == 0 && lwkt_lawful(bank, 0, LEN) == 19 && lwkt_give(bank, 0, LEN) == 19, "another length");
    count(lwkt_restore(bank, 0, LEN) == 0 && has_record(0, LEN, "hello") && lwkt_load(bank, 0, LEN, 0, &value) == 0 && value == 5 && lwkt_give(bank, 0, LEN) == 0, "restored");
}

static void opened_records(void) {
    lwkt_bank other = {NULL};
    lwkt_token long_one = guarding(token(0, 0, 1, LWKT_LAW_ANY, 0), "a"), two = long_one, bare = token(0, 0, 1, LWKT_LAW_LEN, 0);
    lwkt_token no_cell = guarding(token(0, 0, 0, LWKT_LAW_LEN, 0), "a"), tally = guarding(token(1, 0, 1, LWKT_LAW_TALLY, 1), "a");
    lwkt_token broken = guarding(token(4, 0, 1, LWKT_LAW_LEN, 0), "abc");
    long_one.record_length = 65;
    two.record_count = 2;
    count(lwkt_bank_open(&long_one, 1, 1, &other) == 39 && lwkt_bank_open(&two, 1, 1, &other) == 39, "a record past its limits");
    count(lwkt_bank_open(&bare, 1, 1, &other) == 39 && lwkt_bank_open(&no_cell, 1, 1, &other) == 39 && lwkt_bank_open(&tally, 1, 1, &other) == 39, "a record and a law that don't fit");
    count(lwkt_bank_open(&broken, 1, 1, &other) == 40 && other.place == NULL, "a length that the cell hasn't");
}

// Adds to the cell of the token of any values and to the tally, which it takes together, in one order or in the other.
static void *work_on_lists(void *told) {
    static const lwkt_reference lists[2][2] = {{{ANY, LWKT_EXCLUSIVE}, {TALLY, LWKT_EXCLUSIVE}}, {{TALLY, LWKT_EXCLUSIVE}, {ANY, LWKT_EXCLUSIVE}}};
    worker *mine = told;
    for (int i = 0; i < ROUNDS / 100; i += 1) {
        uint64_t value, sum;
        size_t missed;
        uint32_t restored, status;
        while ((status = lwkt_resume(bank, mine->seat, lists[mine->seat % 2], 2, &missed)) == LWKT_BUSY || status == LWKT_RACE) sched_yield();
        int good = status == 0 && lwkt_load(bank, mine->seat, ANY, 0, &value) == 0 && lwkt_store(bank, mine->seat, ANY, 0, value + 1) == 0;
        good = good && lwkt_add(bank, mine->seat, TALLY, 1, &sum) == 0 && lwkt_block(bank, mine->seat, &restored) == 0;
        mine->good = mine->good && good;
    }
    return NULL;
}

static void sections_of_lists(void) {
    pthread_t threads[THREADS];
    worker workers[THREADS];
    uint64_t any = value_of(ANY, 0), tally = value_of(TALLY, 0);
    for (uint32_t i = 0; i < THREADS; i += 1) {
        workers[i] = (worker){i, 1};
        count(pthread_create(&threads[i], NULL, work_on_lists, &workers[i]) == 0, "a thread starts");
    }
    for (int i = 0; i < THREADS; i += 1) {
        pthread_join(threads[i], NULL);
        count(workers[i].good, "each list is taken and given up");
    }
    count(value_of(ANY, 0) == any + (uint64_t)THREADS * (ROUNDS / 100), "4,000 stores came to the cell");
    count(value_of(TALLY, 0) == tally + (uint64_t)THREADS * (ROUNDS / 100), "4,000 additions came to the tally");
}

static void lists(void) {
    static const lwkt_reference both[2] = {{LEN, LWKT_EXCLUSIVE}, {SUM, LWKT_EXCLUSIVE}}, alone[2] = {{ANY, LWKT_EXCLUSIVE}, {SUM, LWKT_EXCLUSIVE}}, mixed[3] = {{ANY, LWKT_SHARED}, {ANY, LWKT_EXCLUSIVE}, {TOKENS, LWKT_SHARED}};
    lwkt_reference many[33], three[3] = {{ANY, LWKT_SHARED}, {SUM, LWKT_EXCLUSIVE}, {ANY, LWKT_SHARED}}, wrong[2] = {{ANY, LWKT_SHARED}, {TOKENS, LWKT_SHARED}};
    size_t missed = 77;
    uint32_t restored = 77;
    uint64_t value = 0;
    for (int i = 0; i < 33; i += 1) many[i] = (lwkt_reference){ANY, LWKT_SHARED};
    count(lwkt_resume(bank, 4, three, 3, &missed) == 30 && missed == 77 && lwkt_block(bank, 4, &restored) == 30 && restored == 77, "no such seat");
    count(lwkt_resume(bank, 0, three, 3, &missed) == 0 && missed == 77, "a list is taken");
    count(lwkt_store(bank, 0, SUM, 0, 1) == 0 && lwkt_load(bank, 0, ANY, 0, &value) == 0, "its tokens are held");
    count(lwkt_resume(bank, 0, three, 3, &missed) == 51 && missed == 77, "a seat that holds something");
    count(lwkt_take(bank, 1, ANY) == 23 && lwkt_take(bank, 1, SUM) == 23, "another seat gets neither");
    count(lwkt_block(bank, 0, &restored) == 19 && restored == SUM, "a broken section is restored");
    count(lwkt_give(bank, 0, ANY) == 13 && lwkt_give(bank, 0, SUM) == 13, "nothing is held");
    count(lwkt_take(bank, 1, SUM) == 0 && lwkt_lawful(bank, 1, SUM) == 0, "the first row is there again");
    count(lwkt_resume(bank, 0, three, 3, &missed) == 23 && missed == 1 && lwkt_give(bank, 0, ANY) == 13, "one is missed, and nothing is held");
    restored = 77;
    count(lwkt_block(bank, 1, &restored) == 0 && restored == 77 && lwkt_block(bank, 1, &restored) == 0, "all is given up, and nothing");
    count(lwkt_resume(bank, 0, both, 2, &missed) == 0 && lwkt_store(bank, 0, LEN, 0, 65) == 0 && lwkt_store(bank, 0, SUM, 0, 1) == 0, "two sections are broken");
    count(lwkt_block(bank, 0, &restored) == 19 && restored == SUM, "the lowest token is named");
    count(lwkt_resume(bank, 1, both, 2, &missed) == 0 && lwkt_lawful(bank, 1, LEN) == 0 && lwkt_lawful(bank, 1, SUM) == 0 && lwkt_block(bank, 1, &restored) == 0, "both are restored");
    count(lwkt_resume(bank, 0, wrong, 2, &missed) == 16 && missed == 1, "a list with no such token");
    wrong[1] = (lwkt_reference){ANY, 2};
    count(lwkt_resume(bank, 0, wrong, 2, &missed) == 39 && missed == 1, "a list with no such mode");
    wrong[1] = (lwkt_reference){ANY, LWKT_EXCLUSIVE};
    count(lwkt_resume(bank, 0, wrong, 2, &missed) == 11 && missed == 1, "exclusive behind shared");
    count(lwkt_resume(bank, 0, mixed, 3, &missed) == 11 && missed == 1 && lwkt_give(bank, 0, ANY) == 13, "the first place that is wrong");
    count(lwkt_resume(bank, 0, many, 33, &missed) == 10 && missed == 32, "33 references");
    count(lwkt_resume(bank, 0, many, 32, &missed) == 0 && lwkt_again(bank, 0, ANY) == 10 && lwkt_block(bank, 0, &restored) == 0, "32 references");
    count(lwkt_resume(bank, 0, many, 0, &missed) == 0 && lwkt_block(bank, 0, &restored) == 0, "no references");
    count(lwkt_mark(bank, 0, ANY) == 0 && lwkt_resume(bank, 1, many, 2, &missed) == 23 && missed == 0, "a mark holds off a list of one token");
    count(lwkt_resume(bank, 1, three, 3, &missed) == 0 && lwkt_block(bank, 1, &restored) == 0, "and no other");
    count(lwkt_take(bank, 0, ANY) == 0 && lwkt_block(bank, 0, &restored) == 0, "the mark is gone");
    count(lwkt_mark(bank, 0, ANY) == 0 && lwkt_take(bank, 1, SUM) == 0 && lwkt_resume(bank, 0, alone, 2, &missed) == 23 && missed == 1, "a list is missed at its end");
    count(lwkt_share(bank, 2, ANY) == 0 && lwkt_give(bank, 2, ANY) == 0 && lwkt_give(bank, 1, SUM) == 0, "the mark of its front is cleared");
}

static void openings(void) {
    lwkt_bank other = {NULL};
    lwkt_token broken = token(5, 6, 2, LWKT_LAW_SUM, 10), unknown = token(0, 0, 1, 6, 0), wide = token(0, 0, 5, LWKT_LAW_ANY, 0);
    lwkt_token good = token(1, 0, 1, LWKT_LAW_ANY, 0), pair = token(1, 0, 2, LWKT_LAW_TALLY, 0), worn = good, many[65];
    worn.generation = UINT64_C(70368744177663);
    for (int i = 0; i < 65; i += 1) many[i] = good;
    count(lwkt_bank_open(&broken, 1, 1, &other) == 40, "an opening that breaks its law");
    count(lwkt_bank_open(&unknown, 1, 1, &other) == 39 && lwkt_bank_open(&wide, 1, 1, &other) == 39 && lwkt_bank_open(&pair, 1, 1, &other) == 39, "no such token");
    count(lwkt_bank_open(&good, 1, 0, &other) == 39 && lwkt_bank_open(&good, 1, 9, &other) == 39 && lwkt_bank_open(many, 65, 1, &other) == 39, "limits");
    worn.generation += 1;
    count(lwkt_bank_open(&worn, 1, 1, &other) == 39 && other.place == NULL, "a refused opening stores nothing");
    lwkt_bank last;
    worn.generation -= 1;
    count(lwkt_bank_open(&worn, 1, 1, &last) == 0 && lwkt_take(last, 0, 0) == 20 && lwkt_share(last, 0, 0) == 0 && lwkt_give(last, 0, 0) == 0, "the last generation");
    static const lwkt_reference whole = {0, LWKT_EXCLUSIVE};
    size_t missed = 77;
    count(lwkt_resume(last, 0, &whole, 1, &missed) == 20 && missed == 0 && lwkt_give(last, 0, 0) == 13, "the last generation, on a list");
    lwkt_closing closing;
    count(lwkt_bank_close(last, &closing, 1) == 0 && lwkt_bank_free(&last) == 0, "it closes, and is freed");
}

int main(void) {
    lwkt_token tokens[TOKENS] = {token(5, 0, 1, LWKT_LAW_TALLY, 5), token(400000, 600000, 2, LWKT_LAW_SUM, 1000000), token(0, 0, 1, LWKT_LAW_ANY, 0), token(1, 2, 2, LWKT_LAW_ORDER, 0)};
    tokens[LEN] = guarding(token(3, 0, 1, LWKT_LAW_LEN, 0), "aaa");
    tokens[NOTE] = guarding(token(0, 0, 0, LWKT_LAW_ANY, 0), "abc");
    count(lwkt_bank_open(tokens, TOKENS, THREADS, &bank) == 0, "a bank opens");
    if (failed == 0) {
        sections();
        one_seat();
        numbers();
        both_at_once();
        refused_records();
        records();
        lists();
        sections_of_lists();
        openings();
        opened_records();
        lwkt_closing closings[TOKENS];
        count(lwkt_bank_close(bank, closings, TOKENS) == 0 && lwkt_bank_free(&bank) == 0, "the bank closes, and is freed");
    }
    printf("%d passed, %d failed\n", passed, failed);
    return failed != 0;
}
