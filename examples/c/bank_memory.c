// Refuses each call for memory of an opening in turn, and sees that a close makes none. Linked with --wrap, so that malloc, realloc and free come by here.
// It writes a line for each thing that isn't so, and last a line that counts.
#include <stdio.h>
#include <stdlib.h>

#include "lwkt.h"

// The calls for memory so far, the one that is refused, and the blocks that are out.
static long calls, refused, blocks;
static int passed, failed;

void *__real_malloc(size_t size);
void *__real_realloc(void *block, size_t size);
void __real_free(void *block);
void *__wrap_malloc(size_t size);
void *__wrap_realloc(void *block, size_t size);
void __wrap_free(void *block);

void *__wrap_malloc(size_t size) {
    calls += 1;
    void *block = calls == refused ? NULL : __real_malloc(size);
    blocks += block != NULL;
    return block;
}

void *__wrap_realloc(void *block, size_t size) {
    calls += 1;
    void *other = calls == refused ? NULL : __real_realloc(block, size);
    blocks += block == NULL && other != NULL;
    return other;
}

void __wrap_free(void *block) {
    blocks -= block != NULL;
    __real_free(block);
}

static void count(int good, const char *what) {
    good ? (passed += 1) : (failed += 1, printf("bank_memory: %s, %ld calls for memory\n", what, refused));
}

static const lwkt_token tokens[2] = {{.cells = {5}, .param = 5, .cell_count = 1, .law = LWKT_LAW_TALLY}, {.law = LWKT_LAW_ANY, .record = "abc", .record_length = 3, .record_count = 1}};

// Whether a bank closes without a call for memory, which leaves its desk and the words and slots of the places of its seats, and then is
// freed, so that as many blocks are out as before it was opened.
static int closes_and_goes(lwkt_bank *bank, long out) {
    lwkt_closing closings[2];
    long before = calls;
    int good = lwkt_bank_close(*bank, closings, 2) == 0 && calls == before && closings[0].cells[0] == 5 && closings[1].record_length == 3;
    return good && blocks == out + 3 && lwkt_bank_free(bank) == 0 && calls == before && blocks == out;
}

// Each call for memory of an opening is refused in turn. Some are tried in another way then, and the bank is opened.
static void openings(void) {
    int good = 1;
    for (long which = 1; which < 200; which += 1) {
        lwkt_bank bank = {NULL};
        long out = blocks;
        calls = 0;
        refused = which;
        uint32_t status = lwkt_bank_open(tokens, 2, 3, &bank);
        int is_past = calls < which;
        if (status == 32) good = good && bank.place == NULL && blocks == out;
        refused = 0;
        if (status != 32) good = good && status == 0 && closes_and_goes(&bank, out);
        if (is_past) break;
        good = good && which < 199;
    }
    count(good, "an opening that is refused for memory takes none");
}

// A close takes no memory, so it is never refused for it, and neither is what is told of the tokens lost.
static void closes(void) {
    lwkt_bank bank = {NULL};
    long out = blocks;
    count(lwkt_bank_open(tokens, 2, 3, &bank) == 0, "a bank opens");
    refused = calls + 1;
    count(closes_and_goes(&bank, out), "a close takes no memory");
    refused = 0;
}

int main(void) {
    openings();
    closes();
    printf("%d passed, %d failed\n", passed, failed);
    return failed != 0;
}
