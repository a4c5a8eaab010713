// Refuses the calls for memory of each call of the library in turn: each call answers 3 with the fault 32, or the same as
// with ample memory, and gives back all that it took. Linked with --wrap, so that malloc, realloc and free come by here. It writes a
// line for each thing that isn't so, and last a line that counts.
#include <stdio.h>
#include <stdlib.h>
#include <string.h>

#include "lwkt.h"

static const char script[] =
    "{\"version\":1,\"turns\":50,\"idle\":100000000,\"cpus\":2,\"tokens\":[{\"cells\":[5],\"law\":\"any\",\"param\":0,\"gen\":0}],"
    "\"messages\":[{\"of\":[0,0],\"round\":0}],\"threads\":[{\"cpu\":0,\"repeat\":1,\"steps\":[[\"get\",0],[\"write\",0,0,7],[\"rel\",0]]},"
    "{\"cpu\":1,\"repeat\":1,\"steps\":[[\"get\",0],[\"read\",0,0],[\"rel\",0]]}]}";
static const char trace[] =
    "{\"version\":1,\"cpus\":2,\"tokens\":[{\"cells\":[0],\"law\":\"any\",\"param\":0,\"gen\":0}],\"messages\":[],"
    "\"events\":[[\"take\",0,0],[\"take\",1,0]],\"last\":null}";
static const char arguments[] = "turns --svg";
static const char said[] =
    "token word: any, cells 5\nthread only on 0:\n  get word; write word.0 7; rel word\nalways ended\nnever word.0 = 7\n";

// The calls for memory so far, the one that is refused, and the blocks that are out.
static long calls, refused, blocks;
static int passed, failed;

void *__real_malloc(size_t size);
void *__real_realloc(void *block, size_t size);
void __real_free(void *block);
void *__wrap_malloc(size_t size);
void *__wrap_realloc(void *block, size_t size);
void __wrap_free(void *block);

void *__wrap_malloc(size_t size) {
    calls += 1;
    void *block = calls == refused ? NULL : __real_malloc(size);
    blocks += block != NULL;
    return block;
}

void *__wrap_realloc(void *block, size_t size) {
    calls += 1;
    void *other = calls == refused ? NULL : __real_realloc(block, size);
    blocks += block == NULL && other != NULL;
    return other;
}

void __wrap_free(void *block) {
    blocks -= block != NULL;
    __real_free(block);
}

// What a call is made on.
static const char *given_to(int which) {
    if (which == 1) return trace;
    return which < 3 || which == 6 ? script : said;
}

// One of the calls.
static uint32_t make(int which, uint8_t *text, size_t room, lwkt_answer *answer) {
    const uint8_t *given = (const uint8_t *)given_to(which);
    size_t length = strlen(given_to(which));
    switch (which) {
        case 3: return lwkt_text_json(given, length, text, room, answer);
        case 4: return lwkt_run_text(given, length, text, room, answer);
        case 5:
        case 6: return lwkt_explore_orders(given, length, 1000, 1000, text, room, answer);
        case 0: return lwkt_run_turns(given, length, text, room, answer);
        case 1: return lwkt_check_trace(given, length, text, room, answer);
        default: return lwkt_show_turns(given, length, (const uint8_t *)arguments, strlen(arguments), text, room, answer);
    }
}

// The next call for memory to refuse. Before a search come the run in rounds and 64 random orders, with thousands of calls, of which
// only each 61st is refused once the first ones were.
static long next_of(int which) {
    return refused + (which >= 5 && refused > 200 ? 61 : 1);
}

// A call with its calls for memory refused in turn.
static void try_call(int which, const char *name) {
    static uint8_t ample[65536], text[65536];
    lwkt_answer wanted = {0, 0, 0}, answer = {0, 0, 0};
    refused = 0;
    uint32_t status = make(which, ample, sizeof ample, &wanted);
    static const uint32_t statuses[] = {0, 4, 0, 0, 5, 5, 0};
    int good = status == statuses[which] && wanted.length <= sizeof ample && blocks == 0;
    for (refused = 1;; refused = next_of(which)) {
        calls = 0;
        uint32_t other = make(which, text, sizeof text, &answer);
        if (calls < refused) break;
        int same = other == status && answer.fault == 0 && answer.length == wanted.length && memcmp(text, ample, answer.length) == 0;
        // A search that had no more memory says that what it found is a part.
        int part = which >= 5 && other == 5 && answer.fault == 0;
        good = good && blocks == 0 && ((other == 3 && answer.fault == 32) || same || part);
    }
    good && refused > 10 ? (passed += 1) : (failed += 1, printf("memory: %s, %ld calls for memory\n", name, refused));
}

// Whether a text is one, with memory refused.
static void try_form(void) {
    int good = 1;
    for (refused = 1;; refused += 1) {
        calls = 0;
        uint32_t status = lwkt_is_text((const uint8_t *)said, strlen(said));
        if (calls < refused) break;
        good = good && blocks == 0 && (status == 3 || status == 1);
    }
    good ? (passed += 1) : (failed += 1, printf("memory: the form of a text\n"));
}

int main(void) {
    try_call(0, "a run");
    try_call(1, "a check");
    try_call(2, "a shown run");
    try_call(3, "a text in JSON");
    try_call(4, "a text, run");
    try_call(5, "the orders of a text");
    try_call(6, "the orders of a script");
    try_form();
    printf("%d passed, %d failed\n", passed, failed);
    return failed != 0;
}
