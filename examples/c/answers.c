// Tries what include/lwkt.h says of buffers, answers and refusals, and of calls from several threads. It writes a line for each thing
// that isn't so, and last a line that counts: `N passed, M failed`.
#include <pthread.h>
#include <stdio.h>
#include <stdlib.h>
#include <string.h>

#include "lwkt.h"

static const char tally[] =
    "{\"version\":1,\"turns\":50,\"idle\":100000000,\"cpus\":1,\"tokens\":[{\"cells\":[5],\"law\":\"any\",\"param\":0,\"gen\":0}],"
    "\"messages\":[],\"threads\":[{\"cpu\":0,\"repeat\":1,\"steps\":[[\"get\",0],[\"write\",0,0,7],[\"rel\",0]]}]}";
static const char report[] = "token 0 gen 1 cells 7\nthread 0.0 exited list - log -\nlawful\n";

static int passed, failed;

static void count(int good, const char *what) {
    good ? (passed += 1) : (failed += 1, printf("answers: %s\n", what));
}

static const uint8_t *bytes(const char *text) {
    return (const uint8_t *)text;
}

// A call with room for so many bytes: the front of the report stands there, and what lies behind stays.
static void try_room(size_t room) {
    size_t whole = strlen(report), front = room < whole ? room : whole, size = room + 16;
    uint8_t *text = malloc(size);
    lwkt_answer answer = {7, 7, 7};
    if (text == NULL) exit(3);
    memset(text, 0xa5, size);
    uint32_t status = lwkt_run_turns(bytes(tally), strlen(tally), text, room, &answer);
    int good = status == 0 && answer.length == whole && answer.fault == 0 && answer.place == 0 && memcmp(text, report, front) == 0;
    for (size_t i = front; i < size; i += 1) good = good && text[i] == 0xa5;
    count(good, "a report in a buffer");
    free(text);
}

// A call on a script that is refused: its status, its fault, its place, and what its text begins with.
static void try_refused(const char *script, uint32_t fault, uint32_t place, const char *begin) {
    uint8_t text[512];
    lwkt_answer answer;
    uint32_t status = lwkt_run_turns(bytes(script), strlen(script), text, sizeof text, &answer);
    count(status == 1 && answer.fault == fault && answer.place == place && answer.length >= strlen(begin)
              && memcmp(text, begin, strlen(begin)) == 0,
          begin);
}

static void try_traces(void) {
    static const char taken_twice[] =
        "{\"version\":1,\"cpus\":2,\"tokens\":[{\"cells\":[0],\"law\":\"any\",\"param\":0,\"gen\":0}],\"messages\":[],"
        "\"events\":[[\"take\",0,0],[\"take\",1,0]],\"last\":null}";
    static const char good[] = "{\"version\":1,\"cpus\":1,\"tokens\":[],\"messages\":[],\"events\":[],\"last\":null}";
    uint8_t text[64];
    lwkt_answer answer;
    uint32_t status = lwkt_check_trace(bytes(good), strlen(good), text, sizeof text, &answer);
    count(status == 0 && answer.fault == 0 && answer.length == 7 && memcmp(text, "lawful\n", 7) == 0, "a lawful trace");
    status = lwkt_check_trace(bytes(good), strlen(good) - 1, text, sizeof text, &answer);
    count(status == 1 && answer.fault == 33, "a trace that is cut off");
    status = lwkt_check_trace(bytes(taken_twice), strlen(taken_twice), text, sizeof text, &answer);
    count(status == 4 && answer.fault == 0 && answer.place == 0 && memcmp(text, "unlawful 1\n", 11) == 0, "a token that two take");
}

// Arguments of `lwkt_show`: the status and the fault.
static void try_arguments(const char *words, uint32_t wanted, const char *what) {
    static uint8_t text[65536];
    lwkt_answer answer;
    uint32_t status = lwkt_show_turns(bytes(tally), strlen(tally), bytes(words), strlen(words), text, sizeof text, &answer);
    count(status == wanted && answer.fault == 0 && answer.length > 0, what);
}

// Arguments that ask for no run: what the text begins with.
static void try_misused(const char *words, const char *begin) {
    static uint8_t text[512];
    lwkt_answer answer = {0, 7, 7};
    uint32_t status = lwkt_show_turns(bytes(tally), strlen(tally), bytes(words), strlen(words), text, sizeof text, &answer);
    count(status == 1 && answer.fault == 0 && answer.length >= strlen(begin) && memcmp(text, begin, strlen(begin)) == 0, begin);
}

// A hundred reports, each whole and right.
static void *call_often(void *told) {
    size_t whole = strlen(report);
    uint8_t text[128];
    lwkt_answer answer;
    for (int i = 0; i < 100; i += 1) {
        uint32_t status = lwkt_run_turns(bytes(tally), strlen(tally), text, sizeof text, &answer);
        if (status != 0 || answer.length != whole || memcmp(text, report, whole) != 0) *(int *)told = 0;
    }
    return NULL;
}

static void try_threads(void) {
    pthread_t threads[4];
    int told[4] = {1, 1, 1, 1};
    for (int i = 0; i < 4; i += 1) {
        if (pthread_create(&threads[i], NULL, call_often, &told[i]) != 0) exit(3);
    }
    for (int i = 0; i < 4; i += 1) {
        pthread_join(threads[i], NULL);
        count(told[i], "calls beside others");
    }
}

int main(void) {
    size_t whole = strlen(report);
    count(strcmp(lwkt_version(), LWKT_VERSION) == 0, "the version of the library");
    for (size_t room = 0; room <= whole + 3; room += 1) try_room(room);
    try_room(4096);
    try_refused("", 33, 0, "lwkt: standard input:1:1: ");
    try_refused("token word: any, cells 5", 33, 0, "lwkt: standard input: this is a text, and no JSON; lwkt_run_text runs it");
    try_refused("{\"version\":1,\"turns\":0,\"idle\":1,\"cpus\":1,\"tokens\":[],\"messages\":[],\"threads\":[]}", 33, 3,
                "lwkt: standard input:1:22: ");
    try_refused("{\"version\":1,\"turns\":1,\"idle\":1,\"cpus\":1,\"tokens\":[{\"cells\":[1],\"law\":\"sum\",\"param\":2,\"gen\":0}],"
                "\"messages\":[],\"threads\":[]}",
                40, 0, "lwkt: standard input:1:");
    try_traces();
    try_arguments("turns", 0, "turns");
    try_arguments("turns --svg", 0, "turns --svg");
    try_arguments("turns --turns 0..1 --svg", 0, "turns --turns 0..1 --svg");
    try_arguments("turns --names", 0, "names, of JSON");
    try_arguments("turns --names --order 0000 --svg", 0, "names along an order, of JSON");
    try_arguments("turns --svg --names", 1, "names behind a view");
    try_arguments("turns  --svg", 1, "two blanks between words");
    try_arguments("", 1, "no arguments");
    try_arguments("threads --chains", 1, "threads --chains");
    try_arguments("turns --turns 1000..", 1, "a range past the end");
    try_arguments("turns --order 0000", 0, "an order");
    try_arguments("turns --order 0,0,0,0 --svg", 0, "an order with commas, as a picture");
    try_arguments("turns --order 0 --trace", 2, "an order that ends early");
    try_arguments("turns --order - --turns 5..", 1, "a range past an order of no turns");
    try_arguments("turns --order 0 --rounds 0..1", 1, "rounds of a run along an order");
    try_arguments("turns \xff", 1, "arguments that aren't UTF-8");
    try_misused("turns --svgg", "lwkt: unexpected argument '--svgg' found\n    did you mean `--svg`?\ntry: turns");
    try_misused("turns --order 0 \x1b", "lwkt: unexpected argument '\\u{1b}' found\ntry: turns");
    try_misused("turns --turns 5..1", "lwkt: these arguments don't go together");
    try_misused("threads", "lwkt: the arguments begin with `turns`\ntry: turns");
    try_misused("turns \xff", "lwkt: the arguments aren't UTF-8\ntry: turns");
    try_misused("turns --turns 1000..", "lwkt: standard input: the range lies behind the end of the run\n");
    try_threads();
    printf("%d passed, %d failed\n", passed, failed);
    return failed != 0;
}
