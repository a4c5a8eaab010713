// Tries what include/lwkt.h says of texts of the language and of all orders. It writes a line for each thing that isn't so, and last a
// line that counts: `N passed, M failed`.
#include <stdio.h>
#include <stdlib.h>
#include <string.h>

#include "lwkt.h"

static const char good[] =
    "token word: any, cells 5\nthread only on 0:\n  get word; write word.0 7; rel word\nalways ended\nnever word.0 = 7\n";
static const char report[] = "token 0 gen 1 cells 7\nthread 0.0 exited list - log -\nlawful\n4: holds\n5: doesn't hold\n";
static const char wrong[] = "token word: any, cells 5\nthread only on 0:\n  get wort\n  wriet word.0 1\n";
static const char told[] =
    "lwkt: standard input:3:7: a token is wanted here\n      get wort\n          ^\n    did you mean `word`?\n"
    "lwkt: standard input:4:3: no sentence begins with";
static const char crossed[] =
    "message one of here; message other of there\nthread here on 0:\n  do one -> there\nthread there on 1:\n  do other -> here\n";
static const char script[] =
    "{\"version\":1,\"turns\":50,\"idle\":100000000,\"cpus\":1,\"tokens\":[{\"cells\":[5],\"law\":\"any\",\"param\":0,\"gen\":0}],"
    "\"messages\":[],\"threads\":[{\"cpu\":0,\"repeat\":1,\"steps\":[[\"get\",0],[\"write\",0,0,7],[\"rel\",0]]}]}";
static const char without_turns[] =
    "{\"version\":1,\"turns\":0,\"idle\":1,\"cpus\":1,\"tokens\":[],\"messages\":[],\"threads\":[]}";

// How words on input begin that tell one place of its first line.
static const char on_input[] = "lwkt: standard input:1:";

static int passed, failed;

static void count(int is, const char *what) {
    is ? (passed += 1) : (failed += 1, printf("texts: %s\n", what));
}

static const uint8_t *bytes(const char *text) {
    return (const uint8_t *)text;
}

typedef uint32_t text_call(const uint8_t *script, size_t length, uint8_t *text, size_t room, lwkt_answer *answer);

static uint32_t explore(const uint8_t *script, size_t length, uint8_t *text, size_t room, lwkt_answer *answer) {
    return lwkt_explore_orders(script, length, 1000, 1000, text, room, answer);
}

static uint32_t show(const uint8_t *script, size_t length, uint8_t *text, size_t room, lwkt_answer *answer) {
    return lwkt_show_turns(script, length, bytes("turns"), 5, text, room, answer);
}

// A call: its status, its fault, and what its text begins with.
static void try_call(text_call *call, const char *script, uint32_t wanted, uint32_t fault, const char *begin) {
    static uint8_t text[65536];
    lwkt_answer answer = {7, 7, 7};
    uint32_t status = call(bytes(script), strlen(script), text, sizeof text, &answer);
    count(status == wanted && answer.fault == fault && answer.place == 0 && answer.length >= strlen(begin)
              && memcmp(text, begin, strlen(begin)) == 0,
          begin);
}

// A call with room for so many bytes: the front of its text stands there, and what lies behind stays.
static void try_room(text_call *call, size_t room) {
    static uint8_t whole[65536];
    lwkt_answer all = {7, 7, 7}, answer = {7, 7, 7};
    uint8_t *text = malloc(room + 16);
    if (text == NULL) exit(3);
    memset(text, 0xa5, room + 16);
    uint32_t wanted = call(bytes(good), strlen(good), whole, sizeof whole, &all);
    uint32_t status = call(bytes(good), strlen(good), text, room, &answer);
    size_t front = room < all.length ? room : all.length;
    int is = status == wanted && answer.length == all.length && memcmp(text, whole, front) == 0;
    for (size_t i = front; i < room + 16; i += 1) is = is && text[i] == 0xa5;
    count(is, "a text in a buffer");
    free(text);
}

static void try_forms(void) {
    static const char json[] = "{\"version\":1}";
    count(lwkt_is_text(bytes(good), strlen(good)) == 1, "a text is one");
    count(lwkt_is_text(bytes(wrong), strlen(wrong)) == 1, "one that is refused too");
    count(lwkt_is_text(bytes(json), strlen(json)) == 0, "JSON is none");
    count(lwkt_is_text(bytes("true"), 4) == 0, "nor is a word of JSON");
    count(lwkt_is_text(bytes("["), 1) == 0, "nor what begins as JSON");
    count(lwkt_is_text(bytes(""), 0) == 0, "nor nothing");
    count(lwkt_is_text(bytes("#!/bin/sh\n"), 10) == 0 && lwkt_is_text(bytes("turns 5\n"), 8) == 0, "nor what declares nothing");
}

// A text's JSON runs as the text does.
static void try_json(void) {
    static uint8_t json[65536], text[65536];
    lwkt_answer answer = {7, 7, 7};
    uint32_t status = lwkt_text_json(bytes(good), strlen(good), json, sizeof json, &answer);
    count(status == 0 && answer.fault == 0 && lwkt_is_text(json, answer.length) == 0, "a text in JSON");
    size_t length = strlen(report) - strlen("4: holds\n5: doesn't hold\n");
    status = lwkt_run_turns(json, answer.length, text, sizeof text, &answer);
    count(status == 0 && answer.length == length && memcmp(text, report, length) == 0, "the JSON of a text, run");
}

// Bytes without a sentence that declares something aren't taken for a text, nor are more than 1048576; what they say can be read all the
// same.
static void try_long(void) {
    static const char token[] = "token word: any, cells 0\n";
    size_t size = 1048577;
    uint8_t *text = malloc(size), *json = malloc(size);
    lwkt_answer answer = {7, 7, 7};
    if (text == NULL || json == NULL) exit(3);
    memset(text, '#', size);
    count(lwkt_is_text(text, size - 1) == 0, "a comment declares nothing");
    memcpy(text, token, strlen(token));
    count(lwkt_is_text(text, size - 1) == 1 && lwkt_is_text(text, size) == 0, "a text that is too long");
    count(lwkt_text_json(text, size, json, size, &answer) == 0, "one of more bytes than a script in JSON");
    free(text);
    free(json);
}

// Whether a text has these words.
static int has_words(const uint8_t *text, size_t length, const char *words) {
    size_t size = strlen(words);
    for (size_t at = 0; at + size <= length; at += 1) {
        if (memcmp(text + at, words, size) == 0) return 1;
    }
    return 0;
}

static void try_orders(void) {
    static uint8_t text[4096];
    static const char part[] = "; a part (states)\n4: not decided\n5: doesn't hold, order 0 0 0 0\n";
    size_t length = strlen(part);
    lwkt_answer answer = {7, 7, 7};
    uint32_t status = lwkt_explore_orders(bytes(good), strlen(good), 2, 1000, text, sizeof text, &answer);
    count(status == 5 && answer.length < sizeof text && memcmp(text + answer.length - length, part, length) == 0, "a bound on states");
    status = lwkt_explore_orders(bytes(good), strlen(good), 1000, 1, text, sizeof text, &answer);
    count(status == 5 && memcmp(text, "outcome 1 cut, order 0\n", 23) == 0, "a bound on turns");
    status = lwkt_explore_orders(bytes(good), strlen(good), 0, 0, text, sizeof text, &answer);
    count(status == 5, "bounds of nothing");
    status = lwkt_explore_orders(bytes(good), strlen(good), 0, 1000, text, sizeof text, &answer);
    count(status == 5 && has_words(text, answer.length, "1 outcome; 1 state, "), "a bound of no states");
    status = lwkt_explore_orders(bytes(without_turns), strlen(without_turns), 1000, 1000, text, sizeof text, &answer);
    count(status == 1 && answer.fault == 33 && answer.place == 3 && memcmp(text, on_input, strlen(on_input)) == 0, "a script of no turns");
    status = lwkt_explore_orders(bytes(good), strlen(good), 1000, 1000, text, sizeof text, &answer);
    count(status == 5 && has_words(text, answer.length, "complete\n4: holds\n5: doesn't hold, order 0 0 0"), "every order, and what is expected of it");
}

// A run along an order, and one along an order that names a processor that isn't there.
static void try_along(void) {
    static uint8_t json[65536], text[65536];
    static const char along[] = "turns --order 0000", absent[] = "turns --order 01", first[] = "turn 0, round 0, processor 0, ";
    static const char why[] = "lwkt: standard input: the order names a processor that isn't there; the last one is 0\n";
    lwkt_answer answer = {7, 7, 7};
    lwkt_text_json(bytes(good), strlen(good), json, sizeof json, &answer);
    size_t length = answer.length;
    uint32_t status = lwkt_show_turns(json, length, bytes(along), strlen(along), text, sizeof text, &answer);
    count(status == 0 && answer.fault == 0 && memcmp(text, first, strlen(first)) == 0, "a run along an order");
    status = lwkt_show_turns(bytes(good), strlen(good), bytes(along), strlen(along), text, sizeof text, &answer);
    count(status == 0 && answer.fault == 0 && memcmp(text, first, strlen(first)) == 0, "that of a text");
    status = lwkt_show_turns(json, length, bytes(absent), strlen(absent), text, sizeof text, &answer);
    count(status == 1 && answer.fault == 30 && answer.length == strlen(why) && memcmp(text, why, answer.length) == 0, "a processor that isn't there");
}

int main(void) {
    try_forms();
    try_json();
    try_long();
    try_orders();
    try_along();
    try_call(lwkt_run_text, good, 5, 0, report);
    try_call(lwkt_run_text, wrong, 1, 33, told);
    try_call(lwkt_text_json, wrong, 1, 33, told);
    try_call(explore, wrong, 1, 33, told);
    try_call(show, wrong, 1, 33, told);
    try_call(explore, good, 5, 0, "outcome 1 ended, order 0 0 0 0\ntoken 0 gen 1 cells 7\n");
    try_call(explore, crossed, 2, 0, "outcome 1 stuck, order 0 1 0\n");
    try_call(lwkt_run_text, crossed, 2, 0, "message 0 round 1 out\n");
    try_call(lwkt_run_text, "token sums: sum 10, cells 5 6", 1, 40, on_input);
    try_call(explore, "token sums: sum 10, cells 5 6", 1, 40, on_input);
    try_call(explore, "[", 1, 33, on_input);
    try_call(explore, "turns 5\n", 1, 33, on_input);
    try_call(explore, "#!/bin/sh\n", 1, 33, on_input);
    try_call(explore, script, 0, 0, "outcome 1 ended, order 0 0 0");
    for (size_t room = 0; room < 200; room += 7) {
        try_room(lwkt_text_json, room);
        try_room(lwkt_run_text, room);
        try_room(explore, room);
    }
    printf("%d passed, %d failed\n", passed, failed);
    return failed != 0;
}
