// Tries the calls of lwkt_record.h, with each error that they can answer. `./calls` prints the names of its scenes;
// `./calls NAME` plays one and writes its trace, `./calls all` plays all of them; a number behind it chooses what is played at
// random. It ends with 1, and a line on standard error, where a call answered something else than it has to. calls.out has what `lwkt_check` says of each trace.
#define LWKT_RECORD_BYTES_MOST UINT64_C(60000)
#include "lwkt_record.h"
#include <pthread.h>
#include <sched.h>
#include <stdatomic.h>
#include <string.h>

static lwkt_record recorder;
static const char *scene_name;
static _Atomic(bool) has_failed;
static uint64_t seed = 1;

static void want_at(int line, int error, int wanted)
{
    if (error == wanted)
        return;
    has_failed = true;
    fprintf(stderr, "calls.c:%d: %s: %d (%s), wanted %d (%s)\n", line, scene_name, error, lwkt_record_words(error), wanted,
            lwkt_record_words(wanted));
}
#define WANT(WANTED, CALL) want_at(__LINE__, CALL, LWKT_RECORD_##WANTED)

static void open_scene(unsigned processors, unsigned tokens, unsigned messages, size_t room)
{
    WANT(OK, lwkt_record_open(&recorder, processors, tokens, messages, room));
}

// A token with cells of which law asks something.
static void open_sum(void)
{
    static const uint64_t cells[2] = {60, 40};
    open_scene(2, 1, 0, 100);
    WANT(OK, lwkt_record_token(&recorder, 0, LWKT_RECORD_SUM, 100, 5, cells, 2));
}

static int let_go(void *context, const char *bytes, size_t count)
{
    (void)context;
    (void)bytes;
    (void)count;
    return 0;
}

static void nothing_happens(void)
{
    open_scene(1, 0, 0, 0);
    WANT(OK, lwkt_record_end(&recorder));
    WANT(OK, lwkt_record_to_file(&recorder, stdout));
}

// Sections of each kind, nested, with a row of the caller's as its end.
static void sections(void)
{
    static const uint64_t cells[2] = {50, 50};
    open_sum();
    WANT(OK, lwkt_record_take(&recorder, 0, 0));
    WANT(OK, lwkt_record_again(&recorder, 0, 0));
    want_at(__LINE__, (int)lwkt_record_held(&recorder, 0, 0), 2);
    WANT(OK, lwkt_record_mark(&recorder, 1, 0));
    WANT(OK, lwkt_record_load(&recorder, 1, 0));
    WANT(OK, lwkt_record_read(&recorder, 0, 0, 0, 60));
    WANT(OK, lwkt_record_write(&recorder, 0, 0, 0, 50));
    WANT(OK, lwkt_record_give(&recorder, 0, 0));
    WANT(OK, lwkt_record_write(&recorder, 0, 0, 1, 50));
    WANT(OK, lwkt_record_give(&recorder, 0, 0));
    WANT(OK, lwkt_record_share(&recorder, 0, 0));
    WANT(OK, lwkt_record_share(&recorder, 1, 0));
    WANT(OK, lwkt_record_read(&recorder, 1, 0, 1, 50));
    WANT(OK, lwkt_record_give(&recorder, 0, 0));
    WANT(OK, lwkt_record_give_as(&recorder, 1, 0, LWKT_RECORD_ONE));
    WANT(OK, lwkt_record_take(&recorder, 1, 0));
    WANT(OK, lwkt_record_write(&recorder, 1, 0, 0, 1));
    WANT(OK, lwkt_record_write(&recorder, 1, 0, 0, 50));
    WANT(OK, lwkt_record_give(&recorder, 1, 0));
    WANT(OK, lwkt_record_end_cells(&recorder, 0, cells, 2));
    WANT(OK, lwkt_record_end_generation(&recorder, 0, 6));
    WANT(OK, lwkt_record_to_file(&recorder, stdout));
}

// A second writing is the same as the first; a section that the caller calls written is not clean.
static void told_give(void)
{
    char first[1000], second[1000];
    size_t first_length, second_length;
    open_sum();
    WANT(OK, lwkt_record_take(&recorder, 0, 0));
    WANT(OK, lwkt_record_give_as(&recorder, 0, 0, LWKT_RECORD_CLEAN));
    WANT(OK, lwkt_record_take(&recorder, 1, 0));
    WANT(OK, lwkt_record_give_as(&recorder, 1, 0, LWKT_RECORD_WRITTEN));
    WANT(OK, lwkt_record_to_bytes(&recorder, first, sizeof first, &first_length));
    WANT(OK, lwkt_record_to_bytes(&recorder, second, sizeof second, &second_length));
    want_at(__LINE__, first_length == second_length && memcmp(first, second, first_length) == 0, 1);
    WANT(OK, lwkt_record_to_file(&recorder, stdout));
}

static void tallies(void)
{
    static const uint64_t begin[1] = {10}, end[1] = {17};
    open_scene(3, 1, 0, 100);
    WANT(OK, lwkt_record_token(&recorder, 0, LWKT_RECORD_TALLY, 10, 0, begin, 1));
    WANT(OK, lwkt_record_take(&recorder, 2, 0));
    WANT(OK, lwkt_record_write(&recorder, 2, 0, 0, 15));
    WANT(OK, lwkt_record_give(&recorder, 2, 0));
    WANT(OK, lwkt_record_take(&recorder, 0, 0));
    WANT(OK, lwkt_record_write(&recorder, 0, 0, 0, 17));
    WANT(OK, lwkt_record_give(&recorder, 0, 0));
    WANT(OK, lwkt_record_end_cells(&recorder, 0, end, 1));
    WANT(OK, lwkt_record_to_file(&recorder, stdout));
}

static void law(enum lwkt_record_law law, uint64_t param, uint64_t second)
{
    static const uint64_t cells[3] = {1, 2, 3};
    open_scene(1, 1, 0, 100);
    WANT(OK, lwkt_record_token(&recorder, 0, law, param, 0, cells, 3));
    WANT(OK, lwkt_record_take(&recorder, 0, 0));
    WANT(OK, lwkt_record_write(&recorder, 0, 0, 1, second));
    WANT(OK, lwkt_record_give(&recorder, 0, 0));
    WANT(OK, lwkt_record_to_file(&recorder, stdout));
}

static void law_order(void)
{
    law(LWKT_RECORD_ORDER, 0, 4);
}

static void law_cap(void)
{
    law(LWKT_RECORD_CAP, 9, 10);
}

static void law_any(void)
{
    law(LWKT_RECORD_ANY, 0, UINT64_MAX);
}

static void opening_law(void)
{
    law(LWKT_RECORD_SUM, 7, 2);
}

static void give_without_take(void)
{
    open_sum();
    WANT(OK, lwkt_record_give(&recorder, 1, 0));
    want_at(__LINE__, (int)lwkt_record_held(&recorder, 1, 0), 0);
    WANT(OK, lwkt_record_to_file(&recorder, stdout));
}

static void give_twice(void)
{
    open_sum();
    WANT(OK, lwkt_record_take(&recorder, 0, 0));
    WANT(OK, lwkt_record_give(&recorder, 0, 0));
    WANT(OK, lwkt_record_give(&recorder, 0, 0));
    WANT(OK, lwkt_record_to_file(&recorder, stdout));
}

static void write_when_shared(void)
{
    open_sum();
    WANT(OK, lwkt_record_share(&recorder, 0, 0));
    WANT(OK, lwkt_record_write(&recorder, 0, 0, 0, 61));
    WANT(OK, lwkt_record_to_file(&recorder, stdout));
}

// A value that nobody wrote is in memory at the end.
static void other_end(void)
{
    static const uint64_t cells[2] = {60, 41};
    open_sum();
    WANT(OK, lwkt_record_share(&recorder, 0, 0));
    WANT(OK, lwkt_record_give(&recorder, 0, 0));
    WANT(OK, lwkt_record_end_cells(&recorder, 0, cells, 2));
    WANT(OK, lwkt_record_to_file(&recorder, stdout));
}

static void other_generation(void)
{
    open_sum();
    WANT(OK, lwkt_record_end_generation(&recorder, 0, 6));
    WANT(OK, lwkt_record_to_file(&recorder, stdout));
}

static void held_at_the_end(void)
{
    open_sum();
    WANT(OK, lwkt_record_share(&recorder, 1, 0));
    WANT(OK, lwkt_record_end(&recorder));
    WANT(OK, lwkt_record_to_file(&recorder, stdout));
}

// Messages: there and back, dropped and sent again, aborted, on their way at the end, dropped at the end.
static void messages(void)
{
    open_scene(3, 0, 5, 100);
    WANT(OK, lwkt_record_message(&recorder, 0, 0, 15, 0));
    WANT(OK, lwkt_record_message(&recorder, 1, 1, 0, 7));
    WANT(OK, lwkt_record_send(&recorder, 0, 0, 1, 0));
    WANT(OK, lwkt_record_take_message(&recorder, 1, 0, 0));
    WANT(OK, lwkt_record_reply(&recorder, 1, 0));
    WANT(OK, lwkt_record_reap(&recorder, 0, 0));
    WANT(OK, lwkt_record_send(&recorder, 1, 1, 2, 8));
    WANT(OK, lwkt_record_drop(&recorder, 1, 1));
    WANT(OK, lwkt_record_send(&recorder, 1, 1, 2, 0));
    WANT(OK, lwkt_record_take_message(&recorder, 2, 1, 9));
    WANT(OK, lwkt_record_abort(&recorder, 1, 1));
    WANT(OK, lwkt_record_send(&recorder, 0, 2, 2, 1));
    WANT(OK, lwkt_record_send(&recorder, 0, 3, 1, 1));
    WANT(OK, lwkt_record_take_message(&recorder, 1, 3, 1));
    WANT(OK, lwkt_record_reply(&recorder, 1, 3));
    WANT(OK, lwkt_record_send(&recorder, 0, 4, 0, 0));
    WANT(OK, lwkt_record_drop(&recorder, 0, 4));
    WANT(OK, lwkt_record_end(&recorder));
    WANT(OK, lwkt_record_to_file(&recorder, stdout));
}

static void reply_twice(void)
{
    open_scene(2, 0, 1, 100);
    WANT(OK, lwkt_record_send(&recorder, 0, 0, 1, 0));
    WANT(OK, lwkt_record_take_message(&recorder, 1, 0, 0));
    WANT(OK, lwkt_record_reply(&recorder, 1, 0));
    WANT(OK, lwkt_record_reply(&recorder, 1, 0));
    WANT(OK, lwkt_record_to_file(&recorder, stdout));
}

// A message that was dropped and sent again is taken as it was the first time.
static void stale_take(void)
{
    open_scene(2, 0, 1, 100);
    WANT(OK, lwkt_record_send(&recorder, 0, 0, 1, 1));
    WANT(OK, lwkt_record_drop(&recorder, 0, 0));
    WANT(OK, lwkt_record_send(&recorder, 0, 0, 1, 2));
    WANT(OK, lwkt_record_take_message(&recorder, 1, 0, 1));
    WANT(OK, lwkt_record_to_file(&recorder, stdout));
}

// The trace ends before the first event of a processor whose buffer is full, whatever the others still record.
static void full(void)
{
    open_scene(2, 1, 0, 3);
    WANT(OK, lwkt_record_take(&recorder, 0, 0));
    WANT(OK, lwkt_record_give(&recorder, 0, 0));
    WANT(OK, lwkt_record_take(&recorder, 0, 0));
    want_at(__LINE__, lwkt_record_lost(&recorder), 0);
    WANT(FULL, lwkt_record_give(&recorder, 0, 0));
    WANT(OK, lwkt_record_take(&recorder, 1, 0));
    WANT(FULL, lwkt_record_take(&recorder, 0, 0));
    WANT(FULL, lwkt_record_lost(&recorder));
    WANT(OK, lwkt_record_end(&recorder));
    WANT(CUT, lwkt_record_to_file(&recorder, stdout));
}

static void no_room(void)
{
    open_scene(1, 1, 0, 0);
    WANT(FULL, lwkt_record_take(&recorder, 0, 0));
    WANT(CUT, lwkt_record_to_file(&recorder, stdout));
}

static void references(void)
{
    unsigned each;
    open_scene(1, 2, 0, 100);
    WANT(OK, lwkt_record_share(&recorder, 0, 0));
    WANT(OK, lwkt_record_take(&recorder, 0, 1));
    for (each = 2; each < 32; each++)
        WANT(OK, lwkt_record_again(&recorder, 0, each % 2));
    WANT(TOO_MANY, lwkt_record_again(&recorder, 0, 0));
    for (each = 0; each < 32; each++)
        WANT(OK, lwkt_record_give(&recorder, 0, each % 2));
    WANT(CUT, lwkt_record_to_file(&recorder, stdout));
}

// What is at another token, cell or message than those of the recorder doesn't touch what is recorded.
static void unknown_things(void)
{
    open_sum();
    WANT(OK, lwkt_record_take(&recorder, 0, 0));
    WANT(NO_TOKEN, lwkt_record_take(&recorder, 0, 1));
    WANT(NO_TOKEN, lwkt_record_mark(&recorder, 0, 256));
    WANT(NO_TOKEN, lwkt_record_give(&recorder, 0, 1));
    WANT(NO_TOKEN, lwkt_record_read(&recorder, 0, 1, 0, 5));
    WANT(NO_CELL, lwkt_record_write(&recorder, 0, 0, 2, 5));
    WANT(NO_MESSAGE, lwkt_record_send(&recorder, 0, 0, 1, 0));
    WANT(NO_MESSAGE, lwkt_record_take_message(&recorder, 0, 64, 0));
    WANT(NO_MESSAGE, lwkt_record_reap(&recorder, 0, 64));
    WANT(OK, lwkt_record_give(&recorder, 0, 0));
    want_at(__LINE__, lwkt_record_lost(&recorder), 0);
    WANT(OK, lwkt_record_end(&recorder));
    WANT(OK, lwkt_record_to_file(&recorder, stdout));
}

// In lines a trace may have more bytes than one text; it has the closing values on its last line.
static void lines_past_the_limit(void)
{
    unsigned each;
    WANT(CLOSED, lwkt_record_in_lines(&recorder, true));
    open_scene(2, 2, 2, 5000);
    for (each = 0; each < 2000; each++) {
        WANT(OK, lwkt_record_take(&recorder, 0, 1));
        WANT(OK, lwkt_record_give(&recorder, 0, 1));
    }
    WANT(OK, lwkt_record_send(&recorder, 0, 1, 1, 0));
    WANT(OK, lwkt_record_end(&recorder));
    WANT(CUT, lwkt_record_to_sink(&recorder, let_go, NULL));
    WANT(OK, lwkt_record_in_lines(&recorder, true));
    WANT(OK, lwkt_record_to_file(&recorder, stdout));
}

// Without a last event it has none.
static void lines_cut(void)
{
    open_scene(1, 1, 0, 1);
    WANT(OK, lwkt_record_in_lines(&recorder, true));
    WANT(OK, lwkt_record_share(&recorder, 0, 0));
    WANT(FULL, lwkt_record_give(&recorder, 0, 0));
    WANT(OK, lwkt_record_end(&recorder));
    WANT(CUT, lwkt_record_to_file(&recorder, stdout));
}

static void lines_other_end(void)
{
    static const uint64_t cells[2] = {60, 41};
    open_sum();
    WANT(OK, lwkt_record_in_lines(&recorder, true));
    WANT(OK, lwkt_record_end_cells(&recorder, 0, cells, 2));
    WANT(OK, lwkt_record_end(&recorder));
    WANT(OK, lwkt_record_to_file(&recorder, stdout));
}

static void unknown_processor(void)
{
    open_sum();
    WANT(OK, lwkt_record_take(&recorder, 0, 0));
    WANT(OK, lwkt_record_give(&recorder, 0, 0));
    WANT(NO_PROCESSOR, lwkt_record_take(&recorder, 2, 0));
    WANT(OK, lwkt_record_take(&recorder, 0, 0));
    WANT(NO_PROCESSOR, lwkt_record_lost(&recorder));
    WANT(CUT, lwkt_record_to_file(&recorder, stdout));
}

static void unknown_target(void)
{
    open_scene(2, 0, 1, 100);
    WANT(NO_PROCESSOR, lwkt_record_send(&recorder, 0, 0, 2, 0));
    WANT(CUT, lwkt_record_to_file(&recorder, stdout));
}

static void unknown_give(void)
{
    open_sum();
    WANT(OK, lwkt_record_take(&recorder, 0, 0));
    WANT(LIMIT, lwkt_record_give_as(&recorder, 0, 0, (enum lwkt_record_give)3));
    WANT(CUT, lwkt_record_to_file(&recorder, stdout));
}

// A call that comes into another one for the same processor, as that of an interrupt would.
static void busy(void)
{
    open_sum();
    WANT(OK, lwkt_record_share(&recorder, 0, 0));
    WANT(OK, lwkt_record_claim(&recorder, 1));
    WANT(BUSY, lwkt_record_share(&recorder, 1, 0));
    lwkt_record_unclaim(&recorder.seats[1], 0);
    WANT(OK, lwkt_record_give(&recorder, 1, 0));
    WANT(BUSY, lwkt_record_lost(&recorder));
    WANT(CUT, lwkt_record_to_file(&recorder, stdout));
}

// As many events as a trace of so few bytes has room for.
static void too_long(void)
{
    unsigned each;
    char bytes[1];
    size_t length;
    open_scene(1, 1, 0, 5000);
    for (each = 0; each < 2500; each++) {
        WANT(OK, lwkt_record_take(&recorder, 0, 0));
        WANT(OK, lwkt_record_give(&recorder, 0, 0));
    }
    WANT(OK, lwkt_record_end(&recorder));
    WANT(NO_ROOM, lwkt_record_to_bytes(&recorder, bytes, sizeof bytes, &length));
    want_at(__LINE__, bytes[0] == '{' && length > 20000 && length <= 60000, 1);
    WANT(CUT, lwkt_record_to_file(&recorder, stdout));
}

// As many things as a trace can have, and its longest closing values.
static void largest(void)
{
    static const uint64_t cells[4] = {UINT64_MAX, UINT64_MAX, UINT64_MAX, UINT64_MAX};
    unsigned each;
    open_scene(8, 64, 64, 10);
    for (each = 0; each < 64; each++) {
        WANT(OK, lwkt_record_token(&recorder, each, LWKT_RECORD_CAP, UINT64_MAX, LWKT_RECORD_LAST_GENERATION, cells, 4));
        WANT(OK, lwkt_record_message(&recorder, each, each % 8, each % 16, LWKT_RECORD_LAST_ROUND));
    }
    WANT(OK, lwkt_record_load(&recorder, 7, 63));
    WANT(OK, lwkt_record_end(&recorder));
    WANT(OK, lwkt_record_to_file(&recorder, stdout));
}

static int refuse(void *context, const char *bytes, size_t count)
{
    (void)bytes;
    (void)count;
    *(int *)context += 1;
    return 1;
}

static void refused_declarations(void)
{
    static const uint64_t cells[5] = {0, 0, 0, 0, 0};
    open_scene(2, 2, 1, 10);
    WANT(NO_TOKEN, lwkt_record_token(&recorder, 2, LWKT_RECORD_ANY, 0, 0, NULL, 0));
    WANT(LIMIT, lwkt_record_token(&recorder, 0, LWKT_RECORD_ANY, 0, 0, cells, 5));
    WANT(LIMIT, lwkt_record_token(&recorder, 0, LWKT_RECORD_ANY, 0, 0, NULL, 1));
    WANT(LIMIT, lwkt_record_token(&recorder, 0, LWKT_RECORD_TALLY, 0, 0, cells, 2));
    WANT(LIMIT, lwkt_record_token(&recorder, 0, (enum lwkt_record_law)5, 0, 0, cells, 2));
    WANT(LIMIT, lwkt_record_token(&recorder, 0, LWKT_RECORD_ANY, 0, LWKT_RECORD_LAST_GENERATION + 1, cells, 2));
    WANT(NO_MESSAGE, lwkt_record_message(&recorder, 1, 0, 0, 0));
    WANT(LIMIT, lwkt_record_message(&recorder, 0, 2, 0, 0));
    WANT(LIMIT, lwkt_record_message(&recorder, 0, 0, 16, 0));
    WANT(LIMIT, lwkt_record_message(&recorder, 0, 0, 0, LWKT_RECORD_LAST_ROUND + 1));
    WANT(NO_TOKEN, lwkt_record_end_cells(&recorder, 2, NULL, 0));
    WANT(NO_CELL, lwkt_record_end_cells(&recorder, 0, cells, 1));
    WANT(NO_TOKEN, lwkt_record_end_generation(&recorder, 2, 0));
    WANT(LIMIT, lwkt_record_end_generation(&recorder, 0, LWKT_RECORD_LAST_GENERATION + 1));
    WANT(OK, lwkt_record_share(&recorder, 1, 1));
    WANT(LATE, lwkt_record_token(&recorder, 0, LWKT_RECORD_ANY, 0, 0, NULL, 0));
    WANT(LATE, lwkt_record_message(&recorder, 0, 0, 0, 0));
    WANT(OK, lwkt_record_to_file(&recorder, stdout));
}

static void refused_openings(void)
{
    static lwkt_record_event events[2][10];
    WANT(LIMIT, lwkt_record_open(&recorder, 0, 1, 0, 10));
    WANT(LIMIT, lwkt_record_open(&recorder, 9, 1, 0, 10));
    WANT(LIMIT, lwkt_record_open(&recorder, 1, 65, 0, 10));
    WANT(LIMIT, lwkt_record_open(&recorder, 1, 1, 65, 10));
    WANT(LIMIT, lwkt_record_open(&recorder, 8, 1, 0, SIZE_MAX / 8));
    WANT(CLOSED, lwkt_record_open(NULL, 1, 1, 0, 10));
    WANT(CLOSED, lwkt_record_open_in(NULL, 1, 1, 0, events[0], 10));
    WANT(MEMORY, lwkt_record_open_in(&recorder, 2, 1, 0, NULL, 10));
    WANT(CLOSED, lwkt_record_take(&recorder, 0, 0));
    WANT(OK, lwkt_record_open_in(&recorder, 2, 1, 0, events[0], 10));
    WANT(OK, lwkt_record_take(&recorder, 1, 0));
    WANT(OK, lwkt_record_to_file(&recorder, stdout));
}

// A refused opening leaves a closed recorder, of whatever bytes it was, and also where it was open.
static void refused_again(void)
{
    static lwkt_record other;
    memset(&other, 0xa5, sizeof other);
    WANT(LIMIT, lwkt_record_open(&other, 9, 1, 0, 10));
    WANT(CLOSED, lwkt_record_take(&other, 0, 0));
    lwkt_record_close(&other);
    memset(&other, 0xa5, sizeof other);
    WANT(MEMORY, lwkt_record_open_in(&other, 1, 1, 0, NULL, 10));
    lwkt_record_close(&other);
    open_sum();
    WANT(LIMIT, lwkt_record_open(&recorder, 1, 65, 0, 10));
    WANT(CLOSED, lwkt_record_take(&recorder, 0, 0));
    open_sum();
    WANT(OK, lwkt_record_to_file(&recorder, stdout));
}

// A recorder that is open is closed before it is opened again: its events go, and so does its memory, but never the caller's.
static void opened_twice(void)
{
    static lwkt_record_event events[2][10];
    open_scene(1, 1, 0, 1000);
    WANT(OK, lwkt_record_take(&recorder, 0, 0));
    WANT(OK, lwkt_record_open_in(&recorder, 2, 1, 0, events[0], 10));
    WANT(OK, lwkt_record_take(&recorder, 1, 0));
    open_scene(1, 1, 0, 1000);
    open_scene(2, 1, 0, 100);
    WANT(OK, lwkt_record_share(&recorder, 0, 0));
    WANT(OK, lwkt_record_share(&recorder, 1, 0));
    WANT(OK, lwkt_record_give(&recorder, 0, 0));
    WANT(OK, lwkt_record_give(&recorder, 1, 0));
    WANT(OK, lwkt_record_end(&recorder));
    WANT(OK, lwkt_record_to_file(&recorder, stdout));
}

// All calls on a recorder that isn't open.
static void closed_calls(lwkt_record *closed)
{
    int count = 0;
    unsigned number = 0;
    WANT(CLOSED, lwkt_record_token(closed, 0, LWKT_RECORD_ANY, 0, 0, NULL, 0));
    WANT(CLOSED, lwkt_record_message(closed, 0, 0, 0, 0));
    WANT(CLOSED, lwkt_record_take(closed, 0, 0));
    WANT(CLOSED, lwkt_record_share(closed, 0, 0));
    WANT(CLOSED, lwkt_record_again(closed, 0, 0));
    WANT(CLOSED, lwkt_record_mark(closed, 0, 0));
    WANT(CLOSED, lwkt_record_give(closed, 0, 0));
    WANT(CLOSED, lwkt_record_give_as(closed, 0, 0, LWKT_RECORD_ONE));
    WANT(CLOSED, lwkt_record_read(closed, 0, 0, 0, 0));
    WANT(CLOSED, lwkt_record_write(closed, 0, 0, 0, 0));
    WANT(CLOSED, lwkt_record_send(closed, 0, 0, 0, 0));
    WANT(CLOSED, lwkt_record_take_message(closed, 0, 0, 0));
    WANT(CLOSED, lwkt_record_drop(closed, 0, 0));
    WANT(CLOSED, lwkt_record_end(closed));
    WANT(CLOSED, lwkt_record_end_cells(closed, 0, NULL, 0));
    WANT(CLOSED, lwkt_record_end_generation(closed, 0, 0));
    WANT(CLOSED, lwkt_record_end_references(closed, 0, 0));
    WANT(CLOSED, lwkt_record_where_to(closed, refuse, &count));
    WANT(CLOSED, lwkt_record_here(take, closed, 0, 0));
    WANT(CLOSED, lwkt_record_to_sink(closed, refuse, &count));
    WANT(CLOSED, lwkt_record_to_bytes(closed, NULL, 0, NULL));
    WANT(CLOSED, lwkt_record_lost(closed));
    WANT(CLOSED, lwkt_record_enter(closed, &number));
    WANT(CLOSED, lwkt_record_leave(closed, 0));
    WANT(CLOSED, lwkt_record_drain(closed, refuse, &count));
    WANT(CLOSED, lwkt_record_keep_last(closed));
    want_at(__LINE__, (int)lwkt_record_room(closed, 0), 0);
    want_at(__LINE__, count + (int)lwkt_record_held(closed, 0, 0), 0);
    lwkt_record_close(closed);
}

static void closed(void)
{
    static lwkt_record other;
    closed_calls(NULL);
    closed_calls(&other);
    open_sum();
    lwkt_record_close(&recorder);
    closed_calls(&recorder);
    nothing_happens();
}

// A sink that doesn't take what it is given isn't asked again.
static void streams(void)
{
    int count = 0;
    FILE *file = fopen("/dev/full", "w");
    open_scene(8, 64, 64, 10);
    WANT(STREAM, lwkt_record_to_sink(&recorder, refuse, &count));
    want_at(__LINE__, count, 1);
    WANT(STREAM, lwkt_record_to_sink(&recorder, NULL, NULL));
    WANT(STREAM, lwkt_record_to_file(&recorder, NULL));
    if (file != NULL) {
        WANT(STREAM, lwkt_record_to_file(&recorder, file));
        fclose(file);
    }
    WANT(OK, lwkt_record_to_file(&recorder, stdout));
}

static _Atomic(unsigned) at_work;
static _Atomic(unsigned) writings;

// Waits until the trace was written once from its beginning to its end. It orders nothing.
static void await_writing(void)
{
    unsigned before = atomic_load_explicit(&writings, memory_order_relaxed);
    while (atomic_load_explicit(&writings, memory_order_relaxed) < before + 2)
        sched_yield();
}

static void *record_shares(void *argument)
{
    unsigned processor = *(unsigned *)argument, each;
    for (each = 0; each < 100; each++) {
        WANT(OK, lwkt_record_share(&recorder, processor, 0));
        WANT(OK, lwkt_record_give(&recorder, processor, 0));
        if (each % 10 == 0)
            await_writing();
    }
    atomic_fetch_sub(&at_work, 1);
    return NULL;
}

// A trace that is written while others record is a front of what they do.
static void while_others_record(void)
{
    static unsigned numbers[2] = {0, 1};
    static char bytes[60000];
    pthread_t threads[2];
    size_t length = 0;
    unsigned each;
    open_scene(2, 1, 0, 200);
    atomic_store(&at_work, 2);
    for (each = 0; each < 2; each++)
        pthread_create(&threads[each], NULL, record_shares, &numbers[each]);
    while (atomic_load(&at_work) > 0) {
        int error = lwkt_record_to_bytes(&recorder, bytes, sizeof bytes, &length);
        want_at(__LINE__, error == LWKT_RECORD_OK || error == LWKT_RECORD_CUT, 1);
        atomic_fetch_add_explicit(&writings, 1, memory_order_relaxed);
    }
    for (each = 0; each < 2; each++)
        pthread_join(threads[each], NULL);
    fwrite(bytes, 1, length, stdout);
}

static void *record_looks(void *argument)
{
    unsigned each;
    (void)argument;
    for (each = 0; each < 200; each++) {
        int error = lwkt_record_load(&recorder, 0, 0);
        want_at(__LINE__, error == LWKT_RECORD_OK || error == LWKT_RECORD_BUSY, 1);
    }
    return NULL;
}

// Two threads that both say they are processor 0.
static void two_on_one_processor(void)
{
    pthread_t threads[2];
    unsigned each;
    open_scene(1, 1, 0, 1000);
    for (each = 0; each < 2; each++)
        pthread_create(&threads[each], NULL, record_looks, NULL);
    for (each = 0; each < 2; each++)
        pthread_join(threads[each], NULL);
    want_at(__LINE__, lwkt_record_to_file(&recorder, stdout),
            lwkt_record_lost(&recorder) == LWKT_RECORD_OK ? LWKT_RECORD_OK : LWKT_RECORD_CUT);
}

// Numbers are lent from the lowest, and taken back where nothing is held.
static void lent_numbers(void)
{
    unsigned number = 9, other = 9;
    open_scene(2, 1, 0, 100);
    WANT(LIMIT, lwkt_record_enter(&recorder, NULL));
    WANT(NOT_LENT, lwkt_record_leave(&recorder, 0));
    WANT(NOT_LENT, lwkt_record_leave(&recorder, 2));
    WANT(OK, lwkt_record_enter(&recorder, &number));
    WANT(OK, lwkt_record_enter(&recorder, &other));
    want_at(__LINE__, number == 0 && other == 1, 1);
    WANT(ALL_LENT, lwkt_record_enter(&recorder, &other));
    want_at(__LINE__, (int)other, 1);
    WANT(OK, lwkt_record_share(&recorder, 0, 0));
    WANT(OK, lwkt_record_again(&recorder, 0, 0));
    WANT(OK, lwkt_record_give(&recorder, 0, 0));
    WANT(HOLDS, lwkt_record_leave(&recorder, 0));
    WANT(OK, lwkt_record_give(&recorder, 0, 0));
    WANT(OK, lwkt_record_claim(&recorder, 0));
    WANT(BUSY, lwkt_record_leave(&recorder, 0));
    lwkt_record_unclaim(&recorder.seats[0], 0);
    WANT(OK, lwkt_record_leave(&recorder, 0));
    WANT(NOT_LENT, lwkt_record_leave(&recorder, 0));
    WANT(OK, lwkt_record_enter(&recorder, &number));
    want_at(__LINE__, (int)number, 0);
    WANT(OK, lwkt_record_leave(&recorder, 1));
    WANT(OK, lwkt_record_leave(&recorder, 0));
    want_at(__LINE__, lwkt_record_lost(&recorder), 0);
    WANT(OK, lwkt_record_end(&recorder));
    WANT(OK, lwkt_record_to_file(&recorder, stdout));
}

// A give that is lost doesn't keep a number lent, nor a thread waiting for room.
static void lent_and_lost(void)
{
    unsigned number = 9;
    open_scene(1, 1, 0, 1);
    WANT(OK, lwkt_record_enter(&recorder, &number));
    WANT(OK, lwkt_record_take(&recorder, number, 0));
    want_at(__LINE__, (int)lwkt_record_room(&recorder, number), 0);
    WANT(HOLDS, lwkt_record_leave(&recorder, number));
    WANT(FULL, lwkt_record_give(&recorder, number, 0));
    want_at(__LINE__, (int)lwkt_record_room(&recorder, number), 1);
    WANT(OK, lwkt_record_leave(&recorder, number));
    WANT(OK, lwkt_record_enter(&recorder, &number));
    WANT(CUT, lwkt_record_to_file(&recorder, stdout));
}

#define BORROWERS 6
static _Atomic(unsigned) lent_to[2];

// Takes and gives back a number, again and again: nobody else has it meanwhile, and no event of another call is in its seat.
static void *borrow(void *argument)
{
    unsigned done = 0, number = 0;
    (void)argument;
    while (done < 200) {
        int error = lwkt_record_enter(&recorder, &number);
        if (error == LWKT_RECORD_ALL_LENT) {
            sched_yield();
            continue;
        }
        want_at(__LINE__, error, LWKT_RECORD_OK);
        want_at(__LINE__, (int)atomic_fetch_add_explicit(&lent_to[number], 1, memory_order_relaxed), 0);
        WANT(OK, lwkt_record_share(&recorder, number, 0));
        WANT(HOLDS, lwkt_record_leave(&recorder, number));
        WANT(OK, lwkt_record_give(&recorder, number, 0));
        want_at(__LINE__, (int)atomic_fetch_sub_explicit(&lent_to[number], 1, memory_order_relaxed), 1);
        WANT(OK, lwkt_record_leave(&recorder, number));
        done += 1;
    }
    return NULL;
}

static void lent_to_many(void)
{
    pthread_t threads[BORROWERS];
    unsigned each;
    open_scene(2, 1, 0, (size_t)BORROWERS * 400);
    WANT(OK, lwkt_record_in_lines(&recorder, true));
    for (each = 0; each < BORROWERS; each++)
        pthread_create(&threads[each], NULL, borrow, NULL);
    for (each = 0; each < BORROWERS; each++)
        pthread_join(threads[each], NULL);
    WANT(OK, lwkt_record_end(&recorder));
    WANT(OK, lwkt_record_to_file(&recorder, stdout));
}

// A sink that keeps what it takes, which is all, or each so many-th time.
struct choosy {
    char bytes[60000];
    size_t length;
    unsigned calls;
    unsigned each;
};

static int choose(void *context, const char *bytes, size_t count)
{
    struct choosy *sink = (struct choosy *)context;
    sink->calls += 1;
    if (sink->each > 0 && sink->calls % sink->each != 0)
        return 1;
    memcpy(sink->bytes + sink->length, bytes, count);
    sink->length += count;
    return 0;
}

// What may be recorded in a token's sections, of which the buffers have but a few.
static void sections_at(unsigned processor, unsigned count)
{
    unsigned each;
    for (each = 0; each < count; each++) {
        WANT(OK, lwkt_record_take(&recorder, processor, 0));
        WANT(OK, lwkt_record_write(&recorder, processor, 0, 0, 60 - each % 2));
        WANT(OK, lwkt_record_write(&recorder, processor, 0, 1, 40 + each % 2));
        WANT(OK, lwkt_record_give(&recorder, processor, 0));
    }
}

static void open_drained(size_t room)
{
    static const uint64_t cells[2] = {60, 40};
    open_scene(2, 1, 1, room);
    WANT(OK, lwkt_record_token(&recorder, 0, LWKT_RECORD_SUM, 100, 5, cells, 2));
}

// The bytes of all drains are those of a recording that was written at once, whatever of them the sink refuses meanwhile.
static void drained_as_whole(unsigned each, char *whole, size_t length)
{
    static struct choosy sink;
    unsigned round;
    int error = LWKT_RECORD_STREAM;
    memset(&sink, 0, sizeof sink);
    sink.each = each;
    open_drained(80);
    for (round = 0; round < 30; round++) {
        want_at(__LINE__, lwkt_record_room(&recorder, round % 2) >= 12, 1);
        sections_at(round % 2, 3);
        error = lwkt_record_drain(&recorder, choose, &sink);
        want_at(__LINE__, error == LWKT_RECORD_OK || error == LWKT_RECORD_STREAM, 1);
    }
    WANT(OK, lwkt_record_end(&recorder));
    while (error != LWKT_RECORD_OK)
        error = lwkt_record_drain(&recorder, choose, &sink);
    WANT(OK, lwkt_record_drain(&recorder, choose, &sink));
    want_at(__LINE__, sink.length == length && memcmp(sink.bytes, whole, length) == 0, 1);
}

static void drained(void)
{
    static char whole[60000];
    size_t length = 0;
    unsigned round;
    open_drained(800);
    WANT(OK, lwkt_record_in_lines(&recorder, true));
    for (round = 0; round < 30; round++)
        sections_at(round % 2, 3);
    WANT(OK, lwkt_record_end(&recorder));
    WANT(OK, lwkt_record_to_bytes(&recorder, whole, sizeof whole, &length));
    for (round = 0; round < 4; round++)
        drained_as_whole(round, whole, length);
    fwrite(whole, 1, length, stdout);
}

// The text of a scene's events, of which each has one, and a last one that is too long.
static const char *text_at(unsigned event)
{
    static const char *const texts[] = {"take.c:1", "read.c:22", "write.c:333"};
    static char longest[301];
    memset(longest, 'a', 100);
    memset(longest + 100, 'b', 200);
    return event % 4 == 3 ? longest : texts[event % 4];
}

// So many events, of which each says where it stands, and the lines that have to come of them.
static size_t events_with_texts(unsigned count, char *lines)
{
    unsigned event;
    size_t length = 0;
    for (event = 0; event < count; event++) {
        const char *text = text_at(event), *last = strlen(text) > 200 ? text + strlen(text) - 200 : text;
        if (event % 5 != 0)
            lwkt_record_at(&recorder, event % 2, text);
        WANT(OK, lwkt_record_mark(&recorder, event % 2, 0));
        if (event % 5 != 0)
            length += (size_t)sprintf(lines + length, "%u %s\n", event, last);
    }
    return length;
}

// Where each event was recorded, by a line of its own: that of the call, or a text.
static void where(void)
{
    static char lines[60000], wanted[60000], number[16];
    static lwkt_record_bytes into = {lines, sizeof lines, 0};
    size_t length;
    int error, line;
    open_sum();
    WANT(OK, lwkt_record_where_to(&recorder, lwkt_record_into_bytes, &into));
    line = __LINE__, error = lwkt_record_here(share, &recorder, 1, 0);
    WANT(OK, error);
    WANT(OK, lwkt_record_give(&recorder, 1, 0));
    WANT(OK, lwkt_record_end(&recorder));
    WANT(OK, lwkt_record_to_file(&recorder, stdout));
    sprintf(number, ":%d\n", line);
    want_at(__LINE__, strncmp(lines, "0 ", 2) == 0 && strstr(lines, "calls.c") != NULL && strstr(lines, number) == lines + into.length - strlen(number), 1);
    open_sum();
    length = events_with_texts(60, wanted);
    into.length = 0;
    WANT(OK, lwkt_record_where_to(&recorder, lwkt_record_into_bytes, &into));
    WANT(OK, lwkt_record_to_sink(&recorder, let_go, NULL));
    want_at(__LINE__, into.length == length && memcmp(lines, wanted, length) == 0, 1);
    WANT(OK, lwkt_record_where_to(&recorder, refuse, &error));
    WANT(STREAM, lwkt_record_to_sink(&recorder, let_go, NULL));
    WANT(OK, lwkt_record_where_to(&recorder, NULL, NULL));
    WANT(OK, lwkt_record_to_sink(&recorder, let_go, NULL));
    WANT(STREAM, lwkt_record_where_to_file(&recorder, NULL));
}

// The same while it is drained, whatever of it is refused.
static void where_drained(void)
{
    static struct choosy sink, lines;
    static char wanted[60000];
    size_t length;
    int error = LWKT_RECORD_STREAM;
    unsigned each;
    for (each = 0; each < 4; each++) {
        memset(&sink, 0, sizeof sink);
        memset(&lines, 0, sizeof lines);
        sink.each = each, lines.each = 3 - each;
        open_drained(100);
        WANT(OK, lwkt_record_where_to(&recorder, choose, &lines));
        length = events_with_texts(150, wanted);
        do
            error = lwkt_record_drain(&recorder, choose, &sink);
        while (error == LWKT_RECORD_STREAM);
        WANT(OK, error);
        WANT(LATE, lwkt_record_where_to(&recorder, choose, &lines));
        want_at(__LINE__, lines.length == length && memcmp(lines.bytes, wanted, length) == 0, 1);
        WANT(OK, lwkt_record_end(&recorder));
        while (error != LWKT_RECORD_OK || recorder.stage != LWKT_RECORD_WRITTEN_OUT)
            error = lwkt_record_drain(&recorder, choose, &sink);
    }
    fwrite(sink.bytes, 1, sink.length, stdout);
}

// What is told again stands in no line, and is counted. A text more than there is room for isn't kept.
static void last_where(void)
{
    static char lines[2000], texts[600][4];
    static lwkt_record_bytes into = {lines, sizeof lines, 0};
    unsigned each, known = 0;
    open_drained(9 + 3);
    WANT(OK, lwkt_record_keep_last(&recorder));
    WANT(OK, lwkt_record_where_to(&recorder, lwkt_record_into_bytes, &into));
    WANT(OK, lwkt_record_take(&recorder, 0, 0));
    WANT(OK, lwkt_record_again(&recorder, 0, 0));
    for (each = 0; each < 10; each++) {
        lwkt_record_at(&recorder, 0, text_at(each % 3));
        WANT(OK, lwkt_record_load(&recorder, 0, 0));
    }
    WANT(OK, lwkt_record_to_file(&recorder, stdout));
    want_at(__LINE__, into.length == 37 && memcmp(lines, "2 read.c:22\n3 write.c:333\n4 take.c:1\n", 37) == 0, 1);
    for (each = 0; each < 600; each++)
        known += lwkt_record_line_of(&recorder, texts[each]) != 0;
    want_at(__LINE__, known > 400 && known <= 512, 1);
}

// A give that was recorded and whose step was lost, a take that wasn't recorded, and what is right.
static void other_references(void)
{
    open_sum();
    WANT(NO_TOKEN, lwkt_record_end_references(&recorder, 1, 0));
    WANT(OK, lwkt_record_share(&recorder, 0, 0));
    WANT(OK, lwkt_record_share(&recorder, 1, 0));
    WANT(OK, lwkt_record_end_references(&recorder, 0, 2));
    WANT(OTHERWISE, lwkt_record_end_references(&recorder, 0, 1));
    WANT(OK, lwkt_record_give(&recorder, 0, 0));
    WANT(OK, lwkt_record_give(&recorder, 1, 0));
    WANT(OTHERWISE, lwkt_record_end_references(&recorder, 0, 1));
    WANT(OK, lwkt_record_end_references(&recorder, 0, 0));
    WANT(OK, lwkt_record_to_file(&recorder, stdout));
    WANT(NO_PROCESSOR, lwkt_record_take(&recorder, 2, 0));
    WANT(OK, lwkt_record_end_references(&recorder, 0, 1));
}

// A sink that tries to write itself.
static int drain_within(void *context, const char *bytes, size_t count)
{
    WANT(BUSY, lwkt_record_drain(&recorder, let_go, NULL));
    WANT(BUSY, lwkt_record_to_sink(&recorder, let_go, NULL));
    return fwrite(bytes, 1, count, (FILE *)context) == count ? 0 : 1;
}

// The answers of a drain, and of other calls after it.
static void drained_calls(void)
{
    static const uint64_t cells[2] = {60, 40};
    int refusals = 0;
    char byte;
    open_drained(4);
    WANT(STREAM, lwkt_record_drain(&recorder, NULL, NULL));
    WANT(STREAM, lwkt_record_drain_to_file(&recorder, NULL));
    WANT(OK, lwkt_record_token(&recorder, 0, LWKT_RECORD_SUM, 100, 5, cells, 2));
    WANT(STREAM, lwkt_record_drain(&recorder, refuse, &refusals));
    want_at(__LINE__, refusals, 1);
    WANT(LATE, lwkt_record_token(&recorder, 0, LWKT_RECORD_SUM, 100, 6, cells, 2));
    WANT(LATE, lwkt_record_message(&recorder, 0, 0, 0, 0));
    WANT(OK, lwkt_record_drain(&recorder, drain_within, stdout));
    want_at(__LINE__, (int)lwkt_record_room(&recorder, 0), 4);
    want_at(__LINE__, (int)lwkt_record_room(&recorder, 2), 0);
    sections_at(0, 1);
    want_at(__LINE__, (int)lwkt_record_room(&recorder, 0), 0);
    WANT(OK, lwkt_record_drain(&recorder, drain_within, stdout));
    sections_at(0, 1);
    WANT(MODE, lwkt_record_to_file(&recorder, stdout));
    WANT(MODE, lwkt_record_to_bytes(&recorder, &byte, 1, NULL));
    WANT(OK, lwkt_record_end_cells(&recorder, 0, cells, 2));
    WANT(OK, lwkt_record_drain_to_file(&recorder, stdout));
    WANT(OK, lwkt_record_drain_to_file(&recorder, stdout));
    WANT(LATE, lwkt_record_end(&recorder));
    WANT(LATE, lwkt_record_end_cells(&recorder, 0, cells, 2));
    WANT(LATE, lwkt_record_end_generation(&recorder, 0, 5));
    WANT(OK, lwkt_record_mark(&recorder, 1, 0));
    WANT(CUT, lwkt_record_drain_to_file(&recorder, stdout));
}

// While the sink refuses, the buffers fill. What is drained later ends before the first event that was lost.
static void drained_full(void)
{
    int refusals = 0;
    open_drained(4);
    sections_at(0, 1);
    WANT(OK, lwkt_record_drain_to_file(&recorder, stdout));
    WANT(STREAM, lwkt_record_drain_to_file(&recorder, NULL));
    sections_at(0, 1);
    WANT(FULL, lwkt_record_take(&recorder, 0, 0));
    WANT(STREAM, lwkt_record_drain(&recorder, refuse, &refusals));
    WANT(OK, lwkt_record_take(&recorder, 1, 0));
    WANT(FULL, lwkt_record_lost(&recorder));
    want_at(__LINE__, (int)lwkt_record_room(&recorder, 0), 4);
    WANT(CUT, lwkt_record_drain_to_file(&recorder, stdout));
    WANT(OK, lwkt_record_end(&recorder));
    WANT(CUT, lwkt_record_drain_to_file(&recorder, stdout));
}

// The longest opening and closing values, of which a page has a small part, to a sink that takes each fifth page.
static void drained_largest(void)
{
    static const uint64_t cells[4] = {UINT64_MAX, UINT64_MAX, UINT64_MAX, UINT64_MAX};
    static struct choosy sink;
    unsigned each;
    memset(&sink, 0, sizeof sink);
    sink.each = 5;
    open_scene(8, 64, 64, 10);
    for (each = 0; each < 64; each++) {
        WANT(OK, lwkt_record_token(&recorder, each, LWKT_RECORD_CAP, UINT64_MAX, LWKT_RECORD_LAST_GENERATION, cells, 4));
        WANT(OK, lwkt_record_message(&recorder, each, each % 8, each % 16, LWKT_RECORD_LAST_ROUND));
    }
    WANT(OK, lwkt_record_load(&recorder, 7, 63));
    WANT(OK, lwkt_record_end(&recorder));
    for (each = 0; lwkt_record_drain(&recorder, choose, &sink) == LWKT_RECORD_STREAM;)
        each += 1;
    want_at(__LINE__, each > 100 && sink.calls > 4 * (sink.length / 512), 1);
    fwrite(sink.bytes, 1, sink.length, stdout);
}

// Whole lines but for the opening and the closing values.
static int take_lines(void *context, const char *bytes, size_t count)
{
    bool is_whole = bytes[0] == '{' || (bytes[0] == '\n' && (bytes[count - 1] == ']' || bytes[count - 1] == '\n'));
    want_at(__LINE__, is_whole, 1);
    return fwrite(bytes, 1, count, (FILE *)context) == count ? 0 : 1;
}

// Sections of a thread that waits until its buffer, of 12 events, has room for one.
static void *record_drained(void *argument)
{
    unsigned processor = *(unsigned *)argument, each;
    for (each = 0; each < 300; each++) {
        while (lwkt_record_room(&recorder, processor) < 3)
            sched_yield();
        WANT(OK, lwkt_record_share(&recorder, processor, 0));
        WANT(OK, lwkt_record_mark(&recorder, processor, 0));
        WANT(OK, lwkt_record_give(&recorder, processor, 0));
    }
    atomic_fetch_sub(&at_work, 1);
    return NULL;
}

// A recording that is drained while it runs has 150 times the events of its buffers, and loses none.
static void drained_while_others_record(void)
{
    static unsigned numbers[2] = {0, 1};
    pthread_t threads[2];
    unsigned each;
    open_drained(12);
    atomic_store(&at_work, 2);
    for (each = 0; each < 2; each++)
        pthread_create(&threads[each], NULL, record_drained, &numbers[each]);
    while (atomic_load(&at_work) > 0) {
        int error = lwkt_record_drain(&recorder, take_lines, stdout);
        want_at(__LINE__, error == LWKT_RECORD_OK || error == LWKT_RECORD_CUT, 1);
    }
    for (each = 0; each < 2; each++)
        pthread_join(threads[each], NULL);
    WANT(OK, lwkt_record_end(&recorder));
    WANT(OK, lwkt_record_drain(&recorder, take_lines, stdout));
}

// Two threads that drain: one of them is answered BUSY where both are at it, and the lines come in their order.
static void *drain_too(void *argument)
{
    while (atomic_load(&at_work) > 0) {
        int error = lwkt_record_drain(&recorder, choose, argument);
        want_at(__LINE__, error == LWKT_RECORD_OK || error == LWKT_RECORD_CUT || error == LWKT_RECORD_BUSY, 1);
        sched_yield();
    }
    return NULL;
}

static void drained_by_two(void)
{
    static struct choosy sink;
    static unsigned number = 0;
    pthread_t threads[3];
    unsigned each;
    memset(&sink, 0, sizeof sink);
    open_drained(12);
    atomic_store(&at_work, 1);
    pthread_create(&threads[2], NULL, record_drained, &number);
    for (each = 0; each < 2; each++)
        pthread_create(&threads[each], NULL, drain_too, &sink);
    for (each = 0; each < 3; each++)
        pthread_join(threads[each], NULL);
    WANT(OK, lwkt_record_end(&recorder));
    WANT(OK, lwkt_record_drain(&recorder, choose, &sink));
    fwrite(sink.bytes, 1, sink.length, stdout);
}

// A recorder with two processors, a token under a sum and a message, of which each processor keeps so many events.
static void open_last(size_t room)
{
    open_drained(room + 9);
    WANT(OK, lwkt_record_keep_last(&recorder));
}

// How many events the trace has, in lines.
static unsigned last_events(void)
{
    static char bytes[60000];
    size_t length = 0, each;
    unsigned lines = 0;
    WANT(OK, lwkt_record_in_lines(&recorder, true));
    WANT(OK, lwkt_record_to_bytes(&recorder, bytes, sizeof bytes, &length));
    for (each = 0; each + 2 < length; each++)
        lines += bytes[each] == '\n' && bytes[each + 1] == '[';
    WANT(OK, lwkt_record_in_lines(&recorder, false));
    return lines;
}

// The calls of a recorder that keeps its last events.
static void last_calls(void)
{
    static const uint64_t cells[2] = {60, 40};
    open_drained(9);
    WANT(LIMIT, lwkt_record_keep_last(&recorder));
    WANT(OK, lwkt_record_load(&recorder, 0, 0));
    WANT(LATE, lwkt_record_keep_last(&recorder));
    open_drained(10);
    WANT(OK, lwkt_record_drain(&recorder, let_go, NULL));
    WANT(LATE, lwkt_record_keep_last(&recorder));
    open_drained(19);
    WANT(OK, lwkt_record_keep_last(&recorder));
    WANT(OK, lwkt_record_keep_last(&recorder));
    WANT(OK, lwkt_record_token(&recorder, 0, LWKT_RECORD_SUM, 100, 5, cells, 2));
    want_at(__LINE__, (int)lwkt_record_room(&recorder, 1), 10);
    WANT(MODE, lwkt_record_drain(&recorder, let_go, NULL));
    sections_at(0, 2);
    want_at(__LINE__, (int)last_events(), 8);
    sections_at(0, 1000);
    sections_at(1, 1);
    want_at(__LINE__, (int)lwkt_record_room(&recorder, 0), 10);
    WANT(OK, lwkt_record_claim(&recorder, 1));
    WANT(BUSY, lwkt_record_to_file(&recorder, stdout));
    lwkt_record_unclaim(&recorder.seats[1], 0);
    WANT(OK, lwkt_record_end_cells(&recorder, 0, cells, 2));
    WANT(OK, lwkt_record_end_generation(&recorder, 0, 1234));
    WANT(OK, lwkt_record_to_file(&recorder, stdout));
}

// What is left begins inside a section, which is told again with what it had written; the section before with its row.
static void last_in_a_section(void)
{
    static const uint64_t cells[2] = {51, 49};
    open_last(5);
    WANT(OK, lwkt_record_take(&recorder, 1, 0));
    WANT(OK, lwkt_record_write(&recorder, 1, 0, 0, 59));
    WANT(OK, lwkt_record_write(&recorder, 1, 0, 1, 41));
    WANT(OK, lwkt_record_give(&recorder, 1, 0));
    WANT(OK, lwkt_record_take(&recorder, 0, 0));
    WANT(OK, lwkt_record_again(&recorder, 0, 0));
    WANT(OK, lwkt_record_write(&recorder, 0, 0, 0, 50));
    WANT(OK, lwkt_record_read(&recorder, 0, 0, 1, 41));
    WANT(OK, lwkt_record_read(&recorder, 0, 0, 0, 50));
    WANT(OK, lwkt_record_give(&recorder, 0, 0));
    WANT(OK, lwkt_record_write(&recorder, 0, 0, 1, 49));
    WANT(OK, lwkt_record_write(&recorder, 0, 0, 0, 51));
    WANT(OK, lwkt_record_give(&recorder, 0, 0));
    WANT(OK, lwkt_record_end_cells(&recorder, 0, cells, 2));
    WANT(OK, lwkt_record_end_generation(&recorder, 0, 7));
    want_at(__LINE__, (int)last_events(), 12);
    WANT(OK, lwkt_record_to_file(&recorder, stdout));
}

// A section that is forgotten broke the law; what came after kept to the wrong sum.
static void last_law(void)
{
    open_last(4);
    WANT(OK, lwkt_record_take(&recorder, 1, 0));
    WANT(OK, lwkt_record_write(&recorder, 1, 0, 0, 61));
    WANT(OK, lwkt_record_give(&recorder, 1, 0));
    WANT(OK, lwkt_record_share(&recorder, 1, 0));
    WANT(OK, lwkt_record_read(&recorder, 1, 0, 0, 61));
    WANT(OK, lwkt_record_read(&recorder, 1, 0, 1, 40));
    WANT(OK, lwkt_record_give(&recorder, 1, 0));
    WANT(OK, lwkt_record_to_file(&recorder, stdout));
}

// A reference whose take is forgotten, and which isn't given back; and two that can't be.
static void last_held(void)
{
    open_last(4);
    WANT(OK, lwkt_record_share(&recorder, 1, 0));
    WANT(OK, lwkt_record_share(&recorder, 0, 0));
    WANT(OK, lwkt_record_give(&recorder, 0, 0));
    WANT(OK, lwkt_record_mark(&recorder, 0, 0));
    WANT(OK, lwkt_record_mark(&recorder, 0, 0));
    WANT(OK, lwkt_record_mark(&recorder, 0, 0));
    WANT(OK, lwkt_record_end(&recorder));
    WANT(OK, lwkt_record_to_file(&recorder, stdout));
}

static void last_held_by_two(void)
{
    unsigned each;
    open_last(4);
    WANT(OK, lwkt_record_take(&recorder, 1, 0));
    WANT(OK, lwkt_record_share(&recorder, 0, 0));
    for (each = 0; each < 4; each++)
        WANT(OK, lwkt_record_load(&recorder, 0, 0));
    WANT(OK, lwkt_record_to_file(&recorder, stdout));
}

// Messages in each state when the last forgotten event was over, and how each goes on.
static void last_messages(void)
{
    unsigned each;
    open_scene(2, 1, 5, 8 + 5 + 7);
    WANT(OK, lwkt_record_keep_last(&recorder));
    for (each = 0; each < 5; each++)
        WANT(OK, lwkt_record_message(&recorder, each, each % 2, 0, 7));
    for (each = 0; each < 5; each++) {
        WANT(OK, lwkt_record_send(&recorder, each % 2, each, 1, 0));
        if (each > 0)
            WANT(OK, lwkt_record_take_message(&recorder, 1, each, 0));
        if (each > 1)
            WANT(OK, lwkt_record_reply(&recorder, 1, each));
        if (each > 2)
            WANT(OK, lwkt_record_reap(&recorder, each % 2, each));
    }
    WANT(OK, lwkt_record_abort(&recorder, 0, 0));
    for (each = 0; each < 7; each++)
        WANT(OK, lwkt_record_load(&recorder, 0, 0));
    WANT(OK, lwkt_record_drop(&recorder, 0, 0));
    WANT(OK, lwkt_record_reply(&recorder, 1, 1));
    WANT(OK, lwkt_record_reap(&recorder, 0, 2));
    WANT(OK, lwkt_record_send(&recorder, 1, 3, 0, 9));
    WANT(OK, lwkt_record_send(&recorder, 0, 4, 1, 9));
    WANT(OK, lwkt_record_end(&recorder));
    WANT(OK, lwkt_record_to_file(&recorder, stdout));
}

// An event that is lost ends what is kept: from then on nothing is forgotten.
static void last_lost(void)
{
    open_last(8);
    sections_at(0, 50);
    WANT(OK, lwkt_record_share(&recorder, 1, 0));
    WANT(NO_PROCESSOR, lwkt_record_take(&recorder, 2, 0));
    WANT(FULL, lwkt_record_take(&recorder, 0, 0));
    WANT(OK, lwkt_record_give(&recorder, 1, 0));
    WANT(NO_PROCESSOR, lwkt_record_lost(&recorder));
    WANT(OK, lwkt_record_end(&recorder));
    WANT(CUT, lwkt_record_to_file(&recorder, stdout));
}

// Where the lost event is before all that is left, only the opening is written.
static void last_unknown(void)
{
    open_last(1);
    WANT(OK, lwkt_record_load(&recorder, 0, 0));
    (void)lwkt_record_stamp(&recorder);
    sections_at(0, 5);
    WANT(OK, lwkt_record_end(&recorder));
    WANT(CUT, lwkt_record_to_file(&recorder, stdout));
}

// The last events are written while others record: their calls are then answered BUSY, which ends the recording.
static void *record_last(void *argument)
{
    unsigned processor = *(unsigned *)argument, each;
    for (each = 0; each < 2000; each++) {
        int error = lwkt_record_load(&recorder, processor, 0);
        want_at(__LINE__, error == LWKT_RECORD_OK || error == LWKT_RECORD_BUSY || error == LWKT_RECORD_FULL, 1);
    }
    return NULL;
}

static void last_while_others_record(void)
{
    static unsigned numbers[2] = {0, 1};
    pthread_t threads[2];
    unsigned each;
    int error;
    open_last(100);
    for (each = 0; each < 2; each++)
        pthread_create(&threads[each], NULL, record_last, &numbers[each]);
    for (each = 0; each < 10; each++) {
        error = lwkt_record_to_sink(&recorder, let_go, NULL);
        want_at(__LINE__, error == LWKT_RECORD_OK || error == LWKT_RECORD_CUT || error == LWKT_RECORD_BUSY, 1);
        sched_yield();
    }
    for (each = 0; each < 2; each++)
        pthread_join(threads[each], NULL);
    error = lwkt_record_to_file(&recorder, stdout);
    want_at(__LINE__, error, lwkt_record_lost(&recorder) == 0 ? LWKT_RECORD_OK : LWKT_RECORD_CUT);
}

// Three processors do at random what tokens and messages let them, for a long time; a few of the last events are kept.
#define LAST_PROCESSORS 3
#define LAST_TOKENS 3
#define LAST_MESSAGES 2

static struct {
    unsigned references[LAST_PROCESSORS][LAST_TOKENS];
    unsigned exclusive[LAST_TOKENS]; // who, and 1 more
    uint64_t row[LAST_TOKENS][2];
    uint64_t first[LAST_TOKENS][2]; // the row when the exclusive holder took the token
    unsigned state[LAST_MESSAGES]; // 0 at rest, 1 out, 2 with the target, 3 back
    unsigned target[LAST_MESSAGES];
} world;

static unsigned chance(unsigned below)
{
    seed = seed * UINT64_C(6364136223846793005) + UINT64_C(1442695040888963407);
    return (unsigned)(seed >> 33) % below;
}

static unsigned world_references(unsigned token)
{
    unsigned each, all = 0;
    for (each = 0; each < LAST_PROCESSORS; each++)
        all += world.references[each][token];
    return all;
}

static void world_take(unsigned processor, unsigned token)
{
    if (world.references[processor][token] > 0) {
        if (world.references[processor][token] == 4)
            return;
        WANT(OK, lwkt_record_again(&recorder, processor, token));
    } else if (world_references(token) == 0 && chance(2) == 0) {
        WANT(OK, lwkt_record_take(&recorder, processor, token));
        world.exclusive[token] = processor + 1;
        memcpy(world.first[token], world.row[token], sizeof world.first[token]);
    } else if (world.exclusive[token] == 0) {
        WANT(OK, lwkt_record_share(&recorder, processor, token));
    } else {
        return;
    }
    world.references[processor][token] += 1;
}

static void world_write(unsigned processor, unsigned token, unsigned cell, uint64_t value)
{
    world.row[token][cell] = value;
    WANT(OK, lwkt_record_write(&recorder, processor, token, cell, value));
}

// A token under a sum, one under a tally, and one with a cell that may have any value.
static void world_change(unsigned processor, unsigned token)
{
    if (token == 1) {
        world_write(processor, 1, 0, world.row[1][0] + chance(3));
    } else if (token == 2) {
        world_write(processor, 2, 0, chance(3));
    } else {
        uint64_t first = chance(101);
        if (chance(2) == 0)
            world_write(processor, 0, 0, chance(1000));
        world_write(processor, 0, 0, first);
        world_write(processor, 0, 1, 100 - first);
    }
}

// How a reference is given back, as a program would say that looks at its row.
static enum lwkt_record_give world_how(unsigned processor, unsigned token)
{
    if (world.exclusive[token] != processor + 1 || world.references[processor][token] > 1)
        return LWKT_RECORD_ONE;
    return memcmp(world.first[token], world.row[token], sizeof world.first[token]) == 0 ? LWKT_RECORD_CLEAN
                                                                                        : LWKT_RECORD_WRITTEN;
}

static void world_give(unsigned processor, unsigned token)
{
    if (world.references[processor][token] == 0)
        return;
    if (chance(2) == 0)
        WANT(OK, lwkt_record_give(&recorder, processor, token));
    else
        WANT(OK, lwkt_record_give_as(&recorder, processor, token, world_how(processor, token)));
    world.references[processor][token] -= 1;
    if (world.references[processor][token] == 0 && world.exclusive[token] == processor + 1)
        world.exclusive[token] = 0;
}

static void world_use(unsigned processor, unsigned token)
{
    if (world.references[processor][token] == 0)
        return;
    WANT(OK, lwkt_record_read(&recorder, processor, token, 0, world.row[token][0]));
    if (world.exclusive[token] == processor + 1 && chance(2) == 0)
        world_change(processor, token);
}

static void world_message(unsigned message)
{
    unsigned origin = message % LAST_PROCESSORS, target = world.target[message];
    switch (world.state[message]) {
    case 0:
        world.target[message] = chance(LAST_PROCESSORS);
        WANT(OK, lwkt_record_send(&recorder, origin, message, world.target[message], 0));
        world.state[message] = 1;
        break;
    case 1:
        world.state[message] = chance(3) == 0 ? 0 : 2;
        if (world.state[message] == 0)
            WANT(OK, lwkt_record_drop(&recorder, origin, message));
        else
            WANT(OK, lwkt_record_take_message(&recorder, target, message, 0));
        break;
    case 2:
        if (chance(2) == 0)
            WANT(OK, lwkt_record_abort(&recorder, origin, message));
        WANT(OK, lwkt_record_reply(&recorder, target, message));
        world.state[message] = 3;
        break;
    default:
        WANT(OK, lwkt_record_reap(&recorder, origin, message));
        world.state[message] = 0;
    }
}

static void world_step(unsigned processor)
{
    switch (chance(7)) {
    case 0:
        world_take(processor, chance(LAST_TOKENS));
        break;
    case 1:
    case 2:
        world_give(processor, chance(LAST_TOKENS));
        break;
    case 3:
        world_message(chance(LAST_MESSAGES));
        break;
    case 4:
        WANT(OK, lwkt_record_mark(&recorder, processor, chance(LAST_TOKENS)));
        break;
    default:
        world_use(processor, chance(LAST_TOKENS));
    }
}

// In half of the plays all is given back at the end, and the cells are told.
static void world_end(void)
{
    static const unsigned counts[LAST_TOKENS] = {2, 1, 1};
    unsigned processor, token;
    for (processor = 0; processor < LAST_PROCESSORS; processor++)
        for (token = 0; token < LAST_TOKENS; token++)
            while (world.references[processor][token] > 0)
                world_give(processor, token);
    for (token = 0; token < LAST_TOKENS; token++)
        WANT(OK, lwkt_record_end_cells(&recorder, token, world.row[token], counts[token]));
}

static void last_at_random(void)
{
    static const uint64_t rows[LAST_TOKENS][2] = {{60, 40}, {7, 0}, {1, 0}};
    unsigned each, steps = 20 + chance(400), busiest = chance(LAST_PROCESSORS);
    memset(&world, 0, sizeof world);
    memcpy(world.row, rows, sizeof rows);
    open_scene(LAST_PROCESSORS, LAST_TOKENS, LAST_MESSAGES, 8 * LAST_TOKENS + LAST_MESSAGES + 1 + chance(60));
    WANT(OK, lwkt_record_token(&recorder, 0, LWKT_RECORD_SUM, 100, 5, rows[0], 2));
    WANT(OK, lwkt_record_token(&recorder, 1, LWKT_RECORD_TALLY, 7, 0, rows[1], 1));
    WANT(OK, lwkt_record_token(&recorder, 2, LWKT_RECORD_ANY, 0, 0, rows[2], 1));
    WANT(OK, lwkt_record_message(&recorder, 1, 1, 3, 9));
    WANT(OK, lwkt_record_keep_last(&recorder));
    for (each = 0; each < steps; each++)
        world_step(chance(3) == 0 ? chance(LAST_PROCESSORS) : busiest);
    if (chance(2) == 0)
        world_end();
    WANT(OK, lwkt_record_to_file(&recorder, stdout));
}

static const struct scene {
    const char *name;
    void (*play)(void);
} scenes[] = {
    {"nothing_happens", nothing_happens},
    {"sections", sections},
    {"told_give", told_give},
    {"tallies", tallies},
    {"law_order", law_order},
    {"law_cap", law_cap},
    {"law_any", law_any},
    {"opening_law", opening_law},
    {"give_without_take", give_without_take},
    {"give_twice", give_twice},
    {"write_when_shared", write_when_shared},
    {"other_end", other_end},
    {"other_generation", other_generation},
    {"held_at_the_end", held_at_the_end},
    {"messages", messages},
    {"reply_twice", reply_twice},
    {"stale_take", stale_take},
    {"full", full},
    {"no_room", no_room},
    {"references", references},
    {"lines_past_the_limit", lines_past_the_limit},
    {"lines_cut", lines_cut},
    {"lines_other_end", lines_other_end},
    {"unknown_things", unknown_things},
    {"unknown_processor", unknown_processor},
    {"unknown_target", unknown_target},
    {"unknown_give", unknown_give},
    {"busy", busy},
    {"too_long", too_long},
    {"largest", largest},
    {"refused_declarations", refused_declarations},
    {"refused_openings", refused_openings},
    {"refused_again", refused_again},
    {"opened_twice", opened_twice},
    {"closed", closed},
    {"streams", streams},
    {"while_others_record", while_others_record},
    {"two_on_one_processor", two_on_one_processor},
    {"lent_numbers", lent_numbers},
    {"lent_and_lost", lent_and_lost},
    {"lines_lent_to_many", lent_to_many},
    {"lines_drained", drained},
    {"where", where},
    {"lines_where_drained", where_drained},
    {"other_references", other_references},
    {"lines_drained_calls", drained_calls},
    {"lines_drained_full", drained_full},
    {"lines_drained_largest", drained_largest},
    {"lines_drained_while_others_record", drained_while_others_record},
    {"lines_drained_by_two", drained_by_two},
    {"last_calls", last_calls},
    {"last_where", last_where},
    {"last_in_a_section", last_in_a_section},
    {"last_law", last_law},
    {"last_held", last_held},
    {"last_held_by_two", last_held_by_two},
    {"last_messages", last_messages},
    {"last_lost", last_lost},
    {"last_unknown", last_unknown},
    {"last_while_others_record", last_while_others_record},
    {"last_at_random", last_at_random},
};

int main(int count, char **arguments)
{
    size_t each;
    if (count > 2)
        seed = strtoull(arguments[2], NULL, 10);
    for (each = 0; each < sizeof scenes / sizeof scenes[0]; each++) {
        scene_name = scenes[each].name;
        if (count < 2) {
            puts(scene_name);
        } else if (strcmp(arguments[1], scene_name) == 0 || strcmp(arguments[1], "all") == 0) {
            scenes[each].play();
            lwkt_record_close(&recorder);
        }
    }
    return has_failed ? 1 : 0;
}
