// lwkt_record: records what the threads of a kernel or of a threaded program do with their own tokens and messages, and
// writes it as a trace that `lwkt_check` judges (docs/RECORDING.md). C11 or C++17; one file, nothing to link.
//
//     static lwkt_record recorder;
//     static const uint64_t cells[2] = {60, 40};
//
//     lwkt_record_open(&recorder, 4, 1, 0, 100000);        // processors, tokens, messages, events of each processor
//     lwkt_record_token(&recorder, 0, LWKT_RECORD_SUM, 100, 0, cells, 2);
//     ..                                                   // the threads run, and make the calls below
//     lwkt_record_end(&recorder);                          // nobody holds a token any more
//     lwkt_record_to_file(&recorder, stdout);              // | ./lwkt_check, or behind `lwkt_record_in_lines` | ./lwkt_check lines
//     lwkt_record_close(&recorder);
//
// Processor. Who can hold a token: a processor of a kernel whose threads give up their tokens when they switch, or a thread of
// a program. It is a number from 0; `lwkt_record_enter` lends one, where there are more threads than numbers. Each has a buffer
// of its own, so that its calls touch what it shares with the others once: at the count of all events, from which each event
// takes its stamp. The trace has the events in the order of their stamps.
//
// Where the calls stand. What takes is recorded after it succeeded, and what gives before it is done, so that each event is
// stamped inside the holding that it is of:
//
//     after   take, share, again, mark, take_message, drop, reap
//     before  give, send, reply
//     inside  read, write: beside the load or store, while the token is held; abort: while the message is away
//
// Errors. Each call answers 0 (LWKT_RECORD_OK) or a number of `lwkt_record_error`. No call waits, none takes memory but
// `lwkt_record_open`, and none is undefined but for what is said under "Who may call". An event that couldn't be recorded, but
// should have been, leaves a gap in the stamps; the trace ends before the first gap. So a trace is always a front of what
// happened, and what can't be recorded is never told as a fault of the recorded program. A recorder that keeps the last events
// (`lwkt_record_keep_last`) writes the back of this front.
//
// Who may call. `open`, `token`, `message`, `where_to`, `end*` and `close`: one thread, while nobody records or writes. Events, `at`,
// `enter` and `leave`: any number of threads at once. Two calls at once for one processor are no fault: the second is answered
// LWKT_RECORD_BUSY (an interrupt that comes into a call of the processor that it interrupts is such a case). `to_*` and
// `drain*`: one thread at a time, while others record, and a second one is answered BUSY; they write the events that are there
// when they begin. The recorder must stay where it is from `open` on, and not be copied.
//
// Before the include may be defined: LWKT_RECORD_FREESTANDING, for no stdio.h and stdlib.h (then `lwkt_record_open` and
// `lwkt_record_*to_file` aren't there); LWKT_RECORD_BYTES_MOST, for shorter traces. Atomic words of 64 bits are needed.
#ifndef LWKT_RECORD_H
#define LWKT_RECORD_H

#include <stdbool.h>
#include <stddef.h>
#include <stdint.h>
#ifndef LWKT_RECORD_FREESTANDING
#include <stdio.h>
#include <stdlib.h>
#endif

#ifdef __cplusplus
#include <atomic>
#define LWKT_RECORD_ATOMIC(TYPE) std::atomic<TYPE>
#define LWKT_RECORD_IN(NAME) std::NAME
#else
#include <stdatomic.h>
#define LWKT_RECORD_ATOMIC(TYPE) _Atomic(TYPE)
#define LWKT_RECORD_IN(NAME) NAME
#endif

// A function that isn't copied into each place where it is called, and so not to each where an event is recorded.
#ifdef __GNUC__
#define LWKT_RECORD_APART __attribute__((noinline, unused))
#else
#define LWKT_RECORD_APART inline
#endif

// The limits of a trace (docs/TRACES.md, "Trace, version 1"). That of its events, 50000000, is not reached: so many have more
// bytes than a trace.
#define LWKT_RECORD_PROCESSORS 8
#define LWKT_RECORD_TOKENS 64
#define LWKT_RECORD_MESSAGES 64
#define LWKT_RECORD_CELLS 4
#define LWKT_RECORD_REFERENCES 32
#define LWKT_RECORD_LAST_GENERATION UINT64_C(70368744177663)
#define LWKT_RECORD_LAST_ROUND UINT64_C(2251799813685247)
#ifndef LWKT_RECORD_BYTES_MOST
#define LWKT_RECORD_BYTES_MOST UINT64_C(268435456)
#endif

// What a call answers.
enum lwkt_record_error {
    LWKT_RECORD_OK = 0,
    LWKT_RECORD_CLOSED = 1,       // there is no recorder (NULL), or it isn't open; nothing was done
    LWKT_RECORD_LIMIT = 2,        // a limit of the trace format is passed, or a number names nothing
    LWKT_RECORD_MEMORY = 3,       // no memory; nothing was done
    LWKT_RECORD_LATE = 4,         // declared after the first event or drain, or told after the closing values; nothing was done
    LWKT_RECORD_NO_PROCESSOR = 5, // no such processor; the event left a gap
    LWKT_RECORD_NO_TOKEN = 6,     // no such token; nothing was recorded, and no gap left: other tokens don't need it
    LWKT_RECORD_NO_CELL = 7,      // the token has no such cell; nothing was recorded, and no gap left
    LWKT_RECORD_NO_MESSAGE = 8,   // no such message; nothing was recorded, and no gap left
    LWKT_RECORD_FULL = 9,         // the processor's buffer is full; the event left a gap
    LWKT_RECORD_TOO_MANY = 10,    // the processor has 32 references, the most that a trace can tell; the event left a gap
    LWKT_RECORD_BUSY = 11,        // another call for the same processor, or another writing, is under way; an event left a gap
    LWKT_RECORD_CUT = 12,         // the trace was written up to the first gap, or as long as a trace may be; it is a good one
    LWKT_RECORD_STREAM = 13,      // the trace couldn't be written
    LWKT_RECORD_NO_ROOM = 14,     // the bytes given have no room for the trace
    LWKT_RECORD_ALL_LENT = 15,    // each processor's number is lent; nothing was done
    LWKT_RECORD_HOLDS = 16,       // the processor has references by what was recorded; its number stays lent
    LWKT_RECORD_NOT_LENT = 17,    // the number isn't lent; nothing was done
    LWKT_RECORD_MODE = 18,        // a whole writing after a drain, or a drain where the last events are kept; nothing was done
    LWKT_RECORD_OTHERWISE = 19    // the token has other references than its events leave
};

// The law of a token's cells, asked at the end of each section that wrote (docs/MODEL.md, "Laws").
enum lwkt_record_law {
    LWKT_RECORD_ANY,   // nothing
    LWKT_RECORD_SUM,   // the cells add up to the parameter
    LWKT_RECORD_ORDER, // no cell is less than the one before it
    LWKT_RECORD_CAP,   // each cell is at most the parameter
    LWKT_RECORD_TALLY  // one cell, which begins as the parameter and is only raised
};

// How an exclusive holding's reference is given back, for `lwkt_record_give_as`.
enum lwkt_record_give {
    LWKT_RECORD_ONE,    // there are more references, or the token is held shared
    LWKT_RECORD_CLEAN,  // the last one; the cells are as they were when the token was taken
    LWKT_RECORD_WRITTEN // the last one; the cells have changed
};

// The events, by the places of their words in `lwkt_record_word`.
enum lwkt_record_kind {
    LWKT_RECORD_KIND_GIVE_ONE = LWKT_RECORD_ONE,
    LWKT_RECORD_KIND_GIVE_CLEAN = LWKT_RECORD_CLEAN,
    LWKT_RECORD_KIND_GIVE_WRITTEN = LWKT_RECORD_WRITTEN,
    LWKT_RECORD_KIND_GIVE, // one of the three, which is found out when the trace is written
    LWKT_RECORD_KIND_LOAD,
    LWKT_RECORD_KIND_TAKE,
    LWKT_RECORD_KIND_SHARE,
    LWKT_RECORD_KIND_AGAIN,
    LWKT_RECORD_KIND_MARK,
    LWKT_RECORD_KIND_READ,
    LWKT_RECORD_KIND_WRITE,
    LWKT_RECORD_KIND_SEND,
    LWKT_RECORD_KIND_TAKE_MESSAGE,
    LWKT_RECORD_KIND_DROP,
    LWKT_RECORD_KIND_REPLY,
    LWKT_RECORD_KIND_REAP,
    LWKT_RECORD_KIND_ABORT
};

// One event of a processor: 24 bytes.
typedef struct lwkt_record_event {
    uint64_t stamp;
    uint64_t value;
    uint8_t kind;
    uint8_t place; // the token or message
    uint8_t part;  // the cell, or the processor that a message is sent to
    uint16_t where; // where in the recorder's table it stands in which line it was recorded, from 1
} lwkt_record_event;

// What a processor records into. Its members are the recorder's own, as are those of all types below.
typedef struct lwkt_record_seat {
    LWKT_RECORD_ATOMIC(bool) busy;
    LWKT_RECORD_ATOMIC(uint16_t) where; // what the next event has as its own
    LWKT_RECORD_ATOMIC(size_t) used;    // how many events were recorded here
    size_t gone;                     // how many of them aren't here any more, as far as was looked
    size_t place;                    // where the next one goes
    lwkt_record_event *events;
    lwkt_record_event *pasts; // what is left of the forgotten events (`lwkt_record_past_write`)
    uint64_t forgotten;       // the stamp behind the last of them
    unsigned references;
    uint8_t held[LWKT_RECORD_TOKENS];
    uint8_t past[LWKT_RECORD_TOKENS]; // the references after them, and whether they are exclusive
    char apart[64]; // no two seats in one cache line
} lwkt_record_seat;

// A token as it was declared, and its end as it was told.
typedef struct lwkt_record_token_spec {
    uint64_t param;
    uint64_t generation;
    uint64_t end_generation;
    uint64_t cells[LWKT_RECORD_CELLS];
    uint64_t end_cells[LWKT_RECORD_CELLS];
    unsigned count;
    unsigned law;
    bool has_end_cells;
    bool has_end_generation;
} lwkt_record_token_spec;

// A message as it was declared, and the round of its last send.
typedef struct lwkt_record_message_spec {
    LWKT_RECORD_ATOMIC(uint64_t) last_round;
    uint64_t round;
    unsigned processor;
    unsigned thread;
} lwkt_record_message_spec;

// What the events lead to, as far as they are written.
typedef struct lwkt_record_model {
    uint64_t row[LWKT_RECORD_TOKENS][LWKT_RECORD_CELLS];
    uint64_t first[LWKT_RECORD_TOKENS][LWKT_RECORD_CELLS];
    uint64_t tally[LWKT_RECORD_TOKENS][LWKT_RECORD_PROCESSORS];
    uint64_t generation[LWKT_RECORD_TOKENS];
    uint64_t round[LWKT_RECORD_MESSAGES];
    size_t heads[LWKT_RECORD_PROCESSORS];  // how many events of each processor are written,
    size_t places[LWKT_RECORD_PROCESSORS]; // and where the next one is
    uint8_t references[LWKT_RECORD_PROCESSORS][LWKT_RECORD_TOKENS];
    bool is_exclusive[LWKT_RECORD_PROCESSORS][LWKT_RECORD_TOKENS];
    uint8_t state[LWKT_RECORD_MESSAGES];
    uint8_t target[LWKT_RECORD_MESSAGES];
} lwkt_record_model;

// Takes bytes of a trace; 0 if it has them all, else it has none of them.
typedef int (*lwkt_record_sink)(void *context, const char *bytes, size_t count);

// What is being written: the bytes that the sink hasn't yet, how many are to be left out, and how many were put.
typedef struct lwkt_record_page {
    lwkt_record_sink sink;
    void *context;
    uint64_t skip;
    uint64_t length;
    uint64_t events; // how many were put
    size_t count;
    bool has_failed;
    bool is_short; // a byte wasn't put, because the sink refused those before it
    bool is_full;  // an event wasn't put, because the trace would be too long
    bool has_event;
    bool in_lines;
    char bytes[512];
} lwkt_record_page;

// How far a trace is drained.
enum lwkt_record_stage {
    LWKT_RECORD_UNDRAINED,
    LWKT_RECORD_IN_OPENING,
    LWKT_RECORD_IN_EVENTS,
    LWKT_RECORD_IN_CLOSING,
    LWKT_RECORD_WRITTEN_OUT
};

// The lines in which events are recorded that a recorder tells apart, and the bytes of one that it writes: of a longer one the last.
#define LWKT_RECORD_LINES 512
#define LWKT_RECORD_LINE 200

// A recorder, some 26 KB. One that is all zeros, as a static one, isn't open, and neither is one whose opening was refused.
typedef struct lwkt_record {
    uint64_t mark; // where it is, mixed, once it was opened there
    unsigned processors;
    unsigned tokens;
    unsigned messages;
    size_t room;
    lwkt_record_event *memory; // the recorder's own
    uint64_t first;            // the stamp of the first event that is written
    bool keeps_last;
    bool has_ended;
    bool in_lines;
    lwkt_record_token_spec token[LWKT_RECORD_TOKENS];
    lwkt_record_message_spec message[LWKT_RECORD_MESSAGES];
    lwkt_record_model model;
    lwkt_record_page drain;
    lwkt_record_page where; // its sink is NULL where nobody asks for the lines
    LWKT_RECORD_ATOMIC(const char *) lines[LWKT_RECORD_LINES];
    uint64_t drained;      // events
    uint64_t drained_part; // bytes of the opening, or of the closing values
    int stage;
    LWKT_RECORD_ATOMIC(bool) writes;
    LWKT_RECORD_ATOMIC(size_t) freed[LWKT_RECORD_PROCESSORS]; // how many events of each processor aren't here any more
    char before[64]; // the next stamp has a cache line for itself
    LWKT_RECORD_ATOMIC(uint64_t) next;
    char behind[64];
    LWKT_RECORD_ATOMIC(int) lost;
    LWKT_RECORD_ATOMIC(unsigned) lent; // a bit for each processor
    lwkt_record_seat seats[LWKT_RECORD_PROCESSORS];
} lwkt_record;

// ---------------------------------------------------------------------------------------------------------------------------
// Opening

// Opens a recorder over memory of the caller's: `processors` times `room` events, which stay the recorder's until it is no
// longer used. There are 1 to 8 processors, at most 64 tokens and at most 64 messages; each processor can record `room` events.
// Tokens have the law ANY and no cells, messages are of thread 0 of processor 0, until they are declared.
// One that is open is closed first, as by `lwkt_record_close`, also where the opening is refused: then it stays closed. LIMIT where a
// number is past its limit, CLOSED without a recorder, MEMORY without events.
static inline int lwkt_record_open_in(lwkt_record *recorder, unsigned processors, unsigned tokens, unsigned messages,
                                      lwkt_record_event *events, size_t room);

#ifndef LWKT_RECORD_FREESTANDING
// The same over memory of the recorder's own, which `lwkt_record_close` frees. MEMORY where it is refused.
static inline int lwkt_record_open(lwkt_record *recorder, unsigned processors, unsigned tokens, unsigned messages,
                                   size_t room);
#endif

// Has each processor keep its last events only, and forget the oldest where its buffer is full. 8 events for each token and one
// for each message are taken from each processor's room: LIMIT where none is left. The trace then begins behind the last event
// that any processor forgot. Events that are told again lead there, from the values declared: of a token with other cells a
// section that wrote them, of each holder its references and its writes, of a message that is away its send, take and reply.
// An event that is lost ends the recording: from then on nothing is forgotten. So does writing the trace while others record:
// their calls are answered BUSY meanwhile. LATE, CLOSED.
static inline int lwkt_record_keep_last(lwkt_record *recorder);

// Closes a recorder. Calls on it are then answered CLOSED. It may be opened again.
static inline void lwkt_record_close(lwkt_record *recorder);

// Declares a token: its law and the law's parameter, its generation, and its cells as they are now, 0 to 4 of them, under TALLY
// one. A kernel without generations says 0: each section that wrote then counts as one. Whether the cells obey the law is
// for `lwkt_check` to say. LATE after the first event, NO_TOKEN, LIMIT.
static inline int lwkt_record_token(lwkt_record *recorder, unsigned token, enum lwkt_record_law law, uint64_t param,
                                    uint64_t generation, const uint64_t *cells, unsigned count);

// Declares a message: the processor that sends it, and the thread there, 0 to 15; its round, which is a count of its sends.
// LATE after the first event, NO_MESSAGE, LIMIT.
static inline int lwkt_record_message(lwkt_record *recorder, unsigned message, unsigned processor, unsigned thread,
                                      uint64_t round);

// ---------------------------------------------------------------------------------------------------------------------------
// Lent numbers

// Lends the calling thread a processor's number that is free, the lowest, and stores it: for a program with more threads than a
// trace has processors. Any number of threads may call at once; nobody waits for another. A recorder that lends numbers has no
// thread with a number of its own, and no messages, which name processors. ALL_LENT; LIMIT without a place for the number; CLOSED.
static inline int lwkt_record_enter(lwkt_record *recorder, unsigned *number);

// Takes the number back, from the thread that was lent it, once: others may be lent it then. HOLDS where it has recorded tokens,
// unless an event was lost, which may have been their give; NOT_LENT, BUSY where another call for this processor is under way,
// CLOSED: in each case nothing was done, and no gap left.
static inline int lwkt_record_leave(lwkt_record *recorder, unsigned number);

// ---------------------------------------------------------------------------------------------------------------------------
// Events of tokens. Each is answered CLOSED, NO_PROCESSOR, NO_TOKEN, BUSY or FULL where that is so.

// The processor has taken the token exclusively, or shared. Called after the step that took it. TOO_MANY.
static inline int lwkt_record_take(lwkt_record *recorder, unsigned processor, unsigned token);
static inline int lwkt_record_share(lwkt_record *recorder, unsigned processor, unsigned token);

// The processor, which has the token already, has taken a further reference to it, in whichever mode. TOO_MANY.
static inline int lwkt_record_again(lwkt_record *recorder, unsigned processor, unsigned token);

// The processor has marked the token for an exclusive request.
static inline int lwkt_record_mark(lwkt_record *recorder, unsigned processor, unsigned token);

// The processor is about to give its last reference to the token back. Called before the step that gives it up. Whether others
// are left, and whether the section wrote, is found out from what is recorded.
static inline int lwkt_record_give(lwkt_record *recorder, unsigned processor, unsigned token);

// The same, told by the caller. LIMIT, with a gap, for what is none of the three.
static inline int lwkt_record_give_as(lwkt_record *recorder, unsigned processor, unsigned token, enum lwkt_record_give how);

// The processor, which holds the token, has read the value in the cell, or writes it there: then exclusively. Called beside the
// load or store, in the order in which the processor makes them. NO_CELL for one that wasn't declared.
static inline int lwkt_record_read(lwkt_record *recorder, unsigned processor, unsigned token, unsigned cell, uint64_t value);
static inline int lwkt_record_write(lwkt_record *recorder, unsigned processor, unsigned token, unsigned cell, uint64_t value);

// The processor has looked at the token's word, as when it was refused. It may always; a trace needs none of these.
static inline int lwkt_record_load(lwkt_record *recorder, unsigned processor, unsigned token);

// How many references to the token the processor has by what was recorded; 0 where there is no such thing. For a program that
// doesn't know whether a share is a first or a further one. Called by the processor itself.
static inline unsigned lwkt_record_held(const lwkt_record *recorder, unsigned processor, unsigned token);

// Records the event of this call, and that it was recorded in this line of the program: `lwkt_record_here(take, &recorder, self, 0)` for
// `lwkt_record_take(&recorder, self, 0)`. The recorder and the processor are evaluated twice. For all events, those of messages too.
#define lwkt_record_here(CALL, RECORDER, PROCESSOR, ...)                                             \
    (lwkt_record_at(RECORDER, PROCESSOR, __FILE__ ":" LWKT_RECORD_TEXT(__LINE__)),                   \
     LWKT_RECORD_CALL(CALL)(RECORDER, PROCESSOR, __VA_ARGS__))
#define LWKT_RECORD_CALL(CALL) lwkt_record_##CALL
#define LWKT_RECORD_TEXT(LINE) LWKT_RECORD_QUOTED(LINE)
#define LWKT_RECORD_QUOTED(LINE) #LINE

// The same of the processor's next event, with a text of the program's, such as the line of a caller. The text stays where it is until
// the trace is written, and is told from others by its address. Of more than 512 texts some aren't kept.
static inline void lwkt_record_at(lwkt_record *recorder, unsigned processor, const char *text);

// ---------------------------------------------------------------------------------------------------------------------------
// Events of messages. Each is answered CLOSED, NO_PROCESSOR, NO_MESSAGE, BUSY or FULL where that is so.

// The message's origin is about to send it to a processor. Called before the target can find it. `round` is the round that the
// message carries: one more at each send; 0 where it carries none, for the recorder to count.
static inline int lwkt_record_send(lwkt_record *recorder, unsigned processor, unsigned message, unsigned target,
                                   uint64_t round);

// The processor has taken the message from its port, and found this round in it; 0 where it carries none.
static inline int lwkt_record_take_message(lwkt_record *recorder, unsigned processor, unsigned message, uint64_t round);

// The origin has taken the message back before anybody took it.
static inline int lwkt_record_drop(lwkt_record *recorder, unsigned processor, unsigned message);

// The processor that took the message is about to reply to it. Called before its origin can find the reply.
static inline int lwkt_record_reply(lwkt_record *recorder, unsigned processor, unsigned message);

// The origin has taken the reply.
static inline int lwkt_record_reap(lwkt_record *recorder, unsigned processor, unsigned message);

// The origin asks for the message, which is away, to be aborted.
static inline int lwkt_record_abort(lwkt_record *recorder, unsigned processor, unsigned message);

// ---------------------------------------------------------------------------------------------------------------------------
// The end, and the trace

// Says that the recording is at its end: nobody holds a token. The trace then has closing values, those that the events lead
// to, but for what the next two tell; else it has none, and its events alone are judged. LATE, CLOSED.
static inline int lwkt_record_end(lwkt_record *recorder);

// The same, and tells what a token's cells are now, in memory, as many as were declared; or its generation, where the recorded
// program counts its sections. They are judged by what the events lead to, but for a generation of which sections are forgotten.
// LATE, CLOSED, NO_TOKEN, NO_CELL, LIMIT.
static inline int lwkt_record_end_cells(lwkt_record *recorder, unsigned token, const uint64_t *cells, unsigned count);
static inline int lwkt_record_end_generation(lwkt_record *recorder, unsigned token, uint64_t generation);

// The same, and tells how many references to a token there are now, by its own word: none, where all was given back. OTHERWISE where by
// the events there are more or fewer, as when a give was recorded and its step never done; not where an event was lost. LATE, CLOSED,
// NO_TOKEN.
static inline int lwkt_record_end_references(lwkt_record *recorder, unsigned token, uint64_t references);

// Has all that writes the trace say where each event was recorded, of which it knows: to this sink goes a line `NUMBER TEXT` for each,
// the number being that of the event in the trace, from 0, as a verdict has it. Asked before the first drain. What the sink refuses is
// answered as what the trace's refuses. LATE, CLOSED.
static inline int lwkt_record_where_to(lwkt_record *recorder, lwkt_record_sink sink, void *context);

// Says whether the trace is to be written in lines, for `lwkt_check lines` (docs/TRACES.md, "Trace in lines, version 1"): it may
// then be of any length. A recorder that was just opened writes one text. CLOSED.
static inline int lwkt_record_in_lines(lwkt_record *recorder, bool in_lines);

// Writes the trace to a sink, some bytes at a time. CUT where it ends before the last event; it has no closing values then.
// STREAM where the sink didn't take it; it isn't called again then. MODE after a drain; BUSY, CLOSED.
static inline int lwkt_record_to_sink(lwkt_record *recorder, lwkt_record_sink sink, void *context);

#ifndef LWKT_RECORD_FREESTANDING
// The same as `lwkt_record_where_to`, with a stream, which isn't flushed.
static inline int lwkt_record_where_to_file(lwkt_record *recorder, FILE *file);

// Writes the trace to a stream, and flushes it. CUT, STREAM, MODE, BUSY, CLOSED.
static inline int lwkt_record_to_file(lwkt_record *recorder, FILE *file);
#endif

// Writes the trace into `room` bytes, without a 0 at its end, and says how many bytes it has. NO_ROOM where they are more than
// `room`: then a front of them is there. CUT, MODE, BUSY, CLOSED.
static inline int lwkt_record_to_bytes(lwkt_record *recorder, char *bytes, size_t room, size_t *length);

// Writes what is complete and wasn't drained before, and frees its room for new events: so a recording may be of any length. All
// drains together write one trace in lines; the first writes the opening, the first after `end` the closing values. Of
// events the sink is always given whole lines. CUT where an event isn't there: while others record it may be under way, after
// `end` it was lost, and the trace is at its end, without closing values. STREAM where the sink refuses: the next drain offers
// the same bytes again, and the buffers fill meanwhile. MODE, BUSY, CLOSED.
static inline int lwkt_record_drain(lwkt_record *recorder, lwkt_record_sink sink, void *context);

#ifndef LWKT_RECORD_FREESTANDING
// The same to a stream, which is flushed. What a stream has of bytes that it refused isn't known: after STREAM no more should go
// there.
static inline int lwkt_record_drain_to_file(lwkt_record *recorder, FILE *file);
#endif

// How many events a processor can record before its buffer is full, without a drain; 0 where there is no such thing. For a
// thread that rather waits for a drain than loses an event. All of its room after a loss: waiting is of no use then, and where
// the last events are kept. Called by the processor itself.
static inline size_t lwkt_record_room(const lwkt_record *recorder, unsigned processor);

// Why the first event that left a gap couldn't be recorded, or 0.
static inline int lwkt_record_lost(const lwkt_record *recorder);

// An error in words.
static inline const char *lwkt_record_words(int error);

// ---------------------------------------------------------------------------------------------------------------------------
// How it is done: the buffers

// The count of all events gives each its stamp. It orders nothing else: the order of two stamps is that in which the recorded
// program orders its own steps, where it does (docs/RECORDING.md).
static inline uint64_t lwkt_record_stamp(lwkt_record *recorder)
{
    return LWKT_RECORD_IN(atomic_fetch_add_explicit)(&recorder->next, 1, LWKT_RECORD_IN(memory_order_relaxed));
}

// An event that isn't recorded takes a stamp, which is then in no buffer.
static LWKT_RECORD_APART int lwkt_record_lose(lwkt_record *recorder, int error)
{
    int none = 0;
    (void)lwkt_record_stamp(recorder);
    (void)LWKT_RECORD_IN(atomic_compare_exchange_strong_explicit)(&recorder->lost, &none, error,
                                                                  LWKT_RECORD_IN(memory_order_relaxed),
                                                                  LWKT_RECORD_IN(memory_order_relaxed));
    return error;
}

static inline bool lwkt_record_is_open(const lwkt_record *recorder)
{
    return recorder != NULL && recorder->processors != 0;
}

// Makes a processor's buffer this call's own.
static inline int lwkt_record_claim(lwkt_record *recorder, unsigned processor)
{
    if (processor >= recorder->processors)
        return lwkt_record_lose(recorder, LWKT_RECORD_NO_PROCESSOR);
    if (LWKT_RECORD_IN(atomic_exchange_explicit)(&recorder->seats[processor].busy, true,
                                                 LWKT_RECORD_IN(memory_order_acquire)))
        return lwkt_record_lose(recorder, LWKT_RECORD_BUSY);
    return LWKT_RECORD_OK;
}

static inline int lwkt_record_unclaim(lwkt_record_seat *seat, int error)
{
    LWKT_RECORD_IN(atomic_store_explicit)(&seat->busy, false, LWKT_RECORD_IN(memory_order_release));
    return error;
}

static inline size_t lwkt_record_used(const lwkt_record_seat *seat)
{
    return LWKT_RECORD_IN(atomic_load_explicit)(&seat->used, LWKT_RECORD_IN(memory_order_acquire));
}

static inline size_t lwkt_record_freed(const lwkt_record *recorder, size_t processor)
{
    return LWKT_RECORD_IN(atomic_load_explicit)(&recorder->freed[processor], LWKT_RECORD_IN(memory_order_acquire));
}

// Where the oldest event is that is in a buffer.
static inline size_t lwkt_record_oldest(const lwkt_record *recorder, const lwkt_record_seat *seat)
{
    size_t here = lwkt_record_used(seat) - seat->gone;
    return seat->place >= here ? seat->place - here : seat->place + recorder->room - here;
}

// What is left of forgotten events: for each token and cell the last write, and the last before the last take; for each message
// what the processor last did with it, with the round.
static inline lwkt_record_event *lwkt_record_past_cells(const lwkt_record_seat *seat, unsigned token)
{
    return seat->pasts + (size_t)2 * LWKT_RECORD_CELLS * token;
}

static inline lwkt_record_event *lwkt_record_past_message(const lwkt_record *recorder, const lwkt_record_seat *seat,
                                                          unsigned message)
{
    return lwkt_record_past_cells(seat, recorder->tokens) + message;
}

#define LWKT_RECORD_IS_EXCLUSIVE 0x80u
#define LWKT_RECORD_COUNT 0x7fu

static inline void lwkt_record_past_take(lwkt_record *recorder, lwkt_record_seat *seat, unsigned token)
{
    lwkt_record_event *cells = lwkt_record_past_cells(seat, token);
    unsigned cell;
    seat->past[token] = (uint8_t)((seat->past[token] + 1) | LWKT_RECORD_IS_EXCLUSIVE);
    for (cell = 0; cell < recorder->token[token].count; cell++)
        cells[LWKT_RECORD_CELLS + cell] = cells[cell];
}

static inline void lwkt_record_past_give(lwkt_record_seat *seat, unsigned token)
{
    unsigned past = seat->past[token];
    seat->past[token] = (uint8_t)((past & LWKT_RECORD_COUNT) > 1 ? past - 1 : 0);
}

// Forgets the oldest event of a buffer that is this call's own, but for what it leads to.
static LWKT_RECORD_APART void lwkt_record_forget(lwkt_record *recorder, lwkt_record_seat *seat)
{
    const lwkt_record_event *event = &seat->events[lwkt_record_oldest(recorder, seat)];
    unsigned place = event->place;
    lwkt_record_event *message;
    switch (event->kind) {
    case LWKT_RECORD_KIND_TAKE:
        lwkt_record_past_take(recorder, seat, place);
        break;
    case LWKT_RECORD_KIND_SHARE:
    case LWKT_RECORD_KIND_AGAIN:
        seat->past[place] = (uint8_t)(seat->past[place] + 1);
        break;
    case LWKT_RECORD_KIND_GIVE:
    case LWKT_RECORD_KIND_GIVE_ONE:
    case LWKT_RECORD_KIND_GIVE_CLEAN:
    case LWKT_RECORD_KIND_GIVE_WRITTEN:
        lwkt_record_past_give(seat, place);
        break;
    case LWKT_RECORD_KIND_WRITE:
        lwkt_record_past_cells(seat, place)[event->part] = *event;
        break;
    case LWKT_RECORD_KIND_SEND:
    case LWKT_RECORD_KIND_TAKE_MESSAGE:
        *lwkt_record_past_message(recorder, seat, place) = *event;
        break;
    case LWKT_RECORD_KIND_REPLY:
    case LWKT_RECORD_KIND_DROP:
    case LWKT_RECORD_KIND_REAP:
        message = lwkt_record_past_message(recorder, seat, place);
        message->kind = event->kind;
        message->stamp = event->stamp;
        break;
    default:
        break;
    }
    seat->forgotten = event->stamp + 1;
    seat->gone += 1;
}

// Whether a buffer that is this call's own, and looked full, has room since, or can forget an event.
static LWKT_RECORD_APART bool lwkt_record_finds_room(lwkt_record *recorder, lwkt_record_seat *seat, size_t used)
{
    if (recorder->keeps_last) {
        if (LWKT_RECORD_IN(atomic_load_explicit)(&recorder->lost, LWKT_RECORD_IN(memory_order_relaxed)) != 0)
            return false;
        lwkt_record_forget(recorder, seat);
        return true;
    }
    seat->gone = lwkt_record_freed(recorder, (size_t)(seat - recorder->seats));
    return used - seat->gone < recorder->room;
}

static inline size_t lwkt_record_behind(const lwkt_record *recorder, size_t place)
{
    return place + 1 == recorder->room ? 0 : place + 1;
}

// Where the place for a text is in the table, from 1; 0 where it isn't there, and there is no room near where it would be.
static LWKT_RECORD_APART uint16_t lwkt_record_line_of(lwkt_record *recorder, const char *text)
{
    unsigned place = (unsigned)(((uint64_t)(uintptr_t)text * UINT64_C(0x9e3779b97f4a7c15)) >> 55), each;
    for (each = 0; each < 32; each++, place = (place + 1) % LWKT_RECORD_LINES) {
        const char *found =
            LWKT_RECORD_IN(atomic_load_explicit)(&recorder->lines[place], LWKT_RECORD_IN(memory_order_relaxed));
        if (found == NULL && LWKT_RECORD_IN(atomic_compare_exchange_strong_explicit)(&recorder->lines[place], &found, text,
                                                                                      LWKT_RECORD_IN(memory_order_relaxed),
                                                                                      LWKT_RECORD_IN(memory_order_relaxed)))
            return (uint16_t)(place + 1);
        if (found == text)
            return (uint16_t)(place + 1);
    }
    return 0;
}

static inline void lwkt_record_at(lwkt_record *recorder, unsigned processor, const char *text)
{
    if (!lwkt_record_is_open(recorder) || processor >= recorder->processors || text == NULL)
        return;
    LWKT_RECORD_IN(atomic_store_explicit)(&recorder->seats[processor].where, lwkt_record_line_of(recorder, text),
                                          LWKT_RECORD_IN(memory_order_relaxed));
}

// What the next event has as its own, which is then none's.
static inline uint16_t lwkt_record_take_where(lwkt_record_seat *seat)
{
    uint16_t where = LWKT_RECORD_IN(atomic_load_explicit)(&seat->where, LWKT_RECORD_IN(memory_order_relaxed));
    if (where != 0)
        LWKT_RECORD_IN(atomic_store_explicit)(&seat->where, 0, LWKT_RECORD_IN(memory_order_relaxed));
    return where;
}

// Stamps an event and appends it to a buffer that is this call's own.
static inline int lwkt_record_append(lwkt_record *recorder, lwkt_record_seat *seat, lwkt_record_event event)
{
    size_t used = lwkt_record_used(seat);
    event.where = lwkt_record_take_where(seat);
    if (used - seat->gone >= recorder->room && !lwkt_record_finds_room(recorder, seat, used))
        return lwkt_record_lose(recorder, LWKT_RECORD_FULL);
    event.stamp = lwkt_record_stamp(recorder);
    seat->events[seat->place] = event;
    seat->place = lwkt_record_behind(recorder, seat->place);
    LWKT_RECORD_IN(atomic_store_explicit)(&seat->used, used + 1, LWKT_RECORD_IN(memory_order_release));
    return LWKT_RECORD_OK;
}

static inline lwkt_record_event lwkt_record_made(int kind, unsigned place, unsigned part, uint64_t value)
{
    lwkt_record_event event = {0, value, (uint8_t)kind, (uint8_t)place, (uint8_t)part, 0};
    return event;
}

// Records an event of a processor.
static inline int lwkt_record_note(lwkt_record *recorder, unsigned processor, lwkt_record_event event)
{
    int error = lwkt_record_claim(recorder, processor);
    lwkt_record_seat *seat;
    if (error != LWKT_RECORD_OK)
        return error;
    seat = &recorder->seats[processor];
    return lwkt_record_unclaim(seat, lwkt_record_append(recorder, seat, event));
}

// Records that a processor has a reference more.
static inline int lwkt_record_note_more(lwkt_record *recorder, unsigned processor, int kind, unsigned token)
{
    lwkt_record_seat *seat;
    int error;
    if (!lwkt_record_is_open(recorder))
        return LWKT_RECORD_CLOSED;
    if (token >= recorder->tokens)
        return LWKT_RECORD_NO_TOKEN;
    error = lwkt_record_claim(recorder, processor);
    if (error != LWKT_RECORD_OK)
        return error;
    seat = &recorder->seats[processor];
    if (seat->references >= LWKT_RECORD_REFERENCES)
        return lwkt_record_unclaim(seat, lwkt_record_lose(recorder, LWKT_RECORD_TOO_MANY));
    error = lwkt_record_append(recorder, seat, lwkt_record_made(kind, token, 0, 0));
    if (error == LWKT_RECORD_OK) {
        seat->references += 1;
        seat->held[token] = (uint8_t)(seat->held[token] + 1);
    }
    return lwkt_record_unclaim(seat, error);
}

// Records that a processor has a reference less, if it has one.
static inline int lwkt_record_note_less(lwkt_record *recorder, unsigned processor, int kind, unsigned token)
{
    lwkt_record_seat *seat;
    int error;
    if (!lwkt_record_is_open(recorder))
        return LWKT_RECORD_CLOSED;
    if (token >= recorder->tokens)
        return LWKT_RECORD_NO_TOKEN;
    error = lwkt_record_claim(recorder, processor);
    if (error != LWKT_RECORD_OK)
        return error;
    seat = &recorder->seats[processor];
    error = lwkt_record_append(recorder, seat, lwkt_record_made(kind, token, 0, 0));
    if (error == LWKT_RECORD_OK && seat->held[token] > 0) {
        seat->references -= 1;
        seat->held[token] = (uint8_t)(seat->held[token] - 1);
    }
    return lwkt_record_unclaim(seat, error);
}

// Records an event of a processor at a token that changes no reference.
static inline int lwkt_record_note_token(lwkt_record *recorder, unsigned processor, int kind, unsigned token)
{
    if (!lwkt_record_is_open(recorder))
        return LWKT_RECORD_CLOSED;
    if (token >= recorder->tokens)
        return LWKT_RECORD_NO_TOKEN;
    return lwkt_record_note(recorder, processor, lwkt_record_made(kind, token, 0, 0));
}

static inline int lwkt_record_note_cell(lwkt_record *recorder, unsigned processor, int kind, unsigned token, unsigned cell,
                                        uint64_t value)
{
    if (!lwkt_record_is_open(recorder))
        return LWKT_RECORD_CLOSED;
    if (token >= recorder->tokens)
        return LWKT_RECORD_NO_TOKEN;
    if (cell >= recorder->token[token].count)
        return LWKT_RECORD_NO_CELL;
    return lwkt_record_note(recorder, processor, lwkt_record_made(kind, token, cell, value));
}

static inline int lwkt_record_note_message(lwkt_record *recorder, unsigned processor, int kind, unsigned message)
{
    if (!lwkt_record_is_open(recorder))
        return LWKT_RECORD_CLOSED;
    if (message >= recorder->messages)
        return LWKT_RECORD_NO_MESSAGE;
    return lwkt_record_note(recorder, processor, lwkt_record_made(kind, message, 0, 0));
}

static inline uint64_t lwkt_record_last_round(const lwkt_record *recorder, unsigned message)
{
    return LWKT_RECORD_IN(atomic_load_explicit)(&recorder->message[message].last_round, LWKT_RECORD_IN(memory_order_relaxed));
}

static inline void lwkt_record_set_last_round(lwkt_record *recorder, unsigned message, uint64_t round)
{
    LWKT_RECORD_IN(atomic_store_explicit)(&recorder->message[message].last_round, round, LWKT_RECORD_IN(memory_order_relaxed));
}

// ---------------------------------------------------------------------------------------------------------------------------
// The calls on events

static inline int lwkt_record_take(lwkt_record *recorder, unsigned processor, unsigned token)
{
    return lwkt_record_note_more(recorder, processor, LWKT_RECORD_KIND_TAKE, token);
}

static inline int lwkt_record_share(lwkt_record *recorder, unsigned processor, unsigned token)
{
    return lwkt_record_note_more(recorder, processor, LWKT_RECORD_KIND_SHARE, token);
}

static inline int lwkt_record_again(lwkt_record *recorder, unsigned processor, unsigned token)
{
    return lwkt_record_note_more(recorder, processor, LWKT_RECORD_KIND_AGAIN, token);
}

static inline int lwkt_record_mark(lwkt_record *recorder, unsigned processor, unsigned token)
{
    return lwkt_record_note_token(recorder, processor, LWKT_RECORD_KIND_MARK, token);
}

static inline int lwkt_record_give(lwkt_record *recorder, unsigned processor, unsigned token)
{
    return lwkt_record_note_less(recorder, processor, LWKT_RECORD_KIND_GIVE, token);
}

static inline int lwkt_record_give_as(lwkt_record *recorder, unsigned processor, unsigned token, enum lwkt_record_give how)
{
    if (!lwkt_record_is_open(recorder))
        return LWKT_RECORD_CLOSED;
    if (how != LWKT_RECORD_ONE && how != LWKT_RECORD_CLEAN && how != LWKT_RECORD_WRITTEN)
        return lwkt_record_lose(recorder, LWKT_RECORD_LIMIT);
    return lwkt_record_note_less(recorder, processor, (int)how, token);
}

static inline int lwkt_record_read(lwkt_record *recorder, unsigned processor, unsigned token, unsigned cell, uint64_t value)
{
    return lwkt_record_note_cell(recorder, processor, LWKT_RECORD_KIND_READ, token, cell, value);
}

static inline int lwkt_record_write(lwkt_record *recorder, unsigned processor, unsigned token, unsigned cell, uint64_t value)
{
    return lwkt_record_note_cell(recorder, processor, LWKT_RECORD_KIND_WRITE, token, cell, value);
}

static inline int lwkt_record_load(lwkt_record *recorder, unsigned processor, unsigned token)
{
    return lwkt_record_note_token(recorder, processor, LWKT_RECORD_KIND_LOAD, token);
}

static inline unsigned lwkt_record_held(const lwkt_record *recorder, unsigned processor, unsigned token)
{
    if (!lwkt_record_is_open(recorder) || processor >= recorder->processors || token >= recorder->tokens)
        return 0;
    return recorder->seats[processor].held[token];
}

static inline int lwkt_record_send(lwkt_record *recorder, unsigned processor, unsigned message, unsigned target,
                                   uint64_t round)
{
    if (!lwkt_record_is_open(recorder))
        return LWKT_RECORD_CLOSED;
    if (message >= recorder->messages)
        return LWKT_RECORD_NO_MESSAGE;
    if (target >= recorder->processors)
        return lwkt_record_lose(recorder, LWKT_RECORD_NO_PROCESSOR);
    if (round == 0)
        round = lwkt_record_last_round(recorder, message) + 1;
    lwkt_record_set_last_round(recorder, message, round);
    return lwkt_record_note(recorder, processor, lwkt_record_made(LWKT_RECORD_KIND_SEND, message, target, round));
}

static inline int lwkt_record_take_message(lwkt_record *recorder, unsigned processor, unsigned message, uint64_t round)
{
    if (!lwkt_record_is_open(recorder))
        return LWKT_RECORD_CLOSED;
    if (message >= recorder->messages)
        return LWKT_RECORD_NO_MESSAGE;
    if (round == 0)
        round = lwkt_record_last_round(recorder, message);
    return lwkt_record_note(recorder, processor, lwkt_record_made(LWKT_RECORD_KIND_TAKE_MESSAGE, message, 0, round));
}

static inline int lwkt_record_drop(lwkt_record *recorder, unsigned processor, unsigned message)
{
    return lwkt_record_note_message(recorder, processor, LWKT_RECORD_KIND_DROP, message);
}

static inline int lwkt_record_reply(lwkt_record *recorder, unsigned processor, unsigned message)
{
    return lwkt_record_note_message(recorder, processor, LWKT_RECORD_KIND_REPLY, message);
}

static inline int lwkt_record_reap(lwkt_record *recorder, unsigned processor, unsigned message)
{
    return lwkt_record_note_message(recorder, processor, LWKT_RECORD_KIND_REAP, message);
}

static inline int lwkt_record_abort(lwkt_record *recorder, unsigned processor, unsigned message)
{
    return lwkt_record_note_message(recorder, processor, LWKT_RECORD_KIND_ABORT, message);
}

// ---------------------------------------------------------------------------------------------------------------------------
// Lent numbers

static inline int lwkt_record_enter(lwkt_record *recorder, unsigned *number)
{
    unsigned lent, each;
    if (!lwkt_record_is_open(recorder))
        return LWKT_RECORD_CLOSED;
    if (number == NULL)
        return LWKT_RECORD_LIMIT;
    lent = LWKT_RECORD_IN(atomic_load_explicit)(&recorder->lent, LWKT_RECORD_IN(memory_order_relaxed));
    do {
        for (each = 0; each < recorder->processors && (lent >> each & 1) != 0;)
            each += 1;
        if (each == recorder->processors)
            return LWKT_RECORD_ALL_LENT;
    } while (!LWKT_RECORD_IN(atomic_compare_exchange_weak_explicit)(&recorder->lent, &lent, lent | 1U << each,
                                                                    LWKT_RECORD_IN(memory_order_acquire),
                                                                    LWKT_RECORD_IN(memory_order_relaxed)));
    *number = each;
    return LWKT_RECORD_OK;
}

// The number is free only when the seat is: whoever is lent it next doesn't find this call there.
static inline int lwkt_record_leave(lwkt_record *recorder, unsigned number)
{
    lwkt_record_seat *seat;
    bool holds;
    if (!lwkt_record_is_open(recorder))
        return LWKT_RECORD_CLOSED;
    if (number >= recorder->processors ||
        (LWKT_RECORD_IN(atomic_load_explicit)(&recorder->lent, LWKT_RECORD_IN(memory_order_relaxed)) >> number & 1) == 0)
        return LWKT_RECORD_NOT_LENT;
    seat = &recorder->seats[number];
    if (LWKT_RECORD_IN(atomic_exchange_explicit)(&seat->busy, true, LWKT_RECORD_IN(memory_order_acquire)))
        return LWKT_RECORD_BUSY;
    holds = seat->references > 0 && lwkt_record_lost(recorder) == LWKT_RECORD_OK;
    (void)lwkt_record_unclaim(seat, LWKT_RECORD_OK);
    if (holds)
        return LWKT_RECORD_HOLDS;
    if ((LWKT_RECORD_IN(atomic_fetch_and_explicit)(&recorder->lent, ~(1U << number), LWKT_RECORD_IN(memory_order_release)) >>
             number &
         1) == 0)
        return LWKT_RECORD_NOT_LENT;
    return LWKT_RECORD_OK;
}

// ---------------------------------------------------------------------------------------------------------------------------
// Opening and end

static inline void lwkt_record_clear_token(lwkt_record_token_spec *token)
{
    token->param = 0;
    token->generation = 0;
    token->count = 0;
    token->law = LWKT_RECORD_ANY;
    token->has_end_cells = false;
    token->has_end_generation = false;
}

static inline void lwkt_record_clear_seat(lwkt_record_seat *seat, lwkt_record_event *events)
{
    unsigned token;
    seat->events = events;
    seat->pasts = NULL;
    seat->forgotten = 0;
    seat->gone = 0;
    seat->place = 0;
    seat->references = 0;
    for (token = 0; token < LWKT_RECORD_TOKENS; token++) {
        seat->held[token] = 0;
        seat->past[token] = 0;
    }
    LWKT_RECORD_IN(atomic_store_explicit)(&seat->where, 0, LWKT_RECORD_IN(memory_order_relaxed));
    LWKT_RECORD_IN(atomic_store_explicit)(&seat->used, 0, LWKT_RECORD_IN(memory_order_relaxed));
    LWKT_RECORD_IN(atomic_store_explicit)(&seat->busy, false, LWKT_RECORD_IN(memory_order_relaxed));
}

static inline void lwkt_record_clear_messages(lwkt_record *recorder)
{
    unsigned message;
    for (message = 0; message < LWKT_RECORD_MESSAGES; message++) {
        recorder->message[message].processor = 0;
        recorder->message[message].thread = 0;
        recorder->message[message].round = 0;
        lwkt_record_set_last_round(recorder, message, 0);
    }
}

static inline bool lwkt_record_is_within(unsigned processors, unsigned tokens, unsigned messages, size_t room)
{
    return processors > 0 && processors <= LWKT_RECORD_PROCESSORS && tokens <= LWKT_RECORD_TOKENS &&
           messages <= LWKT_RECORD_MESSAGES && room <= SIZE_MAX / sizeof(lwkt_record_event) / processors;
}

// What a recorder that was opened here has as its mark; bytes that stand there by chance are another one.
static inline uint64_t lwkt_record_mark_of(const lwkt_record *recorder)
{
    return (uint64_t)(uintptr_t)recorder ^ UINT64_C(0x6c776b745f726563);
}

// Makes a recorder a closed one, whatever it was.
static inline void lwkt_record_close_first(lwkt_record *recorder)
{
    if (recorder->mark == lwkt_record_mark_of(recorder))
        lwkt_record_close(recorder);
    recorder->mark = 0;
    recorder->processors = 0;
}

static inline int lwkt_record_open_in(lwkt_record *recorder, unsigned processors, unsigned tokens, unsigned messages,
                                      lwkt_record_event *events, size_t room)
{
    unsigned each;
    if (recorder == NULL)
        return LWKT_RECORD_CLOSED;
    lwkt_record_close_first(recorder);
    if (!lwkt_record_is_within(processors, tokens, messages, room))
        return LWKT_RECORD_LIMIT;
    if (events == NULL && room > 0)
        return LWKT_RECORD_MEMORY;
    recorder->tokens = tokens;
    recorder->messages = messages;
    recorder->room = room;
    recorder->memory = NULL;
    recorder->first = 0;
    recorder->keeps_last = false;
    recorder->has_ended = false;
    recorder->in_lines = false;
    LWKT_RECORD_IN(atomic_store_explicit)(&recorder->next, 0, LWKT_RECORD_IN(memory_order_relaxed));
    LWKT_RECORD_IN(atomic_store_explicit)(&recorder->lost, 0, LWKT_RECORD_IN(memory_order_relaxed));
    LWKT_RECORD_IN(atomic_store_explicit)(&recorder->lent, 0, LWKT_RECORD_IN(memory_order_relaxed));
    for (each = 0; each < LWKT_RECORD_TOKENS; each++)
        lwkt_record_clear_token(&recorder->token[each]);
    lwkt_record_clear_messages(recorder);
    for (each = 0; each < processors; each++)
        lwkt_record_clear_seat(&recorder->seats[each], room > 0 ? events + each * room : NULL);
    for (each = 0; each < processors; each++)
        LWKT_RECORD_IN(atomic_store_explicit)(&recorder->freed[each], 0, LWKT_RECORD_IN(memory_order_relaxed));
    LWKT_RECORD_IN(atomic_store_explicit)(&recorder->writes, false, LWKT_RECORD_IN(memory_order_relaxed));
    for (each = 0; each < LWKT_RECORD_LINES; each++)
        LWKT_RECORD_IN(atomic_store_explicit)(&recorder->lines[each], NULL, LWKT_RECORD_IN(memory_order_relaxed));
    recorder->where.sink = NULL;
    recorder->stage = LWKT_RECORD_UNDRAINED;
    recorder->processors = processors;
    recorder->mark = lwkt_record_mark_of(recorder);
    return LWKT_RECORD_OK;
}

#ifndef LWKT_RECORD_FREESTANDING
static inline int lwkt_record_open(lwkt_record *recorder, unsigned processors, unsigned tokens, unsigned messages,
                                   size_t room)
{
    lwkt_record_event *events;
    int error;
    if (recorder == NULL)
        return LWKT_RECORD_CLOSED;
    lwkt_record_close_first(recorder);
    if (!lwkt_record_is_within(processors, tokens, messages, room))
        return LWKT_RECORD_LIMIT;
    events = (lwkt_record_event *)malloc(room == 0 ? 1 : processors * room * sizeof(lwkt_record_event));
    if (events == NULL)
        return LWKT_RECORD_MEMORY;
    error = lwkt_record_open_in(recorder, processors, tokens, messages, events, room);
    recorder->memory = events;
    return error;
}
#endif

static inline void lwkt_record_close(lwkt_record *recorder)
{
    if (!lwkt_record_is_open(recorder))
        return;
#ifndef LWKT_RECORD_FREESTANDING
    free(recorder->memory);
#endif
    recorder->mark = 0;
    recorder->processors = 0;
}

static inline bool lwkt_record_has_begun(const lwkt_record *recorder)
{
    return recorder->stage != LWKT_RECORD_UNDRAINED ||
           LWKT_RECORD_IN(atomic_load_explicit)(&recorder->next, LWKT_RECORD_IN(memory_order_relaxed)) != 0;
}

static inline int lwkt_record_keep_last(lwkt_record *recorder)
{
    size_t pasts, past;
    unsigned each;
    if (!lwkt_record_is_open(recorder))
        return LWKT_RECORD_CLOSED;
    if (lwkt_record_has_begun(recorder))
        return LWKT_RECORD_LATE;
    if (recorder->keeps_last)
        return LWKT_RECORD_OK;
    pasts = (size_t)2 * LWKT_RECORD_CELLS * recorder->tokens + recorder->messages;
    if (recorder->room <= pasts)
        return LWKT_RECORD_LIMIT;
    for (each = 0; each < recorder->processors; each++) {
        lwkt_record_seat *seat = &recorder->seats[each];
        seat->pasts = seat->events;
        seat->events += pasts;
        for (past = 0; past < pasts; past++)
            seat->pasts[past] = lwkt_record_made(LWKT_RECORD_KIND_LOAD, 0, 0, 0);
    }
    recorder->room -= pasts;
    recorder->keeps_last = true;
    return LWKT_RECORD_OK;
}

static inline int lwkt_record_token(lwkt_record *recorder, unsigned token, enum lwkt_record_law law, uint64_t param,
                                    uint64_t generation, const uint64_t *cells, unsigned count)
{
    lwkt_record_token_spec *spec;
    unsigned cell;
    if (!lwkt_record_is_open(recorder))
        return LWKT_RECORD_CLOSED;
    if (lwkt_record_has_begun(recorder))
        return LWKT_RECORD_LATE;
    if (token >= recorder->tokens)
        return LWKT_RECORD_NO_TOKEN;
    if (count > LWKT_RECORD_CELLS || (count > 0 && cells == NULL) || generation > LWKT_RECORD_LAST_GENERATION ||
        (unsigned)law > LWKT_RECORD_TALLY || (law == LWKT_RECORD_TALLY && count != 1))
        return LWKT_RECORD_LIMIT;
    spec = &recorder->token[token];
    spec->law = (unsigned)law;
    spec->param = param;
    spec->generation = generation;
    spec->count = count;
    for (cell = 0; cell < count; cell++)
        spec->cells[cell] = cells[cell];
    return LWKT_RECORD_OK;
}

static inline int lwkt_record_message(lwkt_record *recorder, unsigned message, unsigned processor, unsigned thread,
                                      uint64_t round)
{
    if (!lwkt_record_is_open(recorder))
        return LWKT_RECORD_CLOSED;
    if (lwkt_record_has_begun(recorder))
        return LWKT_RECORD_LATE;
    if (message >= recorder->messages)
        return LWKT_RECORD_NO_MESSAGE;
    if (processor >= recorder->processors || thread > 15 || round > LWKT_RECORD_LAST_ROUND)
        return LWKT_RECORD_LIMIT;
    recorder->message[message].processor = processor;
    recorder->message[message].thread = thread;
    recorder->message[message].round = round;
    lwkt_record_set_last_round(recorder, message, round);
    return LWKT_RECORD_OK;
}

static inline int lwkt_record_end(lwkt_record *recorder)
{
    if (!lwkt_record_is_open(recorder))
        return LWKT_RECORD_CLOSED;
    if (recorder->stage >= LWKT_RECORD_IN_CLOSING)
        return LWKT_RECORD_LATE;
    recorder->has_ended = true;
    return LWKT_RECORD_OK;
}

static inline int lwkt_record_end_cells(lwkt_record *recorder, unsigned token, const uint64_t *cells, unsigned count)
{
    lwkt_record_token_spec *spec;
    unsigned cell;
    if (!lwkt_record_is_open(recorder))
        return LWKT_RECORD_CLOSED;
    if (token >= recorder->tokens)
        return LWKT_RECORD_NO_TOKEN;
    spec = &recorder->token[token];
    if (count != spec->count || (count > 0 && cells == NULL))
        return LWKT_RECORD_NO_CELL;
    if (recorder->stage >= LWKT_RECORD_IN_CLOSING)
        return LWKT_RECORD_LATE;
    for (cell = 0; cell < count; cell++)
        spec->end_cells[cell] = cells[cell];
    spec->has_end_cells = true;
    return lwkt_record_end(recorder);
}

static inline int lwkt_record_end_generation(lwkt_record *recorder, unsigned token, uint64_t generation)
{
    if (!lwkt_record_is_open(recorder))
        return LWKT_RECORD_CLOSED;
    if (token >= recorder->tokens)
        return LWKT_RECORD_NO_TOKEN;
    if (generation > LWKT_RECORD_LAST_GENERATION)
        return LWKT_RECORD_LIMIT;
    if (recorder->stage >= LWKT_RECORD_IN_CLOSING)
        return LWKT_RECORD_LATE;
    recorder->token[token].end_generation = generation;
    recorder->token[token].has_end_generation = true;
    return lwkt_record_end(recorder);
}

static inline int lwkt_record_where_to(lwkt_record *recorder, lwkt_record_sink sink, void *context)
{
    if (!lwkt_record_is_open(recorder))
        return LWKT_RECORD_CLOSED;
    if (recorder->stage != LWKT_RECORD_UNDRAINED)
        return LWKT_RECORD_LATE;
    recorder->where.sink = sink;
    recorder->where.context = context;
    return LWKT_RECORD_OK;
}

static inline int lwkt_record_end_references(lwkt_record *recorder, unsigned token, uint64_t references)
{
    uint64_t held = 0;
    unsigned each;
    int error;
    if (lwkt_record_is_open(recorder) && token >= recorder->tokens)
        return LWKT_RECORD_NO_TOKEN;
    error = lwkt_record_end(recorder);
    if (error != LWKT_RECORD_OK || lwkt_record_lost(recorder) != LWKT_RECORD_OK)
        return error;
    for (each = 0; each < recorder->processors; each++)
        held += recorder->seats[each].held[token];
    return held == references ? LWKT_RECORD_OK : LWKT_RECORD_OTHERWISE;
}

// ---------------------------------------------------------------------------------------------------------------------------
// What the events lead to

enum lwkt_record_state { LWKT_RECORD_AT_REST, LWKT_RECORD_OUT, LWKT_RECORD_WITH, LWKT_RECORD_BACK };

static inline void lwkt_record_copy_row(uint64_t *to, const uint64_t *from)
{
    unsigned cell;
    for (cell = 0; cell < LWKT_RECORD_CELLS; cell++)
        to[cell] = from[cell];
}

static inline void lwkt_record_begin_token(lwkt_record *recorder, unsigned token)
{
    lwkt_record_model *model = &recorder->model;
    unsigned processor;
    lwkt_record_copy_row(model->row[token], recorder->token[token].cells);
    lwkt_record_copy_row(model->first[token], recorder->token[token].cells);
    model->generation[token] = recorder->token[token].generation;
    for (processor = 0; processor < LWKT_RECORD_PROCESSORS; processor++) {
        model->tally[token][processor] = 0;
        model->references[processor][token] = 0;
        model->is_exclusive[processor][token] = false;
    }
}

static inline void lwkt_record_begin(lwkt_record *recorder)
{
    lwkt_record_model *model = &recorder->model;
    unsigned each;
    for (each = 0; each < recorder->tokens; each++)
        lwkt_record_begin_token(recorder, each);
    for (each = 0; each < recorder->messages; each++) {
        model->round[each] = recorder->message[each].round;
        model->state[each] = LWKT_RECORD_AT_REST;
        model->target[each] = 0;
    }
    for (each = 0; each < LWKT_RECORD_PROCESSORS; each++) {
        model->heads[each] = 0;
        model->places[each] = 0;
    }
}

static inline bool lwkt_record_is_written(const lwkt_record *recorder, unsigned token)
{
    unsigned cell;
    for (cell = 0; cell < recorder->token[token].count; cell++)
        if (recorder->model.row[token][cell] != recorder->model.first[token][cell])
            return true;
    return false;
}

// Which of the three a give is that wasn't told.
static inline int lwkt_record_found(const lwkt_record *recorder, unsigned processor, unsigned token)
{
    const lwkt_record_model *model = &recorder->model;
    if (!model->is_exclusive[processor][token] || model->references[processor][token] != 1)
        return LWKT_RECORD_KIND_GIVE_ONE;
    return lwkt_record_is_written(recorder, token) ? LWKT_RECORD_KIND_GIVE_WRITTEN : LWKT_RECORD_KIND_GIVE_CLEAN;
}

static inline void lwkt_record_follow_more(lwkt_record_model *model, unsigned processor, int kind, unsigned token)
{
    uint8_t *references = &model->references[processor][token];
    *references = (uint8_t)(*references + 1);
    if (kind == LWKT_RECORD_KIND_TAKE) {
        model->is_exclusive[processor][token] = true;
        lwkt_record_copy_row(model->first[token], model->row[token]);
    }
}

static inline void lwkt_record_follow_less(lwkt_record_model *model, unsigned processor, int kind, unsigned token)
{
    uint8_t *references = &model->references[processor][token];
    if (*references > 0)
        *references = (uint8_t)(*references - 1);
    if (*references == 0)
        model->is_exclusive[processor][token] = false;
    if (kind == LWKT_RECORD_KIND_GIVE_WRITTEN)
        model->generation[token] += 1;
}

static inline void lwkt_record_follow_write(lwkt_record_model *model, unsigned processor, const lwkt_record_event *event)
{
    uint64_t *cell = &model->row[event->place][event->part];
    model->tally[event->place][processor] += event->value - *cell;
    *cell = event->value;
}

static inline void lwkt_record_follow_message(lwkt_record_model *model, int kind, const lwkt_record_event *event)
{
    unsigned message = event->place;
    if (kind == LWKT_RECORD_KIND_SEND) {
        model->state[message] = LWKT_RECORD_OUT;
        model->target[message] = event->part;
        model->round[message] = event->value;
    } else if (kind == LWKT_RECORD_KIND_TAKE_MESSAGE) {
        model->state[message] = LWKT_RECORD_WITH;
    } else if (kind == LWKT_RECORD_KIND_REPLY) {
        model->state[message] = LWKT_RECORD_BACK;
    } else if (kind == LWKT_RECORD_KIND_DROP || kind == LWKT_RECORD_KIND_REAP) {
        model->state[message] = LWKT_RECORD_AT_REST;
    }
}

// What is so after an event, if it can happen; of others nothing matters, since the trace is judged no further than there.
static inline void lwkt_record_follow(lwkt_record_model *model, unsigned processor, int kind, const lwkt_record_event *event)
{
    switch (kind) {
    case LWKT_RECORD_KIND_TAKE:
    case LWKT_RECORD_KIND_SHARE:
    case LWKT_RECORD_KIND_AGAIN:
        lwkt_record_follow_more(model, processor, kind, event->place);
        break;
    case LWKT_RECORD_KIND_GIVE_ONE:
    case LWKT_RECORD_KIND_GIVE_CLEAN:
    case LWKT_RECORD_KIND_GIVE_WRITTEN:
        lwkt_record_follow_less(model, processor, kind, event->place);
        break;
    case LWKT_RECORD_KIND_WRITE:
        lwkt_record_follow_write(model, processor, event);
        break;
    case LWKT_RECORD_KIND_LOAD:
    case LWKT_RECORD_KIND_MARK:
    case LWKT_RECORD_KIND_READ:
        break;
    default:
        lwkt_record_follow_message(model, kind, event);
    }
}

// ---------------------------------------------------------------------------------------------------------------------------
// The text

// The sink that refused bytes isn't asked again: they stay, and nothing is put behind a page of them.
static inline void lwkt_record_flush(lwkt_record_page *page)
{
    if (page->has_failed || page->count == 0)
        return;
    page->has_failed = page->sink(page->context, page->bytes, page->count) != 0;
    if (!page->has_failed)
        page->count = 0;
}

static inline void lwkt_record_put_byte(lwkt_record_page *page, char byte)
{
    if (page->skip > 0) {
        page->skip -= 1;
        return;
    }
    if (page->count == sizeof page->bytes)
        lwkt_record_flush(page);
    if (page->count == sizeof page->bytes) {
        page->is_short = true;
        return;
    }
    page->bytes[page->count++] = byte;
    page->length += 1;
}

static LWKT_RECORD_APART void lwkt_record_put(lwkt_record_page *page, const char *text)
{
    for (; *text != '\0'; text++)
        lwkt_record_put_byte(page, *text);
}

// A page on which nothing stands.
static inline void lwkt_record_begin_page(lwkt_record_page *page, bool in_lines)
{
    page->skip = 0;
    page->length = 0;
    page->events = 0;
    page->count = 0;
    page->has_failed = false;
    page->is_short = false;
    page->is_full = false;
    page->has_event = false;
    page->in_lines = in_lines;
}

// What a text has between two parts that each stand on a line of their own, and lines haven't. A text is laid out byte for byte as
// `lwkt_show --trace` lays one out, so lwkt_check judges its events as it reads them, in little memory.
static inline void lwkt_record_put_break(lwkt_record_page *page, const char *text)
{
    if (!page->in_lines)
        lwkt_record_put(page, text);
}

static LWKT_RECORD_APART void lwkt_record_put_number(lwkt_record_page *page, const char *before, uint64_t number)
{
    char digits[21];
    size_t place = sizeof digits - 1;
    digits[place] = '\0';
    do {
        digits[--place] = (char)('0' + number % 10);
        number /= 10;
    } while (number > 0);
    lwkt_record_put(page, before);
    lwkt_record_put(page, &digits[place]);
}

static inline void lwkt_record_put_row(lwkt_record_page *page, const char *before, const uint64_t *numbers, unsigned count)
{
    unsigned each;
    lwkt_record_put(page, before);
    lwkt_record_put(page, "[");
    for (each = 0; each < count; each++)
        lwkt_record_put_number(page, each == 0 ? "" : ",", numbers[each]);
    lwkt_record_put(page, "]");
}

static inline const char *lwkt_record_law_word(unsigned law)
{
    static const char *const words[] = {"any", "sum", "order", "cap", "tally"};
    return words[law];
}

static inline const char *lwkt_record_word(int kind)
{
    static const char *const words[] = {"give_one", "give_clean", "give_written", "give", "load", "take",
                                        "share",    "again",      "mark",         "read", "write", "send",
                                        "take_msg", "drop",       "reply",        "reap", "abort"};
    return words[kind];
}

// Between two parts of a list.
static inline const char *lwkt_record_comma(unsigned each)
{
    return each == 0 ? "" : ",";
}

static inline void lwkt_record_put_tokens(const lwkt_record *recorder, lwkt_record_page *page)
{
    unsigned each;
    for (each = 0; each < recorder->tokens; each++) {
        const lwkt_record_token_spec *token = &recorder->token[each];
        lwkt_record_put(page, lwkt_record_comma(each));
        lwkt_record_put_break(page, "\n");
        lwkt_record_put_row(page, "{\"cells\":", token->cells, token->count);
        lwkt_record_put(page, ",\"law\":\"");
        lwkt_record_put(page, lwkt_record_law_word(token->law));
        lwkt_record_put_number(page, "\",\"param\":", token->param);
        lwkt_record_put_number(page, ",\"gen\":", token->generation);
        lwkt_record_put(page, "}");
    }
}

static inline void lwkt_record_put_messages(const lwkt_record *recorder, lwkt_record_page *page)
{
    unsigned each;
    for (each = 0; each < recorder->messages; each++) {
        const lwkt_record_message_spec *message = &recorder->message[each];
        lwkt_record_put(page, lwkt_record_comma(each));
        lwkt_record_put_break(page, "\n");
        lwkt_record_put_number(page, "{\"of\":[", message->processor);
        lwkt_record_put_number(page, ",", message->thread);
        lwkt_record_put_number(page, "],\"round\":", recorder->model.round[each]);
        lwkt_record_put(page, "}");
    }
}

static LWKT_RECORD_APART void lwkt_record_put_opening(const lwkt_record *recorder, lwkt_record_page *page)
{
    lwkt_record_put_number(page, "{\"version\":1,\"cpus\":", recorder->processors);
    lwkt_record_put(page, ",");
    lwkt_record_put_break(page, "\n");
    lwkt_record_put(page, "\"tokens\":[");
    lwkt_record_put_tokens(recorder, page);
    lwkt_record_put(page, "],");
    lwkt_record_put_break(page, "\n");
    lwkt_record_put(page, "\"messages\":[");
    lwkt_record_put_messages(recorder, page);
    lwkt_record_put(page, page->in_lines ? "]}" : "],\n\"events\":[");
}

static LWKT_RECORD_APART void lwkt_record_put_event(lwkt_record_page *page, unsigned processor, int kind,
                                                    const lwkt_record_event *event)
{
    bool has_part = kind == LWKT_RECORD_KIND_READ || kind == LWKT_RECORD_KIND_WRITE || kind == LWKT_RECORD_KIND_SEND;
    page->events += 1;
    lwkt_record_put_break(page, page->has_event ? "," : "");
    lwkt_record_put(page, "\n[\"");
    page->has_event = true;
    lwkt_record_put(page, lwkt_record_word(kind));
    lwkt_record_put_number(page, "\",", processor);
    lwkt_record_put_number(page, ",", event->place);
    if (has_part)
        lwkt_record_put_number(page, ",", event->part);
    if (has_part || kind == LWKT_RECORD_KIND_TAKE_MESSAGE)
        lwkt_record_put_number(page, ",", event->value);
    lwkt_record_put(page, "]");
}

// The processor whose next event has this stamp, or the number of processors.
static inline unsigned lwkt_record_whose(const lwkt_record *recorder, uint64_t stamp)
{
    unsigned processor;
    for (processor = 0; processor < recorder->processors; processor++) {
        const lwkt_record_seat *seat = &recorder->seats[processor];
        if (recorder->model.heads[processor] != lwkt_record_used(seat) &&
            seat->events[recorder->model.places[processor]].stamp == stamp)
            break;
    }
    return processor;
}

// Writes where the event was recorded that is put next, if that is asked for and known.
static inline void lwkt_record_put_where(lwkt_record *recorder, uint64_t number, uint16_t where)
{
    const char *text;
    size_t length = 0;
    if (recorder->where.sink == NULL || where == 0)
        return;
    text = LWKT_RECORD_IN(atomic_load_explicit)(&recorder->lines[where - 1], LWKT_RECORD_IN(memory_order_relaxed));
    while (text[length] != '\0')
        length += 1;
    lwkt_record_put_number(&recorder->where, "", number);
    lwkt_record_put(&recorder->where, " ");
    lwkt_record_put(&recorder->where, length > LWKT_RECORD_LINE ? text + (length - LWKT_RECORD_LINE) : text);
    lwkt_record_put(&recorder->where, "\n");
}

// Writes the event of this stamp, if it is there.
static inline bool lwkt_record_put_stamp(lwkt_record *recorder, lwkt_record_page *page, uint64_t stamp)
{
    unsigned processor = lwkt_record_whose(recorder, stamp);
    const lwkt_record_event *event;
    int kind;
    if (processor == recorder->processors)
        return false;
    event = &recorder->seats[processor].events[recorder->model.places[processor]];
    kind = event->kind;
    if (kind == LWKT_RECORD_KIND_GIVE)
        kind = lwkt_record_found(recorder, processor, event->place);
    lwkt_record_put_where(recorder, page->events, event->where);
    lwkt_record_put_event(page, processor, kind, event);
    lwkt_record_follow(&recorder->model, processor, kind, event);
    recorder->model.heads[processor] += 1;
    recorder->model.places[processor] = lwkt_record_behind(recorder, recorder->model.places[processor]);
    return true;
}

// Whether a trace has room for an event more and for the closing values, which have fewer than 32000 bytes. Lines always have.
static inline bool lwkt_record_has_room(const lwkt_record_page *page)
{
    return page->in_lines || page->length + 32000 + 64 <= LWKT_RECORD_BYTES_MOST;
}

// Writes the events by rising stamps, up to the first that isn't there, and while there is room. Whether these are all.
static inline bool lwkt_record_put_events(lwkt_record *recorder, lwkt_record_page *page)
{
    uint64_t count = LWKT_RECORD_IN(atomic_load_explicit)(&recorder->next, LWKT_RECORD_IN(memory_order_relaxed));
    uint64_t stamp;
    for (stamp = recorder->first; stamp < count; stamp++)
        if (page->is_short || !lwkt_record_has_room(page) || !lwkt_record_put_stamp(recorder, page, stamp))
            return false;
    return true;
}

static inline void lwkt_record_put_end_rows(const lwkt_record *recorder, lwkt_record_page *page)
{
    unsigned each;
    for (each = 0; each < recorder->tokens; each++) {
        const lwkt_record_token_spec *token = &recorder->token[each];
        lwkt_record_put_row(page, lwkt_record_comma(each), token->has_end_cells ? token->end_cells : recorder->model.row[each],
                            token->count);
    }
}

static inline void lwkt_record_put_end_generations(const lwkt_record *recorder, lwkt_record_page *page)
{
    unsigned each;
    for (each = 0; each < recorder->tokens; each++) {
        const lwkt_record_token_spec *token = &recorder->token[each];
        lwkt_record_put_number(page, lwkt_record_comma(each),
                               token->has_end_generation && recorder->first == 0 ? token->end_generation
                                                                                 : recorder->model.generation[each]);
    }
}

static inline void lwkt_record_put_end_tallies(const lwkt_record *recorder, lwkt_record_page *page)
{
    unsigned each;
    for (each = 0; each < recorder->tokens; each++)
        lwkt_record_put_row(page, lwkt_record_comma(each), recorder->model.tally[each],
                            recorder->token[each].law == LWKT_RECORD_TALLY ? recorder->processors : 0);
}

static inline void lwkt_record_put_end_messages(const lwkt_record *recorder, lwkt_record_page *page)
{
    static const char *const words[] = {"[\"rest\",", "[\"out\",", "[\"with\",", "[\"back\","};
    unsigned each;
    for (each = 0; each < recorder->messages; each++) {
        unsigned state = recorder->model.state[each];
        lwkt_record_put(page, lwkt_record_comma(each));
        lwkt_record_put_break(page, "\n");
        lwkt_record_put_number(page, words[state], recorder->message[each].processor);
        if (state != LWKT_RECORD_AT_REST)
            lwkt_record_put_number(page, ",", recorder->model.target[each]);
        lwkt_record_put_number(page, ",", recorder->model.round[each]);
        lwkt_record_put(page, "]");
    }
}

// Puts what ends a member, and begins the next one on a line of its own.
static inline void lwkt_record_put_member(lwkt_record_page *page, const char *end, const char *begin)
{
    lwkt_record_put(page, end);
    lwkt_record_put_break(page, "\n");
    lwkt_record_put(page, begin);
}

static LWKT_RECORD_APART void lwkt_record_put_end(const lwkt_record *recorder, lwkt_record_page *page, bool has_values)
{
    lwkt_record_put_break(page, "],\n\"last\":");
    if (!has_values) {
        lwkt_record_put_break(page, "null}");
        lwkt_record_put(page, "\n");
        return;
    }
    lwkt_record_put(page, page->in_lines ? "\n" : "");
    lwkt_record_put(page, "{\"rows\":[");
    lwkt_record_put_end_rows(recorder, page);
    lwkt_record_put_member(page, "],", "\"gens\":[");
    lwkt_record_put_end_generations(recorder, page);
    lwkt_record_put_member(page, "],", "\"tallies\":[");
    lwkt_record_put_end_tallies(recorder, page);
    lwkt_record_put_member(page, "],", "\"messages\":[");
    lwkt_record_put_end_messages(recorder, page);
    lwkt_record_put(page, page->in_lines ? "]}\n" : "]}}\n");
}

static inline int lwkt_record_in_lines(lwkt_record *recorder, bool in_lines)
{
    if (!lwkt_record_is_open(recorder))
        return LWKT_RECORD_CLOSED;
    recorder->in_lines = in_lines;
    return LWKT_RECORD_OK;
}

// Makes writing this call's own, to a sink.
static inline int lwkt_record_claim_writing(lwkt_record *recorder, lwkt_record_sink sink)
{
    if (!lwkt_record_is_open(recorder))
        return LWKT_RECORD_CLOSED;
    if (sink == NULL)
        return LWKT_RECORD_STREAM;
    if (LWKT_RECORD_IN(atomic_exchange_explicit)(&recorder->writes, true, LWKT_RECORD_IN(memory_order_acquire)))
        return LWKT_RECORD_BUSY;
    return LWKT_RECORD_OK;
}

static inline int lwkt_record_unclaim_writing(lwkt_record *recorder, int error)
{
    LWKT_RECORD_IN(atomic_store_explicit)(&recorder->writes, false, LWKT_RECORD_IN(memory_order_release));
    return error;
}

// ---------------------------------------------------------------------------------------------------------------------------
// The last events

// Makes all buffers this call's own, or none.
static inline bool lwkt_record_claim_all(lwkt_record *recorder)
{
    unsigned each;
    for (each = 0; each < recorder->processors; each++)
        if (LWKT_RECORD_IN(atomic_exchange_explicit)(&recorder->seats[each].busy, true, LWKT_RECORD_IN(memory_order_acquire)))
            break;
    if (each == recorder->processors)
        return true;
    while (each > 0)
        (void)lwkt_record_unclaim(&recorder->seats[--each], LWKT_RECORD_OK);
    return false;
}

static inline void lwkt_record_unclaim_all(lwkt_record *recorder)
{
    unsigned each;
    for (each = 0; each < recorder->processors; each++)
        (void)lwkt_record_unclaim(&recorder->seats[each], LWKT_RECORD_OK);
}

// Has each processor forget as much as the one that forgot most, so that what is left has no hole, and begins to write there.
// Whether no event before was lost.
static inline bool lwkt_record_begin_last(lwkt_record *recorder)
{
    size_t gone = 0;
    unsigned each;
    for (each = 0; each < recorder->processors; each++)
        if (recorder->seats[each].forgotten > recorder->first)
            recorder->first = recorder->seats[each].forgotten;
    for (each = 0; each < recorder->processors; each++) {
        lwkt_record_seat *seat = &recorder->seats[each];
        while (seat->gone != lwkt_record_used(seat) &&
               seat->events[lwkt_record_oldest(recorder, seat)].stamp < recorder->first)
            lwkt_record_forget(recorder, seat);
        recorder->model.heads[each] = seat->gone;
        recorder->model.places[each] = lwkt_record_oldest(recorder, seat);
        gone += seat->gone;
    }
    return gone == (size_t)recorder->first;
}

// Writes an event that is told again, while there is room.
static LWKT_RECORD_APART void lwkt_record_retell(lwkt_record *recorder, lwkt_record_page *page, unsigned processor,
                                                 lwkt_record_event event)
{
    if (page->is_full || !lwkt_record_has_room(page)) {
        page->is_full = true;
        return;
    }
    lwkt_record_put_event(page, processor, event.kind, &event);
    lwkt_record_follow(&recorder->model, processor, event.kind, &event);
}

// The last forgotten write of a cell, and whose it was; of the `holder` that before its section. NULL where there is none.
static LWKT_RECORD_APART const lwkt_record_event *lwkt_record_past_write(const lwkt_record *recorder, unsigned token,
                                                                         unsigned cell, unsigned holder, unsigned *writer)
{
    const lwkt_record_event *last = NULL;
    unsigned each;
    for (each = 0; each < recorder->processors; each++) {
        const lwkt_record_event *cells = lwkt_record_past_cells(&recorder->seats[each], token);
        const lwkt_record_event *past = &cells[each == holder ? LWKT_RECORD_CELLS + cell : cell];
        if (past->kind == LWKT_RECORD_KIND_WRITE && (last == NULL || past->stamp > last->stamp)) {
            last = past;
            *writer = each;
        }
    }
    return last;
}

// Which processor held a token exclusively, or their number.
static inline unsigned lwkt_record_past_holder(const lwkt_record *recorder, unsigned token)
{
    unsigned each;
    for (each = 0; each < recorder->processors; each++)
        if ((recorder->seats[each].past[token] & LWKT_RECORD_IS_EXCLUSIVE) != 0)
            break;
    return each;
}

// Writes the cells of a token that were other ones, as they were before the section of `holder`, by the processor `writer`. Without
// a page it only says who wrote last, or `writer`.
static LWKT_RECORD_APART unsigned lwkt_record_retell_cells(lwkt_record *recorder, lwkt_record_page *page, unsigned token,
                                                           unsigned holder, unsigned writer)
{
    const lwkt_record_event *last = NULL;
    unsigned cell, whose = writer, latest = writer;
    for (cell = 0; cell < recorder->token[token].count; cell++) {
        const lwkt_record_event *past = lwkt_record_past_write(recorder, token, cell, holder, &whose);
        if (past == NULL || past->value == recorder->model.row[token][cell])
            continue;
        if (page != NULL)
            lwkt_record_retell(recorder, page, writer, lwkt_record_made(LWKT_RECORD_KIND_WRITE, token, cell, past->value));
        if (last == NULL || past->stamp > last->stamp) {
            last = past;
            latest = whose;
        }
    }
    return latest;
}

// Writes a section that leaves a token's cells as they were, where they aren't those declared.
static inline void lwkt_record_retell_row(lwkt_record *recorder, lwkt_record_page *page, unsigned token)
{
    unsigned holder = lwkt_record_past_holder(recorder, token);
    unsigned writer = lwkt_record_retell_cells(recorder, NULL, token, holder, recorder->processors);
    if (writer == recorder->processors)
        return;
    lwkt_record_retell(recorder, page, writer, lwkt_record_made(LWKT_RECORD_KIND_TAKE, token, 0, 0));
    (void)lwkt_record_retell_cells(recorder, page, token, holder, writer);
    lwkt_record_retell(recorder, page, writer, lwkt_record_made(LWKT_RECORD_KIND_GIVE_WRITTEN, token, 0, 0));
}

// Writes what a processor held of a token, and what its section had written.
static inline void lwkt_record_retell_holding(lwkt_record *recorder, lwkt_record_page *page, unsigned processor, unsigned token)
{
    unsigned past = recorder->seats[processor].past[token], each;
    bool is_exclusive = (past & LWKT_RECORD_IS_EXCLUSIVE) != 0;
    if (past == 0)
        return;
    lwkt_record_retell(recorder, page, processor,
                       lwkt_record_made(is_exclusive ? LWKT_RECORD_KIND_TAKE : LWKT_RECORD_KIND_SHARE, token, 0, 0));
    for (each = 1; each < (past & LWKT_RECORD_COUNT); each++)
        lwkt_record_retell(recorder, page, processor, lwkt_record_made(LWKT_RECORD_KIND_AGAIN, token, 0, 0));
    if (is_exclusive)
        (void)lwkt_record_retell_cells(recorder, page, token, recorder->processors, processor);
}

// What was last done with a message, and by whom. NULL where nothing was.
static inline const lwkt_record_event *lwkt_record_past_deed(const lwkt_record *recorder, unsigned message, unsigned *whose)
{
    const lwkt_record_event *last = NULL;
    unsigned each;
    for (each = 0; each < recorder->processors; each++) {
        const lwkt_record_event *past = lwkt_record_past_message(recorder, &recorder->seats[each], message);
        if (past->kind != LWKT_RECORD_KIND_LOAD && (last == NULL || past->stamp > last->stamp)) {
            last = past;
            *whose = each;
        }
    }
    return last;
}

static inline bool lwkt_record_is_away(const lwkt_record_event *deed)
{
    return deed->kind != LWKT_RECORD_KIND_DROP && deed->kind != LWKT_RECORD_KIND_REAP;
}

// Sets the rounds that the messages begin with: those before the sends that are told again.
static inline void lwkt_record_begin_rounds(lwkt_record *recorder)
{
    unsigned message, whose;
    for (message = 0; message < recorder->messages; message++) {
        const lwkt_record_event *deed = lwkt_record_past_deed(recorder, message, &whose);
        uint64_t round = deed == NULL ? 0 : deed->value - (lwkt_record_is_away(deed) ? 1 : 0);
        if (deed != NULL && round <= LWKT_RECORD_LAST_ROUND)
            recorder->model.round[message] = round;
    }
}

// Writes how a message that is away came there.
static inline void lwkt_record_retell_message(lwkt_record *recorder, lwkt_record_page *page, unsigned message)
{
    unsigned whose = 0, origin = recorder->message[message].processor;
    const lwkt_record_event *deed = lwkt_record_past_deed(recorder, message, &whose);
    const lwkt_record_event *send = lwkt_record_past_message(recorder, &recorder->seats[origin], message);
    if (deed == NULL || !lwkt_record_is_away(deed))
        return;
    if (deed->kind == LWKT_RECORD_KIND_SEND) {
        lwkt_record_retell(recorder, page, whose, *deed);
        return;
    }
    lwkt_record_retell(recorder, page, origin,
                       send->kind == LWKT_RECORD_KIND_SEND
                           ? *send
                           : lwkt_record_made(LWKT_RECORD_KIND_SEND, message, whose, deed->value));
    lwkt_record_retell(recorder, page, whose, lwkt_record_made(LWKT_RECORD_KIND_TAKE_MESSAGE, message, 0, deed->value));
    if (deed->kind == LWKT_RECORD_KIND_REPLY)
        lwkt_record_retell(recorder, page, whose, lwkt_record_made(LWKT_RECORD_KIND_REPLY, message, 0, 0));
}

// Writes the events that lead from what was declared to what was so behind the last forgotten event. All sections come before
// all holdings, so that no processor has more references than it had.
static inline void lwkt_record_retell_all(lwkt_record *recorder, lwkt_record_page *page)
{
    unsigned each, processor;
    for (each = 0; each < recorder->tokens; each++)
        lwkt_record_retell_row(recorder, page, each);
    for (processor = 0; processor < recorder->processors; processor++)
        for (each = 0; each < recorder->tokens; each++)
            lwkt_record_retell_holding(recorder, page, processor, each);
    for (each = 0; each < recorder->messages; each++)
        lwkt_record_retell_message(recorder, page, each);
}

// Writes the opening, and what was so behind the last forgotten event. Whether all events behind it can follow.
static inline bool lwkt_record_open_last(lwkt_record *recorder, lwkt_record_page *page)
{
    bool is_known = lwkt_record_begin_last(recorder);
    if (is_known)
        lwkt_record_begin_rounds(recorder);
    lwkt_record_put_opening(recorder, page);
    if (is_known)
        lwkt_record_retell_all(recorder, page);
    return is_known && !page->is_full;
}

// ---------------------------------------------------------------------------------------------------------------------------
// Writing

// Writes all of a trace.
static inline int lwkt_record_write_whole(lwkt_record *recorder, lwkt_record_sink sink, void *context)
{
    lwkt_record_page page;
    bool is_whole;
    if (recorder->stage != LWKT_RECORD_UNDRAINED)
        return LWKT_RECORD_MODE;
    if (recorder->keeps_last && !lwkt_record_claim_all(recorder))
        return LWKT_RECORD_BUSY;
    page.sink = sink;
    page.context = context;
    lwkt_record_begin_page(&page, recorder->in_lines);
    lwkt_record_begin_page(&recorder->where, true);
    lwkt_record_begin(recorder);
    if (recorder->keeps_last) {
        is_whole = lwkt_record_open_last(recorder, &page) && lwkt_record_put_events(recorder, &page);
        lwkt_record_unclaim_all(recorder);
    } else {
        lwkt_record_put_opening(recorder, &page);
        is_whole = lwkt_record_put_events(recorder, &page);
    }
    lwkt_record_put_end(recorder, &page, recorder->has_ended && is_whole);
    lwkt_record_flush(&page);
    lwkt_record_flush(&recorder->where);
    if (page.has_failed || recorder->where.has_failed)
        return LWKT_RECORD_STREAM;
    return is_whole ? LWKT_RECORD_OK : LWKT_RECORD_CUT;
}

static inline int lwkt_record_to_sink(lwkt_record *recorder, lwkt_record_sink sink, void *context)
{
    int error = lwkt_record_claim_writing(recorder, sink);
    if (error != LWKT_RECORD_OK)
        return error;
    return lwkt_record_unclaim_writing(recorder, lwkt_record_write_whole(recorder, sink, context));
}

// Tells the processors which of their events aren't needed any more: their bytes are on the page.
static inline void lwkt_record_free(lwkt_record *recorder)
{
    unsigned each;
    for (each = 0; each < recorder->processors; each++)
        LWKT_RECORD_IN(atomic_store_explicit)(&recorder->freed[each], recorder->model.heads[each],
                                              LWKT_RECORD_IN(memory_order_release));
}

// Whether a page has room for the longest event, 38 bytes, so that no line is given to the sink in two parts.
static inline bool lwkt_record_has_line(const lwkt_record_page *page)
{
    return sizeof page->bytes - page->count >= 64;
}

// Whether the next event's line has room too, once what stands before it is given away.
static inline bool lwkt_record_has_where(lwkt_record_page *where)
{
    if (sizeof where->bytes - where->count < LWKT_RECORD_LINE + 24)
        lwkt_record_flush(where);
    return sizeof where->bytes - where->count >= LWKT_RECORD_LINE + 24;
}

// Writes the events that follow those drained before. Whether these are all.
static inline bool lwkt_record_drain_events(lwkt_record *recorder)
{
    lwkt_record_page *page = &recorder->drain;
    uint64_t count = LWKT_RECORD_IN(atomic_load_explicit)(&recorder->next, LWKT_RECORD_IN(memory_order_relaxed));
    while (recorder->drained < count) {
        if (!lwkt_record_has_line(page)) {
            lwkt_record_free(recorder);
            lwkt_record_flush(page);
        }
        if (!lwkt_record_has_line(page) || !lwkt_record_has_where(&recorder->where) ||
            !lwkt_record_put_stamp(recorder, page, recorder->drained))
            break;
        recorder->drained += 1;
    }
    lwkt_record_free(recorder);
    return recorder->drained >= count;
}

// Writes what is missing of the opening, or of the closing values, and begins the next stage after it. They may be longer than a
// page: what was put of them before is left out.
static inline void lwkt_record_drain_part(lwkt_record *recorder)
{
    lwkt_record_page *page = &recorder->drain;
    page->skip = recorder->drained_part;
    page->length = 0;
    page->is_short = false;
    if (recorder->stage == LWKT_RECORD_IN_OPENING)
        lwkt_record_put_opening(recorder, page);
    else
        lwkt_record_put_end(recorder, page, true);
    recorder->drained_part += page->length;
    if (page->is_short)
        return;
    recorder->drained_part = 0;
    recorder->stage += 1;
}

static inline int lwkt_record_drain_more(lwkt_record *recorder)
{
    bool is_whole = false;
    lwkt_record_flush(&recorder->drain);
    if (recorder->stage == LWKT_RECORD_IN_OPENING)
        lwkt_record_drain_part(recorder);
    if (recorder->stage == LWKT_RECORD_IN_EVENTS) {
        is_whole = lwkt_record_drain_events(recorder);
        if (is_whole && recorder->has_ended)
            recorder->stage = LWKT_RECORD_IN_CLOSING;
    }
    if (recorder->stage == LWKT_RECORD_IN_CLOSING)
        lwkt_record_drain_part(recorder);
    if (recorder->stage == LWKT_RECORD_WRITTEN_OUT)
        is_whole =
            LWKT_RECORD_IN(atomic_load_explicit)(&recorder->next, LWKT_RECORD_IN(memory_order_relaxed)) == recorder->drained;
    lwkt_record_flush(&recorder->drain);
    lwkt_record_flush(&recorder->where);
    if (recorder->drain.has_failed || recorder->where.has_failed)
        return LWKT_RECORD_STREAM;
    return is_whole ? LWKT_RECORD_OK : LWKT_RECORD_CUT;
}

static inline void lwkt_record_begin_drain(lwkt_record *recorder)
{
    lwkt_record_begin_page(&recorder->drain, true);
    lwkt_record_begin_page(&recorder->where, true);
    lwkt_record_begin(recorder);
    recorder->drained = 0;
    recorder->drained_part = 0;
    recorder->stage = LWKT_RECORD_IN_OPENING;
}

static inline int lwkt_record_drain(lwkt_record *recorder, lwkt_record_sink sink, void *context)
{
    int error = lwkt_record_claim_writing(recorder, sink);
    if (error != LWKT_RECORD_OK)
        return error;
    if (recorder->keeps_last)
        return lwkt_record_unclaim_writing(recorder, LWKT_RECORD_MODE);
    if (recorder->stage == LWKT_RECORD_UNDRAINED)
        lwkt_record_begin_drain(recorder);
    recorder->drain.sink = sink;
    recorder->drain.context = context;
    recorder->drain.has_failed = false;
    recorder->where.has_failed = false;
    return lwkt_record_unclaim_writing(recorder, lwkt_record_drain_more(recorder));
}

static inline size_t lwkt_record_room(const lwkt_record *recorder, unsigned processor)
{
    size_t used, taken;
    if (!lwkt_record_is_open(recorder) || processor >= recorder->processors)
        return 0;
    if (recorder->keeps_last || lwkt_record_lost(recorder) != LWKT_RECORD_OK)
        return recorder->room;
    used = lwkt_record_used(&recorder->seats[processor]);
    taken = used - lwkt_record_freed(recorder, processor);
    return taken < recorder->room ? recorder->room - taken : 0;
}

#ifndef LWKT_RECORD_FREESTANDING
static inline int lwkt_record_into_file(void *context, const char *bytes, size_t count)
{
    return fwrite(bytes, 1, count, (FILE *)context) == count ? 0 : 1;
}

// What was answered by a writing to a file, once it is flushed.
static inline int lwkt_record_flush_file(FILE *file, int error)
{
    if ((error == LWKT_RECORD_OK || error == LWKT_RECORD_CUT) && fflush(file) != 0)
        return LWKT_RECORD_STREAM;
    return error;
}

static inline int lwkt_record_where_to_file(lwkt_record *recorder, FILE *file)
{
    if (file == NULL)
        return LWKT_RECORD_STREAM;
    return lwkt_record_where_to(recorder, lwkt_record_into_file, file);
}

static inline int lwkt_record_to_file(lwkt_record *recorder, FILE *file)
{
    if (file == NULL)
        return LWKT_RECORD_STREAM;
    return lwkt_record_flush_file(file, lwkt_record_to_sink(recorder, lwkt_record_into_file, file));
}

static inline int lwkt_record_drain_to_file(lwkt_record *recorder, FILE *file)
{
    if (file == NULL)
        return LWKT_RECORD_STREAM;
    return lwkt_record_flush_file(file, lwkt_record_drain(recorder, lwkt_record_into_file, file));
}
#endif

// The bytes of a caller's, and how many the trace has so far.
typedef struct lwkt_record_bytes {
    char *bytes;
    size_t room;
    size_t length;
} lwkt_record_bytes;

static inline int lwkt_record_into_bytes(void *context, const char *bytes, size_t count)
{
    lwkt_record_bytes *into = (lwkt_record_bytes *)context;
    size_t each;
    for (each = 0; each < count && into->length + each < into->room; each++)
        into->bytes[into->length + each] = bytes[each];
    into->length += count;
    return 0;
}

static inline int lwkt_record_to_bytes(lwkt_record *recorder, char *bytes, size_t room, size_t *length)
{
    lwkt_record_bytes into = {bytes, bytes == NULL ? 0 : room, 0};
    int error = lwkt_record_to_sink(recorder, lwkt_record_into_bytes, &into);
    if (length != NULL)
        *length = into.length;
    return into.length > into.room ? LWKT_RECORD_NO_ROOM : error;
}

static inline int lwkt_record_lost(const lwkt_record *recorder)
{
    if (!lwkt_record_is_open(recorder))
        return LWKT_RECORD_CLOSED;
    return LWKT_RECORD_IN(atomic_load_explicit)(&recorder->lost, LWKT_RECORD_IN(memory_order_relaxed));
}

static inline const char *lwkt_record_words(int error)
{
    static const char *const words[] = {"no error",
                                        "the recorder isn't open",
                                        "a limit of traces is passed",
                                        "out of memory",
                                        "tokens and messages are declared before the first event",
                                        "no such processor",
                                        "no such token",
                                        "no such cell",
                                        "no such message",
                                        "the processor's buffer is full",
                                        "the processor has 32 references",
                                        "another call for the processor is under way",
                                        "the trace ends before the last event",
                                        "the trace could not be written",
                                        "the trace has more bytes than there is room for",
                                        "each processor's number is lent",
                                        "the processor holds a recorded token",
                                        "the number isn't lent",
                                        "the recorder's trace is written in another way",
                                        "the token has other references than its events leave"};
    return error >= LWKT_RECORD_OK && error <= LWKT_RECORD_OTHERWISE ? words[error] : "no such error";
}

#endif
