// lwkt: scripts run, traces judged, orders tried, and proved tokens for threads and kernels, from C or any language that calls C. Link
// liblwkt.a or liblwkt.so (docs/C.md).
//
//     lwkt_answer answer;
//     uint8_t text[65536];
//     uint32_t status = lwkt_run_turns(script, script_length, text, sizeof text, &answer);
//     if (answer.length <= sizeof text) fwrite(text, 1, answer.length, stdout);
//
// Text. A call makes a text, and puts it into the caller's buffer as far as it has room: `answer->length` is the length of the
// whole text, and the first of its bytes stand in the buffer, all of them where they have room. What lies behind them in the
// buffer stays as it was. The text isn't ended by a 0 byte. A call with too little room can be made again with more; the same
// bytes make the same text, unless memory is refused.
//
// Status. It is the exit status of the program that does the same: 0, 1, 2, 3, 4 or 5, as each function says.
//
// Refusals. Of what is refused the text says why, as the program `lwkt` says it of standard input: of each cause
// `lwkt: standard input:LINE:COLUMN: WORDS`, counted from 1, a column being a byte; below it, behind four blanks each, the line, a mark
// under the place, and where a known word is near `` did you mean `WORD`? ``; and last perhaps `try:` and what to try. A cause without a
// place is `lwkt: standard input: WORDS` or `lwkt: WORDS`. Of JSON the first bad part is the only cause, with its fault in brackets
// behind the words; of a text of the language there are up to 100, in the order of the places. Where memory was refused the text says
// that, or is empty.
//
// Scripts. A script is JSON (docs/FORMATS.md) or a text of the language for scripts (docs/LANGUAGE.md). `lwkt_show_turns` and
// `lwkt_explore_orders` take either form, of at most 1048576 bytes; `lwkt_run_turns` takes JSON, and `lwkt_run_text` a text;
// `lwkt_text_json` makes JSON of a text.
//
// What the caller owes. Nothing checks it, and a call that breaks it is undefined:
//
// - No pointer is null, not even one with a length of 0.
// - A pointer with a length is at so many bytes of one object. Those of a `const` pointer can be read, and nobody writes them
//   during the call; those of any other can be read and written, and nobody else reads or writes them during the call. So the
//   buffer, the answer and what is read don't overlap. No length is more than PTRDIFF_MAX.
// - malloc, realloc and free are one allocator's, which aligns a block as C asks.
// - A call isn't made from a signal handler, nor in the child of a fork of a process with threads, and has stack enough. All
//   examples of the tree run in 128 KiB; no bound is proved, so 256 KiB or more is good.
//
// Any number of threads may call at once: a call shares nothing with another one. No call waits, starts a thread, prints, reads a
// file or ends the process. What memory it takes it gives back before it returns. The calls on words take none, and call nothing:
// linked with --gc-sections they bring in no other part of the archive, as a kernel wants it.
#ifndef LWKT_H
#define LWKT_H

#include <stdbool.h>
#include <stddef.h>
#include <stdint.h>

// The version of the header and of the library that it came with. Its first number is that of liblwkt.so.
#define LWKT_VERSION "1.0.0"

// Stands behind a call whose status a program has to look at: where it doesn't, the compiler warns. Of the others, on a bank, a
// status other than 0 comes of a mistake alone.
#ifdef __GNUC__
#define LWKT_MUST_USE __attribute__((warn_unused_result))
#else
#define LWKT_MUST_USE
#endif

#ifdef __cplusplus
extern "C" {
#endif

// The version of the library that is there, as LWKT_VERSION is that of the header: a shared library may be a later one. The text is there
// for good, and ended by a 0 byte.
const char *lwkt_version(void);

// What came of a call, beside its status.
typedef struct lwkt_answer {
    // The length of the whole text in bytes.
    size_t length;
    // 0, or the fault for which the call was refused, as docs/tables/faults.md numbers them: 30 an order names a processor that isn't
    // there; 32 memory was refused; 33 what was given is no script, no text or no trace; 35 a run along an order wasn't lawful; 39 a
    // limit was passed; 40 an opening row breaks its law.
    uint32_t fault;
    // With 33 the place of the first bad part, as docs/FORMATS.md and docs/TRACES.md number the places; else 0.
    uint32_t place;
} lwkt_answer;

// Runs a script in rounds, on this thread, as `lwkt_run turns` does. The text is the report, as that program writes it.
//
// The status: 0 every thread ended; 2 the script's turns were used up; 4 the run was unlawful, which the report says too;
// 1 the script or its opening was refused, with the fault 33, 39 or 40; 3 memory was refused, with the fault 32. With 1 and 3 the
// text says why, in words, or is empty.
uint32_t lwkt_run_turns(const uint8_t *script, size_t script_length, uint8_t *text, size_t room, lwkt_answer *answer);

// Judges a trace, as `lwkt_check` does. The text is `lawful`, or `unlawful INDEX` and a line that says why, each ended by a line
// feed.
//
// The status: 0 lawful; 4 unlawful; 1 the trace or its opening was refused, with the fault 33, 39 or 40; 3 memory was refused,
// with the fault 32. With 1 and 3 the text says why, in words, or is empty.
uint32_t lwkt_check_trace(const uint8_t *trace, size_t trace_length, uint8_t *text, size_t room, lwkt_answer *answer);

// Runs a script in either form, in rounds or along an order, and shows the run, as `lwkt_show` with these arguments does. The arguments
// are words with one blank between each two, as `turns`, `turns --svg`, `turns --rounds 0..9 --svg` or `turns --order 0110 --svg`, in
// UTF-8; an order is one word here, without blanks; `threads --chains` isn't one of them. If `--names` stands behind `turns`, a text is
// shown in its names, as `lwkt show` shows it. The text is what that program writes.
//
// The status: as of `lwkt_run_turns`, 2 along an order where not every thread had ended; 1 with the fault 30 where the order names a
// processor that the script doesn't have; and 1, with no fault, for other arguments, and for a run that ended before the first turn
// that the arguments choose. With 1 and 3 the text says why, in words, or is empty; of a text with the fault 33 as of `lwkt_text_json`.
uint32_t lwkt_show_turns(const uint8_t *script, size_t script_length, const uint8_t *arguments, size_t arguments_length,
                         uint8_t *text, size_t room, lwkt_answer *answer);

// Whether a script is taken for a text of the language, as the programs do: it is no JSON, has at most 1048576 bytes, and one of its
// sentences declares a token, a message or a thread. It answers 1 for a text, 0 for all else, 3 where memory was refused.
uint32_t lwkt_is_text(const uint8_t *script, size_t script_length);

// The script of a text in JSON, as `lwkt_text FILE --json` writes it. Bytes that aren't taken for a text are read as one all the same.
//
// The status: 0 it is there; 1 something is wrong with the text, with the fault 33, or its JSON would have more than 1048576 bytes,
// with the fault 39; 3 memory was refused, with the fault 32. With the fault 33 the text that is made has all that is wrong. With 39 and
// 32 it says why, in words, or is empty.
uint32_t lwkt_text_json(const uint8_t *script, size_t script_length, uint8_t *text, size_t room, lwkt_answer *answer);

// Runs a text in rounds, on this thread, as `lwkt_run turns` does with a text. What is made is the report, and behind that a line for
// each expectation, in the order of the text: `LINE: holds`, `LINE: doesn't hold`, or `LINE: not decided` where the report doesn't tell,
// as of a log of more than 32 entries. Bytes that aren't taken for a text are read as one all the same, also where they are none or more
// than 1048576; without a sentence they make a machine without threads.
//
// The status: 0 all expectations hold, or there are none and every thread ended; 2 there are none, and the turns were used up; 5 an
// expectation doesn't hold, or isn't decided; 4 the run was unlawful; 1 the text was refused, with the fault 33 and words as of
// `lwkt_text_json`, or its opening was, with the fault 39 or 40; 3 memory was refused, with the fault 32. With 39, 40 and 32 what is
// made says why, in words, or is empty.
uint32_t lwkt_run_text(const uint8_t *script, size_t script_length, uint8_t *text, size_t room, lwkt_answer *answer);

// Tries every order of turns of a script in either form, as `lwkt_explore` does (docs/EXPLORE.md): at most so many states are kept, one
// at least, and no order has more turns than that. What is made has each outcome once, with a shortest order that leads to it, the
// states from which no end can be reached, and what was searched; and of a text behind that a line for each expectation, in the order of
// the text: `LINE: holds` or `LINE: doesn't hold`, of all outcomes, and where one outcome decides it that one's order; `LINE: not
// decided` where none does, and not every order was tried or an outcome doesn't tell. It takes memory and time as the states do, and
// can't be broken off.
//
// The status, of JSON and of a text without expectations: 0 every order was tried, and from every state an end can be reached; 2 every
// order was tried, and from some state no end can be reached; 5 not every order was tried, since a bound was met or memory was
// refused. Of a text with expectations: 0 every order was tried, and all hold; 5 not so. Of all: 4 a run along an order wasn't lawful,
// with the fault 35; 1 the script or its opening was refused, with the fault 33, 39 or 40; 3 memory was refused, with the fault 32.
// With 1, 3 and 4 what is made says why, in words, or is empty; of a text with the fault 33 as of `lwkt_text_json`.
uint32_t lwkt_explore_orders(const uint8_t *script, size_t script_length, size_t states, size_t turns, uint8_t *text, size_t room,
                             lwkt_answer *answer);

// The steps on a token's word, for those who keep the word themselves and have an atomic exchange of their own, as in a kernel. They
// are decisions only: each makes of the word that was read the word to store in its place, or says why the step can't be made. The
// caller exchanges the one for the other, and where another processor came between reads the word again and asks again:
//
//     uint64_t next, word = atomic_load(&token);
//     while (!(refused = lwkt_word_take(word, &next)) && !atomic_compare_exchange_weak(&token, &word, next)) {}
//
// A word has, from the lowest bit: the exclusive bit, the mark of an exclusive request, 16 bits of count, 46 bits of generation.
// Held shared, the count is the number of all references; held exclusively, that of the references beyond the first. Each word is
// one that these calls take. A token that nobody holds at generation g has the word g << 18.
//
// A call answers 0 and stores the next word; or it answers a fault, as docs/tables/faults.md numbers them, and stores nothing. Which
// references a processor has is not in the word: the caller knows it. In the model of docs/MODEL.md these steps are the events
// Take, Share, Again, Mark, GiveOne, GiveClean and GiveWritten, which docs/C.md says more of.
#define LWKT_WORD_EXCLUSIVE UINT64_C(1)
#define LWKT_WORD_MARK UINT64_C(2)
#define LWKT_WORD_COUNT(word) ((uint32_t)((word) >> 2 & 65535))
#define LWKT_WORD_GENERATION(word) ((uint64_t)(word) >> 18)

// Takes the token exclusively, for a processor that holds nothing of it; the mark is cleared. Refused with 20 at the last generation,
// 70368744177663; else with 23 where anyone holds the token.
uint32_t lwkt_word_take(uint64_t word, uint64_t *next);

// Takes the token shared, for a processor that holds nothing of it. `alone` says that the asking thread has no reference to another
// token: the mark then holds it off. Refused with 23 where the token is held exclusively or the mark holds the request off; else with
// 39 where the word counts 65535 references.
uint32_t lwkt_word_share(uint64_t word, bool alone, uint64_t *next);

// A further reference of a processor that holds the token, in the mode of its first. Refused with 13 where nobody holds the token; with
// 39 where the word counts 65535 references.
uint32_t lwkt_word_again(uint64_t word, uint64_t *next);

// The word with the mark of an exclusive request, which any processor may set. It is never refused.
uint64_t lwkt_word_mark(uint64_t word);

// A reference back that doesn't end an exclusive holding: a shared one, or one beyond the first of an exclusive holder. Refused with 13
// where the word counts none.
uint32_t lwkt_word_give_one(uint64_t word, uint64_t *next);

// The last reference of an exclusive holder back, who has written nothing that the token guards. Refused with 13 where nobody holds the
// token exclusively, and with 12 where its holder has references beyond the first.
uint32_t lwkt_word_give_clean(uint64_t word, uint64_t *next);

// The last reference of an exclusive holder back, who has written: the generation is one more. Refused with 20 at the last
// generation; else as `lwkt_word_give_clean`.
uint32_t lwkt_word_give_written(uint64_t word, uint64_t *next);

// A bank of tokens for the caller's own threads. A bank has up to 64 tokens and 1 to 8 seats: a thread asks for tokens, and reads
// and changes what they guard, by the number of its seat, 0 for the first. A seat is who holds a token: the seat that holds one
// exclusively is alone with its cells and its record, a text of at most 64 bytes that a token may guard; any number of seats may hold it
// shared and load its cells. Threads that share a seat hold its tokens together, and so don't exclude each other: give each its own.
// What a seat does is done on the proved token words of the layer, and its rules are kept by the calls: each misuse that this header
// names is answered by a number, and changes nothing.
//
//     lwkt_bank bank = {0};
//     lwkt_token account = {.cells = {100}, .cell_count = 1, .law = LWKT_LAW_ANY};
//     uint32_t status = lwkt_bank_open(&account, 1, 2, &bank);
//     // in the thread of seat 1:
//     while ((status = lwkt_take(bank, 1, 0)) == LWKT_BUSY || status == LWKT_RACE) sched_yield();
//     uint64_t value;
//     lwkt_load(bank, 1, 0, 0, &value);
//     lwkt_store(bank, 1, 0, 0, value + 1);
//     status = lwkt_give(bank, 1, 0);
//     // when all threads have ended:
//     lwkt_closing closing;
//     status = lwkt_bank_close(bank, &closing, 1);
//     lwkt_bank_free(&bank);
//
// Order. What a thread wrote, in memory of its own program too, before it gave a reference to a token back, a thread sees that takes the
// token later, as behind a mutex: the words of tokens are sequentially consistent, and a call orders what stands before and behind it for
// the compiler. So a token may guard any data of the program's own: its exclusive holder is alone with them, and shared holders may read
// them. Nothing is ordered by a call that is refused.
//
// Status. 0 where the call did what it says; else a number, as docs/tables/faults.md has the faults, but for 50 to 56:
//
//     10 the seat has 32 references              19 row or record break the law of the token
//     11 exclusive, where it is held shared      20 the token is at its last generation, 70368744177663
//     13 the seat doesn't hold the token         21 the sum passes 18446744073709551615
//     16 there is no such token                  22 the call and the law don't fit
//     17 the token has no such cell or no record 23 another seat holds the token, or its mark holds the request off
//     18 it is held shared                       30 there is no such seat
//     32 memory was refused                      34 another seat's step came between: ask again
//     37 a record, and it is held shared         38 a record of more than 64 bytes
//     39 a limit is passed                       50 another call has the seat, or is closing the bank
//     40 an opening row breaks its law           51 the seat holds a token
//     52 the bank is closed, or is none          53 the bank is still in use: a seat of it was given up as lost
//     54 the seat was given up as lost           55 the seat rests in its place: it isn't lost
//     56 the bank is open
//
// Of several that apply a function's list says which one comes: the one that stands first. Where a call is refused, nothing has
// changed that a later call could tell, but that the seat may have looked at the token's word, loaded its row or read its record. Three
// calls differ: `lwkt_block` gives all up where it answers 19, `lwkt_store_give` has stored the value there, and `lwkt_resume` has held the
// references in front of one that it missed for a while, so that the mark of a token among them that it held exclusively is cleared.
//
// Each call on a bank answers 52 where the bank is closed, in place of what its list says; but 30 stays 30. Each call on a seat that was
// given up as lost answers 54, in place of 50. A bank of zeros, as `(lwkt_bank){0}`, is no bank: each call on it answers 52.
//
// What the caller owes, beside what stands at the head of this file:
//
// - A bank is one that lwkt_bank_open stored, copied as it is, or zeros. Any other is undefined, and so is a copy of one that was freed.
// - A call comes back to its caller: it isn't left by `longjmp`, nor by the end of its thread, as an asynchronous cancel makes it. Where
//   that happened all the same, its seat is lost: what it held stays held, and calls on the seat answer 50. `lwkt_abandon` gives it up.
// - While a bank is freed no other call has it.
// - No more. Two calls at once on one seat are two calls: one of them may answer 50. A token that is held when its thread ends
//   stays held by its seat, from which any thread may go on.
//
// A bank takes about 30 KB for each seat and 800 bytes for each token, with all that its close needs. `lwkt_bank_close` gives that back
// but for less than 1,300 bytes, so that the handle can be used on: those go by `lwkt_bank_free`. What a lost call had, its seat and a share
// of the bank, stays.
#define LWKT_BUSY 23u
#define LWKT_RACE 34u
#define LWKT_SEAT_IN_USE 50u
#define LWKT_SEAT_HOLDS 51u
#define LWKT_BANK_CLOSED 52u
#define LWKT_BANK_IN_USE 53u
#define LWKT_SEAT_LOST 54u
#define LWKT_SEAT_AT_REST 55u
#define LWKT_BANK_OPEN 56u

#define LWKT_LAW_ANY 0u
#define LWKT_LAW_SUM 1u
#define LWKT_LAW_ORDER 2u
#define LWKT_LAW_CAP 3u
#define LWKT_LAW_TALLY 4u
// The first cell is the length of the record.
#define LWKT_LAW_LEN 5u

// The most bytes that a record has.
#define LWKT_RECORD_ROOM 64u

// A token as it is at the opening. Cells past their number count for nothing, and neither do bytes past theirs. With the members
// from `record` on 0 it guards no record.
typedef struct lwkt_token {
    uint64_t cells[4];
    // The law's parameter.
    uint64_t param;
    // The opening generation, 0 to 70368744177663.
    uint64_t generation;
    // How many cells there are: 0 to 4, exactly 1 under LWKT_LAW_TALLY, at least 1 under LWKT_LAW_LEN.
    uint32_t cell_count;
    uint32_t law;
    uint8_t record[LWKT_RECORD_ROOM];
    // How many bytes the record has, 0 to 64, whether or not it counts.
    uint32_t record_length;
    // How many records the token guards: 0 or 1, 0 under LWKT_LAW_TALLY, 1 under LWKT_LAW_LEN.
    uint32_t record_count;
} lwkt_token;

// One reference of a list: to which token, and in which mode.
typedef struct lwkt_reference {
    uint32_t token;
    // LWKT_SHARED or LWKT_EXCLUSIVE.
    uint32_t mode;
} lwkt_reference;

#define LWKT_SHARED 0u
#define LWKT_EXCLUSIVE 1u

// What a token came to at a close. What lies past a number is 0.
typedef struct lwkt_closing {
    uint64_t cells[4];
    // The generation: the opening one and one for each section that left another row or record.
    uint64_t generation;
    // Under LWKT_LAW_TALLY what each seat has added.
    uint64_t tallies[8];
    uint32_t cell_count;
    // How many seats the bank has, under LWKT_LAW_TALLY; else 0.
    uint32_t tally_count;
    uint8_t record[LWKT_RECORD_ROOM];
    uint32_t record_length;
    // 1 where the token guards a record, else 0.
    uint32_t record_count;
} lwkt_closing;

// A bank. Its member is the library's.
typedef struct lwkt_bank {
    void *place;
} lwkt_bank;

// Opens a bank of these tokens, numbered from 0, with so many seats, and stores it. With another status than 0 `bank` stays as it was.
// Refused with 39 where a limit is passed: 1 to 8 seats, at most 64 tokens, what stands at `lwkt_token`; with 40 where the opening
// row of a token, with the length of its record, breaks its law; with 32.
uint32_t lwkt_bank_open(const lwkt_token *tokens, size_t count, uint32_t seats, lwkt_bank *bank) LWKT_MUST_USE;

// Closes a bank, and stores what each of its tokens came to in the place of its number: `closings` has so many places, at least one for
// each token, and those behind the last token stay as they were. From then on each call on the bank answers 52. No seat may hold a
// token: `lwkt_block` gives up what one holds. It takes no memory.
//
// Refused with 52 where the bank is closed, with 50 while another close is at work; else, at the first seat for which it is so, with 50
// while another call has the seat, with 53 where it was given up as lost, and with 51 where it holds a token; else with 39 where the bank
// has more tokens than there are places. While the call is at work, others may answer 50. Of several closes at once one at most answers
// 0. With another status than 0 `closings` stays as it was, and the bank too.
uint32_t lwkt_bank_close(lwkt_bank bank, lwkt_closing *closings, size_t count) LWKT_MUST_USE;

// Frees what is left of a bank that is closed, or of which a seat was given up as lost, and makes `bank` a bank of zeros. Other copies of
// it are no banks any more. Refused with 52 for a bank of zeros; with 56 where the bank is open, and no seat of it was given up: it
// stays as it was.
uint32_t lwkt_bank_free(lwkt_bank *bank);

// Gives up a seat whose call never came back, as after a `longjmp` out of it. From then on calls on the seat answer 54 in place of 50,
// and a close of its bank answers 53. What the seat held stays held. The other seats go on, so what their tokens guard can still be
// read; then the bank can be freed. Refused with 30; with 52; with 55 where the seat rests in its place, so that it isn't lost; with
// 54 where it was given up before. Where a call has the seat that does come back, the seat isn't lost, and goes on behind that call.
uint32_t lwkt_abandon(lwkt_bank bank, uint32_t seat);

// Asks for an exclusive reference to a token, without waiting: a first one, or where the seat holds it exclusively a further one.
// Refused with 30, 50, 16, 10, 11; and where the seat doesn't hold it, with 20, 23 or 34.
uint32_t lwkt_take(lwkt_bank bank, uint32_t seat, uint32_t token) LWKT_MUST_USE;

// Asks for a shared reference, without waiting: a first one, or where the seat holds the token a further one, in the mode of its
// first. Refused with 30, 50, 16, 10; and where the seat doesn't hold it, with 23 or 34. A mark holds off a seat with no reference.
uint32_t lwkt_share(lwkt_bank bank, uint32_t seat, uint32_t token) LWKT_MUST_USE;

// One reference more to a token that the seat holds, in the mode of its first. Refused with 30, 50, 16, 13, 10.
uint32_t lwkt_again(lwkt_bank bank, uint32_t seat, uint32_t token) LWKT_MUST_USE;

// Marks a token for an exclusive request: from now on, and until it is next taken exclusively, seats with no reference get no
// shared one. Refused with 30, 50, 16.
uint32_t lwkt_mark(lwkt_bank bank, uint32_t seat, uint32_t token);

// Gives a reference back. Where it is the last one of an exclusive holder, and row or record differ from those at the beginning, the
// token's generation is one more. Refused with 30, 50, 16, 13; and with 19 where they break the law: the token stays held.
uint32_t lwkt_give(lwkt_bank bank, uint32_t seat, uint32_t token) LWKT_MUST_USE;

// The value of a cell of a token that the seat holds. With another status than 0 `value` stays as it was. Refused with 30, 50, 16,
// 17, 13.
uint32_t lwkt_load(lwkt_bank bank, uint32_t seat, uint32_t token, uint32_t cell, uint64_t *value);

// Stores a value in a cell of a token that the seat holds exclusively. Refused with 30, 50, 16, 17, 13, 18; with 22 under
// LWKT_LAW_TALLY.
uint32_t lwkt_store(lwkt_bank bank, uint32_t seat, uint32_t token, uint32_t cell, uint64_t value);

// Asks for an exclusive reference as `lwkt_take`, and loads a cell as `lwkt_load`, faster than both. The cell is looked up first. With
// another status than 0 `value` stays as it was. Refused with 30, 50, 16, 17, 10, 11; and where the seat doesn't hold the token, with
// 20, 23 or 34.
uint32_t lwkt_take_load(lwkt_bank bank, uint32_t seat, uint32_t token, uint32_t cell, uint64_t *value) LWKT_MUST_USE;

// Stores a value as `lwkt_store`, and where that answers 0 gives a reference back as `lwkt_give`, faster than both. Refused with 30, 50,
// 16, 17, 13, 18; with 22 under LWKT_LAW_TALLY; and with 19 as `lwkt_give`: the value is stored then, and the token stays held.
uint32_t lwkt_store_give(lwkt_bank bank, uint32_t seat, uint32_t token, uint32_t cell, uint64_t value) LWKT_MUST_USE;

// Adds to the cell of a token under LWKT_LAW_TALLY that the seat holds exclusively, and stores the new value in `value`, which with
// another status than 0 stays as it was. Refused with 30, 50, 16, 13, 18; with 22 under any other law; with 21.
uint32_t lwkt_add(lwkt_bank bank, uint32_t seat, uint32_t token, uint64_t amount, uint64_t *value) LWKT_MUST_USE;

// Whether row and record of a token that the seat holds exclusively obey its law: 0 or 19. Refused with 30, 50, 16, 13, 18.
uint32_t lwkt_lawful(lwkt_bank bank, uint32_t seat, uint32_t token) LWKT_MUST_USE;

// Stores row and record again that the token had when the seat took it exclusively; under LWKT_LAW_TALLY nothing. Refused with 30, 50,
// 16, 13, 18.
uint32_t lwkt_restore(lwkt_bank bank, uint32_t seat, uint32_t token);

// Reads the record of a token that the seat holds exclusively: what the last written section left, or what this one wrote. Its bytes
// stand in the buffer as far as that has room, and what lies behind them there stays as it was; `length` is how many bytes the record
// has, at most 64. With another status than 0 buffer and `length` stay as they were. Refused with 30, 50, 16; with 17 where the
// token guards no record; with 13; with 37 where the seat holds it shared.
uint32_t lwkt_read_record(lwkt_bank bank, uint32_t seat, uint32_t token, uint8_t *buffer, size_t room, size_t *length);

// Writes the record of a token that the seat holds exclusively: these bytes are its record from now on. Refused with 30, 50, 16, 17,
// 13, 37 as `lwkt_read_record`; with 38 for more than 64 bytes.
uint32_t lwkt_write_record(lwkt_bank bank, uint32_t seat, uint32_t token, const uint8_t *bytes, size_t length) LWKT_MUST_USE;

// Takes a list of references in order, all or none and without waiting, for a seat that holds nothing, as a thread does that wakes: with
// 0 it holds exactly these. At the first reference that is missed those in front of it are given back, and the seat holds nothing. Of a
// token that is on the list again the seat gets one reference more, in the mode of its first. A mark holds off a list that has
// references to its token alone.
//
// Refused with 30, 50, 51. Else what is no list is refused before any token is asked for, at the first place where it is so: with 16;
// with 39 for another mode; with 10 behind 32 references; with 11 for an exclusive reference to a token whose first one is shared. Else
// with 20, 23 or 34 at the reference that is missed. `missed` is the place then, 0 for the first; with 0, 30, 50, 51, 52 and 54 it stays
// as it was. `list` is at `count` references.
uint32_t lwkt_resume(lwkt_bank bank, uint32_t seat, const lwkt_reference *list, size_t count, size_t *missed) LWKT_MUST_USE;

// Gives up all that the seat holds, reference by reference, as a thread does that goes to sleep. A section that has broken its law
// gets its first row and record again before it ends: then the status is 19, and `restored` is the lowest such token. All is given up
// then too. With another status than 19 `restored` stays as it was. Refused with 30, 50.
uint32_t lwkt_block(lwkt_bank bank, uint32_t seat, uint32_t *restored);

#ifdef __cplusplus
}
#endif

// Under ThreadSanitizer the calls that take and give tell it what they order.
#if defined(__SANITIZE_THREAD__)
#include "lwkt_sanitized.h"
#elif defined(__has_feature)
#if __has_feature(thread_sanitizer)
#include "lwkt_sanitized.h"
#endif
#endif

#endif
