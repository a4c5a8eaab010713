// lwkt_word: the steps on a token's word as inline functions, for any processor. C11 or C++17, also freestanding; one file, nothing to
// link.
//
// tools/word_header makes this file of the proved sources, which it translates: crates/lwkt_core/src/word_steps.rt, with what that uses of
// lwkt_base. Neither the translation nor the compiler is proved. `examples/c/check` compares each function with that of liblwkt.a.
//
// Names. What lwkt.h calls `lwkt_word_take` is `lwkt_inline_word_take` here, and so on, so that a file can include both headers. In a file
// that doesn't include lwkt.h, LWKT_WORD_NAMES, defined before the include, lets its names stand for these.
//
// The steps on a token's word, for those who keep the word themselves and have an atomic exchange of their own, as in a kernel. They
// are decisions only: each makes of the word that was read the word to store in its place, or says why the step can't be made. The
// caller exchanges the one for the other, and where another processor came between reads the word again and asks again:
//
//     uint64_t next, word = atomic_load(&token);
//     while (!(refused = lwkt_inline_word_take(word, &next)) && !atomic_compare_exchange_weak(&token, &word, next)) {}
//
// A word has, from the lowest bit: the exclusive bit, the mark of an exclusive request, 16 bits of count, 46 bits of generation.
// Held shared, the count is the number of all references; held exclusively, that of the references beyond the first. Each word is
// one that these calls take. A token that nobody holds at generation g has the word g << 18.
//
// A call answers 0 and stores the next word; or it answers a fault, as docs/tables/faults.md numbers them, and stores nothing. Which
// references a processor has is not in the word: the caller knows it. In the model of docs/MODEL.md these steps are the events
// Take, Share, Again, Mark, GiveOne, GiveClean and GiveWritten, which docs/C.md says more of.

#ifndef LWKT_WORD_H
#define LWKT_WORD_H

#include <stdbool.h>
#include <stdint.h>

#define LWKT_WORD_EXCLUSIVE UINT64_C(1)
#define LWKT_WORD_MARK UINT64_C(2)
#define LWKT_WORD_COUNT(word) ((uint32_t)((word) >> 2 & 65535))
#define LWKT_WORD_GENERATION(word) ((uint64_t)(word) >> 18)

// Takes the token exclusively, for a processor that holds nothing of it; the mark is cleared. Refused with 20 at the last generation,
// 70368744177663; else with 23 where anyone holds the token.
static inline uint32_t lwkt_inline_word_take(uint64_t word, uint64_t *next);

// Takes the token shared, for a processor that holds nothing of it. `alone` says that the asking thread has no reference to another
// token: the mark then holds it off. Refused with 23 where the token is held exclusively or the mark holds the request off; else with
// 39 where the word counts 65535 references.
static inline uint32_t lwkt_inline_word_share(uint64_t word, bool alone, uint64_t *next);

// A further reference of a processor that holds the token, in the mode of its first. Refused with 13 where nobody holds the token; with
// 39 where the word counts 65535 references.
static inline uint32_t lwkt_inline_word_again(uint64_t word, uint64_t *next);

// The word with the mark of an exclusive request, which any processor may set. It is never refused.
static inline uint64_t lwkt_inline_word_mark(uint64_t word);

// A reference back that doesn't end an exclusive holding: a shared one, or one beyond the first of an exclusive holder. Refused with 13
// where the word counts none.
static inline uint32_t lwkt_inline_word_give_one(uint64_t word, uint64_t *next);

// The last reference of an exclusive holder back, who has written nothing that the token guards. Refused with 13 where nobody holds the
// token exclusively, and with 12 where its holder has references beyond the first.
static inline uint32_t lwkt_inline_word_give_clean(uint64_t word, uint64_t *next);

// The last reference of an exclusive holder back, who has written: the generation is one more. Refused with 20 at the last
// generation; else as `lwkt_inline_word_give_clean`.
static inline uint32_t lwkt_inline_word_give_written(uint64_t word, uint64_t *next);

// The faults that a step answers.
#define LWKT_INLINE_NOT_LAST 12
#define LWKT_INLINE_NOT_HELD 13
#define LWKT_INLINE_WORN 20
#define LWKT_INLINE_BUSY 23
#define LWKT_INLINE_LIMITS 39

// The parts of a token's count word (lwkt_token.c; the generation is own). From the lowest bit: the exclusive bit, the
// mark, 16 bits of count, 46 bits of generation.
typedef struct lwkt_inline_tok_word {
    // The written sections, from the opening generation on: 0 to `LAST_GENERATION`.
    uint64_t generation;
    // Held shared, the number of all references; held exclusively, the references beyond the first.
    uint16_t count;
    // Whether somebody holds the token exclusively.
    bool exclusive;
    // The exclusive-request bit.
    bool mark;
} lwkt_inline_tok_word;

// The parts of a word. Each word has parts, and they are the only ones that fit.
static inline lwkt_inline_tok_word lwkt_inline_tok_word_parts(uint64_t word) {
    lwkt_inline_tok_word result;
    result.generation = word / UINT64_C(262144);
    result.count = (uint16_t)(word / 4 % UINT64_C(65536));
    result.exclusive = word % 2 == 1;
    result.mark = word / 2 % 2 == 1;
    return result;
}

// The last generation of a token, 2 ^ 46 - 1.
#define LWKT_INLINE_LAST_GENERATION UINT64_C(70368744177663)

// The word of these parts; the generation is at most `LAST_GENERATION`.
static inline uint64_t lwkt_inline_tok_word_make(bool exclusive, bool mark, uint16_t count, uint64_t generation) {
    return (uint64_t)exclusive + 2 * (uint64_t)mark + 4 * (uint64_t)count + UINT64_C(262144) * generation;
}

static inline uint32_t lwkt_inline_word_take(uint64_t word, uint64_t *result) {
    const lwkt_inline_tok_word w = lwkt_inline_tok_word_parts(word);
    if (w.generation == LWKT_INLINE_LAST_GENERATION) {
        return LWKT_INLINE_WORN;
    }
    if (w.exclusive || w.count > 0) {
        return LWKT_INLINE_BUSY;
    }
    *result = lwkt_inline_tok_word_make(true, false, w.count, w.generation);
    return 0;
}

// The most references that a word can count.
#define LWKT_INLINE_COUNT_LIMIT 65535

static inline uint32_t lwkt_inline_word_share(uint64_t word, bool alone, uint64_t *result) {
    const lwkt_inline_tok_word w = lwkt_inline_tok_word_parts(word);
    if (w.exclusive || (w.mark && alone)) {
        return LWKT_INLINE_BUSY;
    }
    if (w.count == LWKT_INLINE_COUNT_LIMIT) {
        return LWKT_INLINE_LIMITS;
    }
    *result = lwkt_inline_tok_word_make(w.exclusive, w.mark, (uint16_t)(w.count + 1), w.generation);
    return 0;
}

static inline uint32_t lwkt_inline_word_again(uint64_t word, uint64_t *result) {
    const lwkt_inline_tok_word w = lwkt_inline_tok_word_parts(word);
    if (!w.exclusive && w.count == 0) {
        return LWKT_INLINE_NOT_HELD;
    }
    if (w.count == LWKT_INLINE_COUNT_LIMIT) {
        return LWKT_INLINE_LIMITS;
    }
    *result = lwkt_inline_tok_word_make(w.exclusive, w.mark, (uint16_t)(w.count + 1), w.generation);
    return 0;
}

static inline uint64_t lwkt_inline_word_mark(uint64_t word) {
    const lwkt_inline_tok_word w = lwkt_inline_tok_word_parts(word);
    return lwkt_inline_tok_word_make(w.exclusive, true, w.count, w.generation);
}

static inline uint32_t lwkt_inline_word_give_one(uint64_t word, uint64_t *result) {
    const lwkt_inline_tok_word w = lwkt_inline_tok_word_parts(word);
    if (w.count == 0) {
        return LWKT_INLINE_NOT_HELD;
    }
    *result = lwkt_inline_tok_word_make(w.exclusive, w.mark, (uint16_t)(w.count - 1), w.generation);
    return 0;
}

// The next word, if an exclusive holding can end with the holder's next reference.
static inline uint32_t lwkt_inline_word_ended(const lwkt_inline_tok_word *w, uint64_t next, uint64_t *result) {
    if (!w->exclusive) {
        return LWKT_INLINE_NOT_HELD;
    }
    if (w->count > 0) {
        return LWKT_INLINE_NOT_LAST;
    }
    *result = next;
    return 0;
}

static inline uint32_t lwkt_inline_word_give_clean(uint64_t word, uint64_t *result) {
    const lwkt_inline_tok_word w = lwkt_inline_tok_word_parts(word);
    const uint64_t next = lwkt_inline_tok_word_make(false, w.mark, w.count, w.generation);
    return lwkt_inline_word_ended(&w, next, result);
}

static inline uint32_t lwkt_inline_word_give_written(uint64_t word, uint64_t *result) {
    const lwkt_inline_tok_word w = lwkt_inline_tok_word_parts(word);
    if (w.generation == LWKT_INLINE_LAST_GENERATION) {
        return LWKT_INLINE_WORN;
    }
    const uint64_t next = lwkt_inline_tok_word_make(false, w.mark, w.count, w.generation + 1);
    return lwkt_inline_word_ended(&w, next, result);
}

#endif

#ifdef LWKT_WORD_NAMES
#ifdef LWKT_H
#error "lwkt.h has these names already: LWKT_WORD_NAMES is for a file without it"
#endif
#define lwkt_word_take lwkt_inline_word_take
#define lwkt_word_share lwkt_inline_word_share
#define lwkt_word_again lwkt_inline_word_again
#define lwkt_word_mark lwkt_inline_word_mark
#define lwkt_word_give_one lwkt_inline_word_give_one
#define lwkt_word_give_clean lwkt_inline_word_give_clean
#define lwkt_word_give_written lwkt_inline_word_give_written
#endif
