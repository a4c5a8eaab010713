//! The steps on a token's word, for any processor: an answer is the next word, or the number of a fault.
//!
//! tools/word_header makes this file of the proved sources, which it translates: crates/lwkt_core/src/word_steps.rt, with what that uses of
//! lwkt_base. Neither the translation nor the compiler is proved. A test in word.rs compares each function with that of liblwkt.a.
#![allow(clippy::needless_return)]

// The faults that a step answers.
const NOT_LAST: u32 = 12;
const NOT_HELD: u32 = 13;
const WORN: u32 = 20;
const BUSY: u32 = 23;
const LIMITS: u32 = 39;

// The parts of a token's count word (lwkt_token.c; the generation is own). From the lowest bit: the exclusive bit, the
// mark, 16 bits of count, 46 bits of generation.
struct TokWord {
    // The written sections, from the opening generation on: 0 to `LAST_GENERATION`.
    generation: u64,
    // Held shared, the number of all references; held exclusively, the references beyond the first.
    count: u16,
    // Whether somebody holds the token exclusively.
    exclusive: bool,
    // The exclusive-request bit.
    mark: bool,
}

// The parts of a word. Each word has parts, and they are the only ones that fit.
fn tok_word_parts(word: u64) -> TokWord {
    return TokWord {
        generation: word / 262_144,
        count: (word / 4 % 65_536) as u16,
        exclusive: word % 2 == 1,
        mark: word / 2 % 2 == 1,
    };
}

// The last generation of a token, 2 ^ 46 - 1.
const LAST_GENERATION: u64 = 70_368_744_177_663;

// The word of these parts; the generation is at most `LAST_GENERATION`.
fn tok_word_make(exclusive: bool, mark: bool, count: u16, generation: u64) -> u64 {
    return u64::from(exclusive) + 2 * u64::from(mark) + 4 * u64::from(count) + 262_144 * generation;
}

pub(crate) fn take(word: u64) -> Result<u64, u32> {
    let w = tok_word_parts(word);
    if w.generation == LAST_GENERATION {
        return Err(WORN);
    }
    if w.exclusive || w.count > 0 {
        return Err(BUSY);
    }
    return Ok(tok_word_make(true, false, w.count, w.generation));
}

// The most references that a word can count.
const COUNT_LIMIT: u16 = 65_535;

pub(crate) fn share(word: u64, alone: bool) -> Result<u64, u32> {
    let w = tok_word_parts(word);
    if w.exclusive || (w.mark && alone) {
        return Err(BUSY);
    }
    if w.count == COUNT_LIMIT {
        return Err(LIMITS);
    }
    return Ok(tok_word_make(w.exclusive, w.mark, w.count + 1, w.generation));
}

pub(crate) fn again(word: u64) -> Result<u64, u32> {
    let w = tok_word_parts(word);
    if !w.exclusive && w.count == 0 {
        return Err(NOT_HELD);
    }
    if w.count == COUNT_LIMIT {
        return Err(LIMITS);
    }
    return Ok(tok_word_make(w.exclusive, w.mark, w.count + 1, w.generation));
}

pub(crate) fn mark(word: u64) -> u64 {
    let w = tok_word_parts(word);
    return tok_word_make(w.exclusive, true, w.count, w.generation);
}

pub(crate) fn give_one(word: u64) -> Result<u64, u32> {
    let w = tok_word_parts(word);
    if w.count == 0 {
        return Err(NOT_HELD);
    }
    return Ok(tok_word_make(w.exclusive, w.mark, w.count - 1, w.generation));
}

// The next word, if an exclusive holding can end with the holder's next reference.
fn ended(w: &TokWord, next: u64) -> Result<u64, u32> {
    if !w.exclusive {
        return Err(NOT_HELD);
    }
    if w.count > 0 {
        return Err(NOT_LAST);
    }
    return Ok(next);
}

pub(crate) fn give_clean(word: u64) -> Result<u64, u32> {
    let w = tok_word_parts(word);
    let next = tok_word_make(false, w.mark, w.count, w.generation);
    return ended(&w, next);
}

pub(crate) fn give_written(word: u64) -> Result<u64, u32> {
    let w = tok_word_parts(word);
    if w.generation == LAST_GENERATION {
        return Err(WORN);
    }
    let next = tok_word_make(false, w.mark, w.count, w.generation + 1);
    return ended(&w, next);
}
