use core::fmt;

#[cfg(feature = "std")]
use self::linked as steps;
#[cfg(not(feature = "std"))]
use crate::steps;

// The steps of the library: an answer is the next word, or the number of a fault.
#[cfg(feature = "std")]
mod linked {
    // As include/lwkt.h declares them.
    extern "C" {
        fn lwkt_word_take(word: u64, next: *mut u64) -> u32;
        fn lwkt_word_share(word: u64, alone: bool, next: *mut u64) -> u32;
        fn lwkt_word_again(word: u64, next: *mut u64) -> u32;
        fn lwkt_word_mark(word: u64) -> u64;
        fn lwkt_word_give_one(word: u64, next: *mut u64) -> u32;
        fn lwkt_word_give_clean(word: u64, next: *mut u64) -> u32;
        fn lwkt_word_give_written(word: u64, next: *mut u64) -> u32;
    }

    fn stepped(step: impl FnOnce(&mut u64) -> u32) -> Result<u64, u32> {
        let mut next = 0;
        match step(&mut next) {
            0 => Ok(next),
            fault => Err(fault),
        }
    }

    pub(super) fn take(word: u64) -> Result<u64, u32> {
        // SAFETY: `next` is one value that is borrowed alone.
        stepped(|next| unsafe { lwkt_word_take(word, next) })
    }

    pub(super) fn share(word: u64, alone: bool) -> Result<u64, u32> {
        // SAFETY: as in `take`.
        stepped(|next| unsafe { lwkt_word_share(word, alone, next) })
    }

    pub(super) fn again(word: u64) -> Result<u64, u32> {
        // SAFETY: as in `take`.
        stepped(|next| unsafe { lwkt_word_again(word, next) })
    }

    pub(super) fn mark(word: u64) -> u64 {
        // SAFETY: the call takes any word, and no pointer.
        unsafe { lwkt_word_mark(word) }
    }

    pub(super) fn give_one(word: u64) -> Result<u64, u32> {
        // SAFETY: as in `take`.
        stepped(|next| unsafe { lwkt_word_give_one(word, next) })
    }

    pub(super) fn give_clean(word: u64) -> Result<u64, u32> {
        // SAFETY: as in `take`.
        stepped(|next| unsafe { lwkt_word_give_clean(word, next) })
    }

    pub(super) fn give_written(word: u64) -> Result<u64, u32> {
        // SAFETY: as in `take`.
        stepped(|next| unsafe { lwkt_word_give_written(word, next) })
    }
}

/// Why a step on a word can't be made.
#[derive(Clone, Copy, Debug, PartialEq, Eq)]
pub enum StepFault {
    /// 12: the exclusive holder has references beyond the first.
    NotLast,
    /// 13: nobody holds the token so.
    NotHeld,
    /// 20: the token is at its last generation.
    Worn,
    /// 23: the token is held in a way that excludes the request, or marked for an exclusive one.
    Busy,
    /// 39: the word counts as many references as it can.
    Full,
}

impl fmt::Display for StepFault {
    fn fmt(&self, out: &mut fmt::Formatter<'_>) -> fmt::Result {
        out.write_str(match self {
            StepFault::NotLast => "not the last reference",
            StepFault::NotHeld => "token not held",
            StepFault::Worn => "last generation",
            StepFault::Busy => "token busy",
            StepFault::Full => "the count is full",
        })
    }
}

#[cfg(feature = "std")]
impl std::error::Error for StepFault {}

/// The word of a token that the caller keeps: the exclusive bit, the mark, the count of references, the generation. The steps are
/// decisions: each gives the word to store in place of this one, by an exchange of the caller's own.
///
/// ```
/// use lwkt::{StepFault, Word};
/// use std::sync::atomic::{AtomicU64, Ordering::SeqCst};
///
/// let token = AtomicU64::new(Word::free(0).0);
/// token.fetch_update(SeqCst, SeqCst, |word| Word(word).take().ok().map(|next| next.0)).unwrap();
/// let held = Word(token.load(SeqCst));
/// assert!(held.is_exclusive());
/// assert_eq!(held.share(true), Err(StepFault::Busy));
/// assert_eq!(held.give_written(), Ok(Word::free(1)));
/// ```
#[derive(Clone, Copy, Debug, PartialEq, Eq)]
pub struct Word(pub u64);

/// The last generation of a token.
const LAST_GENERATION: u64 = (1 << 46) - 1;

impl Word {
    /// The word of a token that nobody holds, at this generation, or at the last one where this is beyond it.
    pub const fn free(generation: u64) -> Word {
        let within = if generation < LAST_GENERATION {
            generation
        } else {
            LAST_GENERATION
        };
        Word(within << 18)
    }

    /// Whether somebody holds the token exclusively.
    pub const fn is_exclusive(self) -> bool {
        self.0 & 1 != 0
    }

    /// Whether the token is marked for an exclusive request.
    pub const fn is_marked(self) -> bool {
        self.0 & 2 != 0
    }

    /// Held shared, the number of all references; held exclusively, of those beyond the first.
    pub const fn count(self) -> u16 {
        (self.0 >> 2) as u16
    }

    /// The written sections, from the opening generation on.
    pub const fn generation(self) -> u64 {
        self.0 >> 18
    }

    /// Takes the token exclusively, for a processor that holds nothing of it; the mark is cleared.
    ///
    /// # Errors
    ///
    /// `Worn` at the last generation; else `Busy` where anyone holds the token.
    pub fn take(self) -> Result<Word, StepFault> {
        stepped(steps::take(self.0))
    }

    /// Takes the token shared, for a processor that holds nothing of it. `alone` says that the asking thread has no reference to
    /// another token: the mark then holds it off.
    ///
    /// # Errors
    ///
    /// `Busy` where the token is held exclusively or the mark holds the request off; else `Full`.
    pub fn share(self, alone: bool) -> Result<Word, StepFault> {
        stepped(steps::share(self.0, alone))
    }

    /// A further reference of a processor that holds the token, in the mode of its first.
    ///
    /// # Errors
    ///
    /// `NotHeld` where nobody holds the token; `Full`.
    pub fn again(self) -> Result<Word, StepFault> {
        stepped(steps::again(self.0))
    }

    /// The word with the mark of an exclusive request.
    pub fn mark(self) -> Word {
        Word(steps::mark(self.0))
    }

    /// A reference back that doesn't end an exclusive holding.
    ///
    /// # Errors
    ///
    /// `NotHeld` where the word counts none.
    pub fn give_one(self) -> Result<Word, StepFault> {
        stepped(steps::give_one(self.0))
    }

    /// The last reference of an exclusive holder back, who has written nothing that the token guards.
    ///
    /// # Errors
    ///
    /// `NotHeld` where nobody holds the token exclusively; `NotLast` where its holder has references beyond the first.
    pub fn give_clean(self) -> Result<Word, StepFault> {
        stepped(steps::give_clean(self.0))
    }

    /// The same of a holder who has written: the generation is one more.
    ///
    /// # Errors
    ///
    /// `Worn` at the last generation; else as [`Word::give_clean`].
    pub fn give_written(self) -> Result<Word, StepFault> {
        stepped(steps::give_written(self.0))
    }
}

// What came of a step.
fn stepped(step: Result<u64, u32>) -> Result<Word, StepFault> {
    step.map(Word).map_err(|fault| match fault {
        12 => StepFault::NotLast,
        13 => StepFault::NotHeld,
        20 => StepFault::Worn,
        39 => StepFault::Full,
        _ => StepFault::Busy,
    })
}

#[cfg(all(test, feature = "std"))]
mod tests {
    use super::{linked, LAST_GENERATION};
    use crate::steps;

    fn try_word(word: u64) {
        assert_eq!(steps::take(word), linked::take(word), "take {word}");
        assert_eq!(steps::share(word, true), linked::share(word, true), "share {word}, alone");
        assert_eq!(steps::share(word, false), linked::share(word, false), "share {word}");
        assert_eq!(steps::again(word), linked::again(word), "again {word}");
        assert_eq!(steps::mark(word), linked::mark(word), "mark {word}");
        assert_eq!(steps::give_one(word), linked::give_one(word), "give_one {word}");
        assert_eq!(steps::give_clean(word), linked::give_clean(word), "give_clean {word}");
        assert_eq!(steps::give_written(word), linked::give_written(word), "give_written {word}");
    }

    // Each word with any flags, any count and a generation at an end or between.
    #[test]
    fn corners_are_as_the_library_has_them() {
        for generation in [0, 1, LAST_GENERATION / 2, LAST_GENERATION - 1, LAST_GENERATION] {
            (0..1 << 18).for_each(|low| try_word(generation << 18 | low));
        }
    }

    #[test]
    fn random_words_are_as_the_library_has_them() {
        let words: u64 = std::env::var("WORDS").map_or(1_000_000, |words| words.parse().unwrap());
        let mut bits = 2026u64;
        for round in 0..words {
            bits = bits
                .wrapping_mul(6_364_136_223_846_793_005)
                .wrapping_add(1_442_695_040_888_963_407);
            let word = bits ^ bits >> 29;
            try_word(match round % 8 {
                0 => word & !(65_535 << 2),
                1 => word | 65_535 << 2,
                2 => word | LAST_GENERATION << 18,
                3 => word & !(65_535 << 2) | LAST_GENERATION << 18,
                _ => word,
            });
        }
    }
}
