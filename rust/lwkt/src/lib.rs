//! The threading layer of DragonFly BSD on modelled processors: scripts run to their reports, traces judged, runs shown, the
//! steps on a token's word, and banks of tokens for the caller's own threads. With the feature `record` it also records what threads do with
//! tokens of their own. This crate is safe Rust over a library that is proved in
//! Rattle; it adds no logic of its own. Without the feature `std`, which is on unless turned off, it is the steps on words alone, for any
//! processor: it needs no standard library, and links nothing.
//!
//! ```
//! let script = r#"{"version":1,"turns":50,"idle":100000000,"cpus":1,
//!     "tokens":[{"cells":[5],"law":"any","param":0,"gen":0}],"messages":[],
//!     "threads":[{"cpu":0,"repeat":1,"steps":[["get",0],["write",0,0,7],["rel",0]]}]}"#;
//! let run = lwkt::run_turns(script.as_bytes())?;
//! assert_eq!(run.end, lwkt::End::Ended);
//! assert_eq!(run.text, "token 0 gen 1 cells 7\nthread 0.0 exited list - log -\nlawful\n");
//! # Ok::<(), lwkt::Refusal>(())
//! ```
//!
//! What is proved is said of the library's calls (docs/C.md); that this crate calls them as they are declared is not.
#![warn(missing_docs)]
#![cfg_attr(not(feature = "std"), no_std)]

#[cfg(feature = "std")]
mod bank;
#[cfg(feature = "std")]
mod calls;
#[cfg(feature = "std")]
mod fault;
#[cfg(feature = "std")]
mod guard;
#[cfg(feature = "record")]
mod record;
#[cfg(any(test, not(feature = "std")))]
mod steps;
#[cfg(feature = "std")]
mod waits;
mod word;

#[cfg(feature = "std")]
pub use bank::{Bank, Closing, Held, Missed, NotClosed, Reference, Resumed, RowLaw, Seat, Token};
#[cfg(feature = "std")]
pub use calls::{
    check_trace, explore_orders, is_text, run_text, run_turns, show_turns, text_json, version, End, Finding, Judgement, Orders,
    Refusal, Run, TextRun, Tried,
};
#[cfg(feature = "std")]
pub use fault::SeatFault;
#[cfg(feature = "std")]
pub use guard::{Guard, Guarded, ReadGuard};
#[cfg(feature = "record")]
pub use record::{RecordFault, Recorder};
pub use word::{StepFault, Word};
