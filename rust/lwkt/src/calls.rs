use std::error::Error;
use std::ffi::{c_char, CStr};
use std::fmt;

/// What came of a call, as `lwkt_answer` of include/lwkt.h.
#[repr(C)]
#[derive(Clone, Copy, Default)]
struct Answer {
    length: usize,
    fault: u32,
    place: u32,
}

// As include/lwkt.h declares them.
extern "C" {
    fn lwkt_version() -> *const c_char;
    fn lwkt_run_turns(script: *const u8, script_length: usize, text: *mut u8, room: usize, answer: *mut Answer) -> u32;
    fn lwkt_check_trace(trace: *const u8, trace_length: usize, text: *mut u8, room: usize, answer: *mut Answer) -> u32;
    fn lwkt_show_turns(
        script: *const u8,
        script_length: usize,
        arguments: *const u8,
        arguments_length: usize,
        text: *mut u8,
        room: usize,
        answer: *mut Answer,
    ) -> u32;
    fn lwkt_is_text(script: *const u8, script_length: usize) -> u32;
    fn lwkt_text_json(script: *const u8, script_length: usize, text: *mut u8, room: usize, answer: *mut Answer) -> u32;
    fn lwkt_run_text(script: *const u8, script_length: usize, text: *mut u8, room: usize, answer: *mut Answer) -> u32;
    fn lwkt_explore_orders(
        script: *const u8,
        script_length: usize,
        states: usize,
        turns: usize,
        text: *mut u8,
        room: usize,
        answer: *mut Answer,
    ) -> u32;
}

/// The version of the library.
///
/// ```
/// assert_eq!(lwkt::version(), env!("CARGO_PKG_VERSION"));
/// ```
pub fn version() -> &'static str {
    // SAFETY: the text is there for good, and ended by a 0 byte.
    let text = unsafe { CStr::from_ptr(lwkt_version()) };
    text.to_str().unwrap_or("")
}

/// How a run ended.
#[derive(Clone, Copy, Debug, PartialEq, Eq)]
pub enum End {
    /// Every thread had ended, exited or faulted.
    Ended,
    /// The script's turns were used up before that.
    TurnsOut,
    /// The run was unlawful, which no right implementation's is.
    Unlawful,
}

/// A run, in words: its report, or what shows it.
#[derive(Clone, Debug, PartialEq, Eq)]
pub struct Run {
    /// How it ended.
    pub end: End,
    /// Its report, or what shows it.
    pub text: String,
}

/// What was found of a trace.
#[derive(Clone, Debug, PartialEq, Eq)]
pub enum Finding {
    /// Its events can happen one after another, and end with its closing values, if it has any.
    Lawful,
    /// They can't: the text says from which event on, and why.
    Unlawful(String),
}

/// Why a call has no text. Its `Display` says it in words, with line and column where there are any.
#[derive(Clone, Debug, PartialEq, Eq)]
pub enum Refusal {
    /// What was given is no script, or no trace.
    Malformed {
        /// The place of its first bad part, as docs/FORMATS.md and docs/TRACES.md number the places.
        place: u32,
        /// Why, in words.
        why: String,
    },
    /// A limit was passed.
    Limits {
        /// Why, in words.
        why: String,
    },
    /// An opening row breaks its law.
    LawBroken {
        /// Why, in words.
        why: String,
    },
    /// Other arguments than there are, or a run that ended before the first turn that was chosen.
    Arguments {
        /// Why, in words.
        why: String,
    },
    /// A run along an order was unlawful, which no right implementation's is.
    Unlawful {
        /// That it was, in words.
        why: String,
    },
    /// Memory was refused.
    Memory,
}

impl fmt::Display for Refusal {
    fn fmt(&self, out: &mut fmt::Formatter<'_>) -> fmt::Result {
        match self {
            Refusal::Malformed { why, .. }
            | Refusal::Limits { why }
            | Refusal::LawBroken { why }
            | Refusal::Unlawful { why }
            | Refusal::Arguments { why } => out.write_str(why.trim_end()),
            Refusal::Memory => out.write_str("memory was refused"),
        }
    }
}

impl Error for Refusal {}

/// The bytes that a first call has room for.
const ROOM: usize = 4096;

/// Makes a call with room for its whole text, and gives its status, its answer and the text.
fn called(call: impl Fn(&mut [u8], &mut Answer) -> u32) -> Result<(u32, Answer, String), Refusal> {
    let mut room = ROOM;
    loop {
        let mut bytes = Vec::new();
        bytes.try_reserve_exact(room).map_err(|_| Refusal::Memory)?;
        bytes.resize(room, 0);
        let mut answer = Answer::default();
        let status = call(&mut bytes, &mut answer);
        if answer.length <= room {
            bytes.truncate(answer.length);
            let text = String::from_utf8(bytes).unwrap_or_else(|error| String::from_utf8_lossy(error.as_bytes()).into_owned());
            return Ok((status, answer, text));
        }
        room = answer.length;
    }
}

/// Why a call was refused that has this answer and this text.
fn refusal(answer: Answer, why: String) -> Refusal {
    match answer.fault {
        0 | 30 => Refusal::Arguments { why },
        33 => Refusal::Malformed {
            place: answer.place,
            why,
        },
        39 => Refusal::Limits { why },
        40 => Refusal::LawBroken { why },
        35 => Refusal::Unlawful { why },
        _ => Refusal::Memory,
    }
}

/// The run of a call.
fn run_of((status, answer, text): (u32, Answer, String)) -> Result<Run, Refusal> {
    let end = match status {
        0 => End::Ended,
        2 => End::TurnsOut,
        4 => End::Unlawful,
        _ => return Err(refusal(answer, text)),
    };
    Ok(Run { end, text })
}

/// Runs a script in rounds, on this thread, to its report, as `lwkt_run turns` does. docs/FORMATS.md has the script and the report.
///
/// # Errors
///
/// `Malformed` where the bytes are no script, `Limits` or `LawBroken` for its opening, `Memory` where memory was refused.
///
/// ```
/// let refused = lwkt::run_turns(br#"{"version":2}"#).unwrap_err();
/// assert!(matches!(refused, lwkt::Refusal::Malformed { place: 1, .. }));
/// ```
pub fn run_turns(script: &[u8]) -> Result<Run, Refusal> {
    run_of(called(|text, answer| {
        // SAFETY: as include/lwkt.h asks, each pointer and length is of one slice, which lives and is borrowed for the call, and
        // `answer` is one value that is borrowed alone.
        unsafe { lwkt_run_turns(script.as_ptr(), script.len(), text.as_mut_ptr(), text.len(), answer) }
    })?)
}

/// Judges a trace, as `lwkt_check` does. docs/TRACES.md has the trace.
///
/// # Errors
///
/// As of [`run_turns`], of a trace.
///
/// ```
/// let trace = br#"{"version":1,"cpus":2,"tokens":[{"cells":[0],"law":"any","param":0,"gen":0}],"messages":[],
///     "events":[["take",0,0],["take",1,0]],"last":null}"#;
/// let lwkt::Finding::Unlawful(why) = lwkt::check_trace(trace)? else { panic!() };
/// assert!(why.starts_with("unlawful 1\n"));
/// # Ok::<(), lwkt::Refusal>(())
/// ```
pub fn check_trace(trace: &[u8]) -> Result<Finding, Refusal> {
    let (status, answer, text) = called(|text, answer| {
        // SAFETY: as in `run_turns`.
        unsafe { lwkt_check_trace(trace.as_ptr(), trace.len(), text.as_mut_ptr(), text.len(), answer) }
    })?;
    match status {
        0 => Ok(Finding::Lawful),
        4 => Ok(Finding::Unlawful(text)),
        _ => Err(refusal(answer, text)),
    }
}

/// Runs a script in either form, in rounds or along an order, and shows the run, as `lwkt_show` with these arguments does: words with
/// one blank between each two, as `turns --svg` or `turns --order 0110`. If `--names` stands behind `turns`, a text is shown in its names.
///
/// # Errors
///
/// As of [`run_turns`]; and `Arguments` for other arguments, where the order names a processor that the script doesn't have, and where
/// the run ended before the first turn that they choose.
///
/// ```
/// let script = br#"{"version":1,"turns":5,"idle":100000000,"cpus":1,"tokens":[],"messages":[],
///     "threads":[{"cpu":0,"repeat":1,"steps":[["yield"]]}]}"#;
/// let run = lwkt::show_turns(script, "turns --svg")?;
/// assert!(run.text.starts_with("<svg "));
/// let absent = lwkt::show_turns(script, "turns --order 01");
/// assert!(matches!(absent, Err(lwkt::Refusal::Arguments { .. })));
/// # Ok::<(), lwkt::Refusal>(())
/// ```
pub fn show_turns(script: &[u8], arguments: &str) -> Result<Run, Refusal> {
    run_of(called(|text, answer| {
        // SAFETY: as in `run_turns`.
        unsafe {
            lwkt_show_turns(
                script.as_ptr(),
                script.len(),
                arguments.as_ptr(),
                arguments.len(),
                text.as_mut_ptr(),
                text.len(),
                answer,
            )
        }
    })?)
}

/// What a run of a text came to, by what the text says of it.
#[derive(Clone, Copy, Debug, PartialEq, Eq)]
pub enum Judgement {
    /// All that is expected holds; or nothing is expected, and every thread had ended.
    Met,
    /// Nothing is expected, and the turns were used up before every thread had ended.
    TurnsOut,
    /// The run was unlawful, which no right implementation's is.
    Unlawful,
    /// Something that is expected doesn't hold.
    Unmet,
}

/// A run of a text, in words.
#[derive(Clone, Debug, PartialEq, Eq)]
pub struct TextRun {
    /// What it came to.
    pub judgement: Judgement,
    /// Its report, and behind it a line for each expectation: `LINE: holds` or `LINE: doesn't hold`.
    pub text: String,
}

/// Whether a script is taken for a text of the language of docs/LANGUAGE.md: it is no JSON, and one of its sentences declares a token, a
/// message or a thread. All else is left to those who read JSON.
///
/// # Errors
///
/// `Memory` where memory was refused.
///
/// ```
/// assert!(lwkt::is_text(b"token word: any, cells 5")?);
/// assert!(!lwkt::is_text(b"turns 5")?);
/// assert!(!lwkt::is_text(b"{}")?);
/// # Ok::<(), lwkt::Refusal>(())
/// ```
pub fn is_text(script: &[u8]) -> Result<bool, Refusal> {
    // SAFETY: as in `run_turns`.
    match unsafe { lwkt_is_text(script.as_ptr(), script.len()) } {
        0 => Ok(false),
        1 => Ok(true),
        _ => Err(Refusal::Memory),
    }
}

/// The script of a text in JSON.
///
/// # Errors
///
/// `Malformed` where something is wrong with the text, with all that is, each with its line, its column and a mark; `Limits` where the
/// JSON would be too long; `Memory` where memory was refused.
///
/// ```
/// let json = lwkt::text_json(b"token word: any, cells 5")?;
/// assert!(!lwkt::is_text(json.as_bytes())?);
/// let Err(lwkt::Refusal::Malformed { why, .. }) = lwkt::text_json(b"tokken word") else { panic!() };
/// assert!(why.starts_with("lwkt: standard input:1:1: "));
/// # Ok::<(), lwkt::Refusal>(())
/// ```
pub fn text_json(script: &[u8]) -> Result<String, Refusal> {
    let (status, answer, text) = called(|text, answer| {
        // SAFETY: as in `run_turns`.
        unsafe { lwkt_text_json(script.as_ptr(), script.len(), text.as_mut_ptr(), text.len(), answer) }
    })?;
    match status {
        0 => Ok(text),
        _ => Err(refusal(answer, text)),
    }
}

/// Runs a text in rounds, on this thread, to its report, and says which of its expectations hold.
///
/// # Errors
///
/// As of [`text_json`]; and `Limits` or `LawBroken` for the opening.
///
/// ```
/// let run = lwkt::run_text(b"thread only on 0:\n  yield\nalways ended")?;
/// assert_eq!(run.judgement, lwkt::Judgement::Met);
/// assert!(run.text.ends_with("lawful\n3: holds\n"));
/// # Ok::<(), lwkt::Refusal>(())
/// ```
pub fn run_text(script: &[u8]) -> Result<TextRun, Refusal> {
    let (status, answer, text) = called(|text, answer| {
        // SAFETY: as in `run_turns`.
        unsafe { lwkt_run_text(script.as_ptr(), script.len(), text.as_mut_ptr(), text.len(), answer) }
    })?;
    let judgement = match status {
        0 => Judgement::Met,
        2 => Judgement::TurnsOut,
        4 => Judgement::Unlawful,
        5 => Judgement::Unmet,
        _ => return Err(refusal(answer, text)),
    };
    Ok(TextRun { judgement, text })
}

/// How much of the orders of a script was tried, and whether each of them can come to an end.
#[derive(Clone, Copy, Debug, PartialEq, Eq)]
pub enum Tried {
    /// All, and from every state an end can be reached; of a text with expectations, all, and each holds of all outcomes.
    AllEnd,
    /// All, and from some state no end can be reached.
    SomeLost,
    /// Not all: a bound was met, or memory was refused; or a text has an expectation that doesn't hold.
    Part,
}

/// What was found of the orders of a script, in words.
#[derive(Clone, Debug, PartialEq, Eq)]
pub struct Orders {
    /// How much was tried.
    pub tried: Tried,
    /// Each outcome with a shortest order, and what was searched, as docs/EXPLORE.md has it; of a text a line for each expectation
    /// behind that.
    pub text: String,
}

/// Tries every order of turns of a script in either form; at most so many states are kept, and no order has more turns than that.
///
/// # Errors
///
/// As of [`run_turns`] and [`run_text`]; and `Unlawful` where a run along an order was.
///
/// ```
/// let found = lwkt::explore_orders(b"thread only on 0:\n  yield", 100, 100)?;
/// assert_eq!(found.tried, lwkt::Tried::AllEnd);
/// assert!(found.text.starts_with("outcome 1 ended, order 0"));
/// # Ok::<(), lwkt::Refusal>(())
/// ```
pub fn explore_orders(script: &[u8], states: usize, turns: usize) -> Result<Orders, Refusal> {
    let (status, answer, text) = called(|text, answer| {
        // SAFETY: as in `run_turns`.
        unsafe {
            lwkt_explore_orders(
                script.as_ptr(),
                script.len(),
                states,
                turns,
                text.as_mut_ptr(),
                text.len(),
                answer,
            )
        }
    })?;
    let tried = match status {
        0 => Tried::AllEnd,
        2 => Tried::SomeLost,
        5 => Tried::Part,
        _ => return Err(refusal(answer, text)),
    };
    Ok(Orders { tried, text })
}
