use crate::RowLaw;
use std::cell::UnsafeCell;
use std::error::Error;
use std::ffi::{c_char, c_int, c_void, CStr};
use std::fmt;
use std::io::{self, Write};

type Sink = extern "C" fn(*mut c_void, *const c_char, usize) -> c_int;
type Place = *mut c_void;

// As src/record.c defines them, over include/lwkt_record.h.
extern "C" {
    fn lwkt_rust_record_size() -> usize;
    fn lwkt_rust_record_open(recorder: Place, processors: u32, tokens: u32, messages: u32, room: usize) -> c_int;
    fn lwkt_rust_record_keep_last(recorder: Place) -> c_int;
    fn lwkt_rust_record_close(recorder: Place);
    fn lwkt_rust_record_token(
        recorder: Place,
        token: u32,
        law: u32,
        param: u64,
        generation: u64,
        cells: *const u64,
        count: u32,
    ) -> c_int;
    fn lwkt_rust_record_message(recorder: Place, message: u32, processor: u32, thread: u32, round: u64) -> c_int;
    fn lwkt_rust_record_enter(recorder: Place, number: *mut u32) -> c_int;
    fn lwkt_rust_record_leave(recorder: Place, number: u32) -> c_int;
    fn lwkt_rust_record_take(recorder: Place, processor: u32, token: u32) -> c_int;
    fn lwkt_rust_record_share(recorder: Place, processor: u32, token: u32) -> c_int;
    fn lwkt_rust_record_again(recorder: Place, processor: u32, token: u32) -> c_int;
    fn lwkt_rust_record_mark(recorder: Place, processor: u32, token: u32) -> c_int;
    fn lwkt_rust_record_give(recorder: Place, processor: u32, token: u32) -> c_int;
    fn lwkt_rust_record_read(recorder: Place, processor: u32, token: u32, cell: u32, value: u64) -> c_int;
    fn lwkt_rust_record_write(recorder: Place, processor: u32, token: u32, cell: u32, value: u64) -> c_int;
    fn lwkt_rust_record_send(recorder: Place, processor: u32, message: u32, target: u32, round: u64) -> c_int;
    fn lwkt_rust_record_take_message(recorder: Place, processor: u32, message: u32, round: u64) -> c_int;
    fn lwkt_rust_record_drop(recorder: Place, processor: u32, message: u32) -> c_int;
    fn lwkt_rust_record_reply(recorder: Place, processor: u32, message: u32) -> c_int;
    fn lwkt_rust_record_reap(recorder: Place, processor: u32, message: u32) -> c_int;
    fn lwkt_rust_record_abort(recorder: Place, processor: u32, message: u32) -> c_int;
    fn lwkt_rust_record_end(recorder: Place) -> c_int;
    fn lwkt_rust_record_end_cells(recorder: Place, token: u32, cells: *const u64, count: u32) -> c_int;
    fn lwkt_rust_record_end_generation(recorder: Place, token: u32, generation: u64) -> c_int;
    fn lwkt_rust_record_end_references(recorder: Place, token: u32, references: u64) -> c_int;
    fn lwkt_rust_record_in_lines(recorder: Place, in_lines: bool) -> c_int;
    fn lwkt_rust_record_to_sink(recorder: Place, sink: Sink, context: *mut c_void) -> c_int;
    fn lwkt_rust_record_drain(recorder: Place, sink: Sink, context: *mut c_void) -> c_int;
    fn lwkt_rust_record_lost(recorder: Place) -> c_int;
    fn lwkt_rust_record_at(recorder: Place, processor: u32, text: *const c_char);
    fn lwkt_rust_record_where_to(recorder: Place, sink: Option<Sink>, context: *mut c_void) -> c_int;
    fn lwkt_rust_record_room(recorder: Place, processor: u32) -> usize;
}

// The errors of include/lwkt_record.h: number, name and words of each, once.
macro_rules! record_faults {
    ($($number:literal $name:ident $words:literal)*) => {
        /// What a call of a [`Recorder`] answers where it didn't do as it says.
        #[derive(Clone, Copy, Debug, PartialEq, Eq)]
        #[non_exhaustive]
        pub enum RecordFault {
            $(#[doc = concat!(stringify!($number), ": ", $words, ".")] $name,)*
        }

        impl RecordFault {
            // The fault with this number, which is one of them.
            fn of_number(number: c_int) -> RecordFault {
                match number {
                    $($number => RecordFault::$name,)*
                    _ => RecordFault::Closed,
                }
            }
        }

        impl fmt::Display for RecordFault {
            fn fmt(&self, out: &mut fmt::Formatter<'_>) -> fmt::Result {
                out.write_str(match self {
                    $(RecordFault::$name => $words,)*
                })
            }
        }
    };
}

record_faults! {
    1 Closed "the recorder isn't open"
    2 Limit "a limit of traces is passed"
    3 Memory "out of memory"
    4 Late "tokens and messages are declared before the first event"
    5 NoProcessor "no such processor"
    6 NoToken "no such token"
    7 NoCell "no such cell"
    8 NoMessage "no such message"
    9 Full "the processor's buffer is full"
    10 TooMany "the processor has 32 references"
    11 Busy "another call for the processor is under way"
    12 Cut "the trace ends before the last event"
    13 Stream "the trace could not be written"
    14 NoRoom "the trace has more bytes than there is room for"
    15 AllLent "each processor's number is lent"
    16 Holds "the processor holds a recorded token"
    17 NotLent "the number isn't lent"
    18 Mode "the recorder's trace is written in another way"
    19 Otherwise "the token has other references than its events leave"
}

impl Error for RecordFault {}

fn done(number: c_int) -> Result<(), RecordFault> {
    if number == 0 {
        Ok(())
    } else {
        Err(RecordFault::of_number(number))
    }
}

/// The file and line of where it stands, for [`Recorder::at`].
#[macro_export]
macro_rules! here {
    () => {
        ::std::ffi::CStr::from_bytes_with_nul(::std::concat!(::std::file!(), ":", ::std::line!(), "\0").as_bytes())
            .unwrap_or_default()
    };
}

/// Records what threads do with tokens and messages of their own, for [`check_trace`](crate::check_trace). Each call is the one of its
/// name of include/lwkt_record.h, which says where it stands, what it does and which faults it answers; docs/RECORDING.md says how to
/// begin. Threads record at once; a processor's number is one thread's at a time.
///
/// ```
/// use lwkt::{Finding, Recorder, RowLaw};
/// use std::sync::Mutex;
///
/// let mut recorder = Recorder::open(2, 1, 0, 100)?;
/// recorder.token(0, RowLaw::Any, 0, 0, &[5])?;
/// let total = Mutex::new(5);
/// std::thread::scope(|scope| {
///     for processor in 0..2 {
///         let (recorder, total) = (&recorder, &total);
///         scope.spawn(move || {
///             let mut held = total.lock().unwrap();
///             recorder.take(processor, 0).unwrap();
///             recorder.read(processor, 0, 0, *held).unwrap();
///             *held += 1;
///             recorder.write(processor, 0, 0, *held).unwrap();
///             recorder.give(processor, 0).unwrap();
///         });
///     }
/// });
/// recorder.end_cells(0, &[7])?;
/// assert_eq!(lwkt::check_trace(&recorder.trace()?)?, Finding::Lawful);
/// # Ok::<(), Box<dyn std::error::Error + Send + Sync>>(())
/// ```
pub struct Recorder {
    // The bytes of one of C.
    place: Box<[UnsafeCell<u64>]>,
}

// SAFETY: the calls that take `&self` may be made by any number of threads at once, and a recorder stays where it is.
unsafe impl Sync for Recorder {}

impl fmt::Debug for Recorder {
    fn fmt(&self, out: &mut fmt::Formatter<'_>) -> fmt::Result {
        out.debug_struct("Recorder").finish_non_exhaustive()
    }
}

impl Drop for Recorder {
    fn drop(&mut self) {
        // SAFETY: nobody records any more.
        unsafe { lwkt_rust_record_close(self.pointer()) }
    }
}

// Takes bytes for a `Writing`.
extern "C" fn take_bytes(context: *mut c_void, bytes: *const c_char, count: usize) -> c_int {
    // SAFETY: the context is the one of `Recorder::write`, and there are so many bytes.
    let (writing, bytes) = unsafe {
        (
            &mut *context.cast::<Writing>(),
            std::slice::from_raw_parts(bytes.cast::<u8>(), count),
        )
    };
    let written = std::panic::catch_unwind(std::panic::AssertUnwindSafe(|| writing.to.write_all(bytes)));
    match written {
        Ok(Ok(())) => 0,
        Ok(Err(error)) => {
            writing.failed = Some(error);
            1
        }
        Err(_) => 1,
    }
}

// Where a trace is written to, and why it couldn't.
struct Writing<'a> {
    to: &'a mut dyn Write,
    failed: Option<io::Error>,
}

// A call with its recorder and these parts, by shared borrow.
macro_rules! events {
    ($($(#[doc = $said:literal])* $name:ident($($part:ident: $kind:ty),*) $call:ident;)*) => {
        impl Recorder {
            $($(#[doc = $said])*
            pub fn $name(&self, $($part: $kind),*) -> Result<(), RecordFault> {
                // SAFETY: the recorder is open, and any thread may make the call at any time.
                done(unsafe { $call(self.pointer(), $($part),*) })
            })*
        }
    };
}

events! {
    /// Gives a lent number back.
    leave(number: u32) lwkt_rust_record_leave;
    /// The processor has taken the token exclusively.
    take(processor: u32, token: u32) lwkt_rust_record_take;
    /// The processor has taken the token shared.
    share(processor: u32, token: u32) lwkt_rust_record_share;
    /// The processor has a further reference.
    again(processor: u32, token: u32) lwkt_rust_record_again;
    /// The processor has marked the token for an exclusive request.
    mark(processor: u32, token: u32) lwkt_rust_record_mark;
    /// The processor is about to give a reference back.
    give(processor: u32, token: u32) lwkt_rust_record_give;
    /// The holder has read the value.
    read(processor: u32, token: u32, cell: u32, value: u64) lwkt_rust_record_read;
    /// The exclusive holder writes the value.
    write(processor: u32, token: u32, cell: u32, value: u64) lwkt_rust_record_write;
    /// The origin is about to send the message to a processor, in this round, or 0.
    send(processor: u32, message: u32, target: u32, round: u64) lwkt_rust_record_send;
    /// The processor has taken the message, of this round, or 0.
    take_message(processor: u32, message: u32, round: u64) lwkt_rust_record_take_message;
    /// The origin has taken the message back.
    drop_message(processor: u32, message: u32) lwkt_rust_record_drop;
    /// The taker is about to reply.
    reply(processor: u32, message: u32) lwkt_rust_record_reply;
    /// The origin has taken the reply.
    reap(processor: u32, message: u32) lwkt_rust_record_reap;
    /// The origin asks for the message to be aborted.
    abort(processor: u32, message: u32) lwkt_rust_record_abort;
}

impl Recorder {
    /// A recorder for so many processors, tokens and messages, of which each processor can record so many events until it is drained.
    pub fn open(processors: u32, tokens: u32, messages: u32, room: usize) -> Result<Recorder, RecordFault> {
        // SAFETY: it answers a number.
        let words = (unsafe { lwkt_rust_record_size() } + 7) / 8;
        let recorder = Recorder {
            place: (0..words).map(|_| UnsafeCell::new(0)).collect(),
        };
        // SAFETY: a recorder of zeros isn't open.
        done(unsafe { lwkt_rust_record_open(recorder.pointer(), processors, tokens, messages, room) })?;
        Ok(recorder)
    }

    fn pointer(&self) -> Place {
        self.place.as_ptr().cast_mut().cast()
    }

    /// Has each processor keep its last events only.
    pub fn keep_last(&mut self) -> Result<(), RecordFault> {
        // SAFETY: nobody else has the recorder.
        done(unsafe { lwkt_rust_record_keep_last(self.pointer()) })
    }

    /// Declares a token with its cells. Refused with [`RecordFault::Limit`] for [`RowLaw::Len`].
    pub fn token(&mut self, token: u32, law: RowLaw, param: u64, generation: u64, cells: &[u64]) -> Result<(), RecordFault> {
        let count = u32::try_from(cells.len()).unwrap_or(u32::MAX);
        // SAFETY: as in `keep_last`, and there are so many cells.
        done(unsafe { lwkt_rust_record_token(self.pointer(), token, law as u32, param, generation, cells.as_ptr(), count) })
    }

    /// Declares a message: the processor that sends it, its thread there, and its round.
    pub fn message(&mut self, message: u32, processor: u32, thread: u32, round: u64) -> Result<(), RecordFault> {
        // SAFETY: as in `keep_last`.
        done(unsafe { lwkt_rust_record_message(self.pointer(), message, processor, thread, round) })
    }

    /// Lends the calling thread a processor's number, where there are more threads than numbers.
    pub fn enter(&self) -> Result<u32, RecordFault> {
        let mut number = 0;
        // SAFETY: the recorder is open, and the number is borrowed alone.
        done(unsafe { lwkt_rust_record_enter(self.pointer(), &mut number) })?;
        Ok(number)
    }

    /// Ends the recording: nobody holds a token.
    pub fn end(&mut self) -> Result<(), RecordFault> {
        // SAFETY: as in `keep_last`.
        done(unsafe { lwkt_rust_record_end(self.pointer()) })
    }

    /// The same, with a token's cells as they are now.
    pub fn end_cells(&mut self, token: u32, cells: &[u64]) -> Result<(), RecordFault> {
        let count = u32::try_from(cells.len()).unwrap_or(u32::MAX);
        // SAFETY: as in `token`.
        done(unsafe { lwkt_rust_record_end_cells(self.pointer(), token, cells.as_ptr(), count) })
    }

    /// The same, with a token's generation as it is now.
    pub fn end_generation(&mut self, token: u32, generation: u64) -> Result<(), RecordFault> {
        // SAFETY: as in `keep_last`.
        done(unsafe { lwkt_rust_record_end_generation(self.pointer(), token, generation) })
    }

    /// The same, with how many references there are to a token, by its own word.
    pub fn end_references(&mut self, token: u32, references: u64) -> Result<(), RecordFault> {
        // SAFETY: as in `keep_last`.
        done(unsafe { lwkt_rust_record_end_references(self.pointer(), token, references) })
    }

    /// Has the trace written in lines, or not.
    pub fn in_lines(&mut self, in_lines: bool) -> Result<(), RecordFault> {
        // SAFETY: as in `keep_last`.
        done(unsafe { lwkt_rust_record_in_lines(self.pointer(), in_lines) })
    }

    /// The trace, as far as it is complete.
    pub fn trace(&self) -> Result<Vec<u8>, RecordFault> {
        let mut bytes = Vec::new();
        self.written(&mut bytes, lwkt_rust_record_to_sink)
            .map_err(|(fault, _)| fault)?;
        Ok(bytes)
    }

    /// Writes what is complete and wasn't drained before, in lines, and frees its room: whether that was all.
    pub fn drain(&self, to: &mut dyn Write) -> io::Result<bool> {
        match self.written(to, lwkt_rust_record_drain) {
            Ok(()) => Ok(true),
            Err((RecordFault::Cut, _)) => Ok(false),
            Err((fault, failed)) => Err(failed.unwrap_or_else(|| io::Error::new(io::ErrorKind::Other, fault))),
        }
    }

    /// The processor's next event stands in this line of the program, as [`here!`](crate::here) names it.
    ///
    /// ```
    /// use lwkt::{here, Recorder};
    ///
    /// let mut recorder = Recorder::open(1, 1, 0, 9)?;
    /// recorder.take(0, 0)?;
    /// recorder.at(0, here!());
    /// recorder.give(0, 0)?;
    /// let (_, lines) = recorder.trace_and_lines()?;
    /// assert!(lines.starts_with("1 ") && lines.contains("record.rs:"));
    /// # Ok::<(), lwkt::RecordFault>(())
    /// ```
    pub fn at(&self, processor: u32, line: &'static CStr) {
        // SAFETY: the recorder is open, and the text is there for good.
        unsafe { lwkt_rust_record_at(self.pointer(), processor, line.as_ptr()) }
    }

    /// The trace, and a line for each event of which it was said where it stands: its number in the trace, and that.
    pub fn trace_and_lines(&mut self) -> Result<(Vec<u8>, String), RecordFault> {
        let mut lines = Vec::new();
        let mut writing = Writing {
            to: &mut lines,
            failed: None,
        };
        // SAFETY: nobody else has the recorder, and the sink is none any more when this ends.
        done(unsafe { lwkt_rust_record_where_to(self.pointer(), Some(take_bytes), (&mut writing as *mut Writing).cast()) })?;
        let trace = self.trace();
        // SAFETY: as above.
        done(unsafe { lwkt_rust_record_where_to(self.pointer(), None, std::ptr::null_mut()) })?;
        Ok((trace?, String::from_utf8_lossy(&lines).into_owned()))
    }

    fn written(
        &self,
        to: &mut dyn Write,
        call: unsafe extern "C" fn(Place, Sink, *mut c_void) -> c_int,
    ) -> Result<(), (RecordFault, Option<io::Error>)> {
        let mut writing = Writing { to, failed: None };
        // SAFETY: the recorder is open, and the sink is called within the call alone, with this context.
        let number = unsafe { call(self.pointer(), take_bytes, (&mut writing as *mut Writing).cast()) };
        done(number).map_err(|fault| (fault, writing.failed))
    }

    /// How many events the processor can record before its buffer is full.
    pub fn room(&self, processor: u32) -> usize {
        // SAFETY: the recorder is open.
        unsafe { lwkt_rust_record_room(self.pointer(), processor) }
    }

    /// Why the first event that was lost couldn't be recorded, if one was.
    pub fn lost(&self) -> Option<RecordFault> {
        // SAFETY: the recorder is open.
        done(unsafe { lwkt_rust_record_lost(self.pointer()) }).err()
    }
}
