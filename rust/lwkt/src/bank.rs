use crate::waits::Whole;
use crate::{Guarded, SeatFault};
use std::error::Error;
use std::ffi::c_void;
use std::fmt;
use std::sync::Arc;

/// A bank, as `lwkt_bank` of include/lwkt.h.
#[repr(C)]
#[derive(Clone, Copy)]
struct Handle {
    place: *mut c_void,
}

// As include/lwkt.h declares them.
extern "C" {
    fn lwkt_bank_open(tokens: *const Token, count: usize, seats: u32, bank: *mut Handle) -> u32;
    fn lwkt_bank_close(bank: Handle, closings: *mut StoredClosing, count: usize) -> u32;
    fn lwkt_bank_free(bank: *mut Handle) -> u32;
    fn lwkt_take(bank: Handle, seat: u32, token: u32) -> u32;
    fn lwkt_share(bank: Handle, seat: u32, token: u32) -> u32;
    fn lwkt_again(bank: Handle, seat: u32, token: u32) -> u32;
    fn lwkt_mark(bank: Handle, seat: u32, token: u32) -> u32;
    fn lwkt_give(bank: Handle, seat: u32, token: u32) -> u32;
    fn lwkt_load(bank: Handle, seat: u32, token: u32, cell: u32, value: *mut u64) -> u32;
    fn lwkt_store(bank: Handle, seat: u32, token: u32, cell: u32, value: u64) -> u32;
    fn lwkt_take_load(bank: Handle, seat: u32, token: u32, cell: u32, value: *mut u64) -> u32;
    fn lwkt_store_give(bank: Handle, seat: u32, token: u32, cell: u32, value: u64) -> u32;
    fn lwkt_add(bank: Handle, seat: u32, token: u32, amount: u64, value: *mut u64) -> u32;
    fn lwkt_lawful(bank: Handle, seat: u32, token: u32) -> u32;
    fn lwkt_restore(bank: Handle, seat: u32, token: u32) -> u32;
    fn lwkt_read_record(bank: Handle, seat: u32, token: u32, buffer: *mut u8, room: usize, length: *mut usize) -> u32;
    fn lwkt_write_record(bank: Handle, seat: u32, token: u32, bytes: *const u8, length: usize) -> u32;
    fn lwkt_resume(bank: Handle, seat: u32, list: *const Reference, count: usize, missed: *mut usize) -> u32;
    fn lwkt_block(bank: Handle, seat: u32, restored: *mut u32) -> u32;
}

/// The most bytes that a record has.
const RECORD_ROOM: usize = 64;

/// What row and record have to obey wherever their token is free.
#[derive(Clone, Copy, Debug, PartialEq, Eq)]
pub enum RowLaw {
    /// Nothing.
    Any,
    /// The cells' sum is the parameter.
    Sum,
    /// The cells don't fall.
    Order,
    /// No cell is above the parameter.
    Cap,
    /// One cell, which is only added to, and is the parameter at the opening.
    Tally,
    /// The first cell is the length of the record.
    Len,
}

/// A token as it is at the opening.
#[repr(C)]
#[derive(Clone, Copy, Debug, PartialEq, Eq)]
pub struct Token {
    cells: [u64; 4],
    param: u64,
    generation: u64,
    cell_count: u32,
    law: u32,
    record: [u8; RECORD_ROOM],
    record_length: u32,
    record_count: u32,
}

impl Token {
    /// A token with these cells under this law. Cells past the fourth make the opening fail.
    pub fn new(cells: &[u64], law: RowLaw, param: u64) -> Token {
        let mut four = [0; 4];
        for (place, cell) in four.iter_mut().zip(cells) {
            *place = *cell;
        }
        Token {
            cells: four,
            param,
            generation: 0,
            cell_count: u32::try_from(cells.len()).unwrap_or(u32::MAX),
            law: law as u32,
            record: [0; RECORD_ROOM],
            record_length: 0,
            record_count: 0,
        }
    }

    /// The same token guarding a record of these bytes. Bytes past the sixty-fourth make the opening fail, as a record does under
    /// the law of tallies.
    pub fn with_record(mut self, bytes: &[u8]) -> Token {
        for (place, byte) in self.record.iter_mut().zip(bytes) {
            *place = *byte;
        }
        self.record_length = u32::try_from(bytes.len()).unwrap_or(u32::MAX);
        self.record_count = 1;
        self
    }
}

// What a token came to, as `lwkt_closing` of include/lwkt.h.
#[repr(C)]
#[derive(Clone, Copy)]
struct StoredClosing {
    cells: [u64; 4],
    generation: u64,
    tallies: [u64; 8],
    cell_count: u32,
    tally_count: u32,
    record: [u8; RECORD_ROOM],
    record_length: u32,
    record_count: u32,
}

const UNTOLD: StoredClosing = StoredClosing {
    cells: [0; 4],
    generation: 0,
    tallies: [0; 8],
    cell_count: 0,
    tally_count: 0,
    record: [0; RECORD_ROOM],
    record_length: 0,
    record_count: 0,
};

/// What a token came to when its bank was closed.
#[derive(Clone, Debug, PartialEq, Eq)]
pub struct Closing {
    /// The cells.
    pub cells: Vec<u64>,
    /// The generation: the opening one and one for each section that left another row or record.
    pub generation: u64,
    /// Under [`RowLaw::Tally`] what each seat has added; else none.
    pub tallies: Vec<u64>,
    /// The record, if the token guards one.
    pub record: Option<Vec<u8>>,
}

impl StoredClosing {
    fn closing(&self) -> Closing {
        let bytes = &self.record[..self.record_length as usize];
        Closing {
            cells: self.cells[..self.cell_count as usize].to_vec(),
            generation: self.generation,
            tallies: self.tallies[..self.tally_count as usize].to_vec(),
            record: (self.record_count == 1).then(|| bytes.to_vec()),
        }
    }
}

/// A reference of a list: to which token, and in which mode.
#[repr(C)]
#[derive(Clone, Copy, Debug, PartialEq, Eq)]
pub struct Reference {
    token: u32,
    mode: u32,
}

impl Reference {
    /// A shared reference to a token.
    pub fn shared(token: u32) -> Reference {
        Reference { token, mode: 0 }
    }

    /// An exclusive reference to a token.
    pub fn exclusive(token: u32) -> Reference {
        Reference { token, mode: 1 }
    }
}

/// Why a list of references wasn't taken: the fault, and the place on the list, 0 for the first.
#[derive(Clone, Copy, Debug, PartialEq, Eq)]
pub struct Missed {
    /// The place of the reference that was refused or missed.
    pub place: usize,
    /// Why.
    pub fault: SeatFault,
}

impl fmt::Display for Missed {
    fn fmt(&self, out: &mut fmt::Formatter<'_>) -> fmt::Result {
        write!(out, "reference {}: {}", self.place, self.fault)
    }
}

impl Error for Missed {}

// Asks again where another seat's step came between.
fn unraced<T>(ask: impl Fn() -> Result<T, SeatFault>) -> Result<T, SeatFault> {
    loop {
        match ask() {
            Err(SeatFault::Race) => std::hint::spin_loop(),
            answer => return answer,
        }
    }
}

fn done(status: u32) -> Result<(), SeatFault> {
    if status == 0 {
        Ok(())
    } else {
        Err(SeatFault::of_number(status))
    }
}

/// A bank of tokens, opened with a seat for each of the caller's threads. One that is dropped is given up: what its seats hold is given
/// back, and its memory is freed. Seats that were taken apart by `into_seats` stay to the end of the process, until their bank is closed.
///
/// ```
/// use lwkt::{Bank, RowLaw, Token};
///
/// let tokens = [Token::new(&[0], RowLaw::Tally, 0), Token::new(&[40, 60], RowLaw::Sum, 100)];
/// let mut bank = Bank::open(&tokens, 2)?;
/// std::thread::scope(|scope| {
///     for seat in bank.seats() {
///         scope.spawn(move || {
///             for _ in 0..1000 {
///                 let held = seat.take_waiting(0).unwrap();
///                 held.add(1).unwrap();
///             }
///         });
///     }
/// });
/// let closings = bank.close()?;
/// assert_eq!(closings[0].cells, [2000]);
/// assert_eq!(closings[0].tallies, [1000, 1000]);
/// assert_eq!(closings[0].generation, 2000);
/// assert_eq!(closings[1].cells, [40, 60]);
/// # Ok::<(), Box<dyn std::error::Error>>(())
/// ```
#[derive(Debug)]
pub struct Bank {
    // In order, one at least.
    seats: Vec<Seat>,
}

// SAFETY: a bank that is shared lends no seat.
unsafe impl Sync for Bank {}

/// Why a bank wasn't closed, and the bank.
#[derive(Debug)]
pub struct NotClosed {
    /// Why.
    pub fault: SeatFault,
    /// The bank, as it was.
    pub bank: Bank,
}

impl fmt::Display for NotClosed {
    fn fmt(&self, out: &mut fmt::Formatter<'_>) -> fmt::Result {
        self.fault.fmt(out)
    }
}

impl Error for NotClosed {}

impl Bank {
    /// Opens a bank of these tokens, numbered from 0, with so many seats.
    ///
    /// Refused with 39 for other than 1 to 8 seats, more than 64 tokens, or a token that passes a limit; with 40 where an
    /// opening row, with its record's length, breaks its law; with 32 for want of memory.
    pub fn open(tokens: &[Token], seats: u32) -> Result<Bank, SeatFault> {
        let mut handle = Handle {
            place: std::ptr::null_mut(),
        };
        done(unsafe { lwkt_bank_open(tokens.as_ptr(), tokens.len(), seats, &mut handle) })?;
        let whole = Arc::new(Whole::new(tokens.len(), seats as usize));
        let seat = |number| Seat {
            handle,
            number,
            whole: Arc::clone(&whole),
        };
        Ok(Bank {
            seats: (0..seats).map(seat).collect(),
        })
    }

    /// The seats, each to be lent to one thread.
    pub fn seats(&mut self) -> &mut [Seat] {
        &mut self.seats
    }

    /// A value that a token of this bank guards: see [`Guarded`].
    ///
    /// Refused with 16 where there is no such token.
    pub fn guard<T>(&self, token: u32, value: T) -> Result<Guarded<T>, SeatFault> {
        let Seat { handle, whole, .. } = &self.seats[0];
        if token as usize >= whole.tokens {
            return Err(SeatFault::NoToken);
        }
        Ok(Guarded::new(handle.place as usize, token, value))
    }

    /// The seats, each for one thread.
    pub fn into_seats(mut self) -> Vec<Seat> {
        std::mem::take(&mut self.seats)
    }

    /// The bank of these seats, if they are all of one, in any order.
    ///
    /// ```
    /// use lwkt::{Bank, RowLaw, Token};
    ///
    /// let mut seats = Bank::open(&[Token::new(&[1], RowLaw::Any, 0)], 2)?.into_seats();
    /// seats.reverse();
    /// let one = seats.pop().unwrap();
    /// let mut seats = Bank::of_seats(seats).unwrap_err();
    /// seats.push(one);
    /// let closings = Bank::of_seats(seats).unwrap().close()?;
    /// assert_eq!(closings[0].cells, [1]);
    /// # Ok::<(), Box<dyn std::error::Error>>(())
    /// ```
    pub fn of_seats(mut seats: Vec<Seat>) -> Result<Bank, Vec<Seat>> {
        let is_bank = seats.first().is_some_and(|first| {
            let place = first.handle.place;
            seats.len() == first.whole.seats && seats.iter().all(|seat| seat.handle.place == place)
        });
        if !is_bank {
            return Err(seats);
        }
        seats.sort_by_key(|seat| seat.number);
        Ok(Bank { seats })
    }

    /// Closes the bank, and answers what each token came to.
    ///
    /// Refused with 51 where a seat holds a token still, as one whose reference was forgotten.
    ///
    /// ```
    /// use lwkt::{Bank, RowLaw, SeatFault, Token};
    ///
    /// let note = Token::new(&[], RowLaw::Any, 0).with_record(b"abc");
    /// let mut bank = Bank::open(&[note], 1)?;
    /// let held = bank.seats()[0].take(0)?;
    /// held.write_record(b"hello")?;
    /// std::mem::forget(held);
    /// let refused = bank.close().unwrap_err();
    /// assert_eq!(refused.fault, SeatFault::SeatHolds);
    /// let mut bank = refused.bank;
    /// bank.seats()[0].block();
    /// let closings = bank.close()?;
    /// assert_eq!(closings[0].record.as_deref(), Some(&b"hello"[..]));
    /// # Ok::<(), Box<dyn std::error::Error>>(())
    /// ```
    pub fn close(mut self) -> Result<Vec<Closing>, NotClosed> {
        match self.end() {
            Ok(closings) => Ok(closings.iter().map(StoredClosing::closing).collect()),
            Err(fault) => Err(NotClosed { fault, bank: self }),
        }
    }

    // Closes the bank and frees it: then it has no seats.
    fn end(&mut self) -> Result<Vec<StoredClosing>, SeatFault> {
        let mut handle = self.seats[0].handle;
        let mut closings = vec![UNTOLD; self.seats[0].whole.tokens];
        done(unsafe { lwkt_bank_close(handle, closings.as_mut_ptr(), closings.len()) })?;
        self.seats.clear();
        // No seat is left that has the handle.
        unsafe { lwkt_bank_free(&mut handle) };
        Ok(closings)
    }
}

impl Drop for Bank {
    fn drop(&mut self) {
        for seat in &mut self.seats {
            seat.block();
        }
        if !self.seats.is_empty() {
            let _ = self.end();
        }
    }
}

/// A seat at a bank. It may go to another thread, and is used by one at a time.
pub struct Seat {
    handle: Handle,
    number: u32,
    whole: Arc<Whole>,
}

// SAFETY: a seat's calls are those of the library, which any thread may make. No `Sync`: threads that share a seat hold its tokens together.
unsafe impl Send for Seat {}

impl fmt::Debug for Seat {
    fn fmt(&self, out: &mut fmt::Formatter<'_>) -> fmt::Result {
        out.debug_struct("Seat").field("number", &self.number).finish()
    }
}

impl Seat {
    /// Takes a token exclusively, without waiting.
    ///
    /// ```
    /// use lwkt::{Bank, RowLaw, SeatFault, Token};
    ///
    /// let mut seats = Bank::open(&[Token::new(&[40, 60], RowLaw::Sum, 100)], 2)?.into_seats();
    /// let mut other = seats.pop().unwrap();
    /// let mut seat = seats.pop().unwrap();
    /// let held = seat.take(0)?;
    /// assert_eq!(other.take(0).unwrap_err(), SeatFault::Busy);
    /// held.store(0, 30)?;
    /// assert!(!held.is_lawful()?);
    /// held.store(1, 70)?;
    /// held.give()?;
    /// assert_eq!(other.share(0)?.load(1)?, 70);
    /// # Ok::<(), SeatFault>(())
    /// ```
    pub fn take(&self, token: u32) -> Result<Held<'_>, SeatFault> {
        done(unsafe { lwkt_take(self.handle, self.number, token) })?;
        Ok(Held { seat: self, token })
    }

    /// Takes a token exclusively and loads a cell, without waiting; faster than [`take`](Seat::take) and [`load`](Held::load).
    pub fn take_load(&self, token: u32, cell: u32) -> Result<(Held<'_>, u64), SeatFault> {
        let mut value = 0;
        done(unsafe { lwkt_take_load(self.handle, self.number, token, cell, &mut value) })?;
        Ok((Held { seat: self, token }, value))
    }

    /// Takes a token exclusively, and sleeps while another seat has it. Who comes first gets it, also before those that wait.
    pub fn take_waiting(&self, token: u32) -> Result<Held<'_>, SeatFault> {
        self.whole.wait(token, false, || unraced(|| self.take(token)))
    }

    /// Takes a token shared, and sleeps while another seat has it exclusively, or its mark holds the request off.
    pub fn share_waiting(&self, token: u32) -> Result<Held<'_>, SeatFault> {
        self.whole.wait(token, true, || unraced(|| self.share(token)))
    }

    /// Takes a token shared, without waiting.
    pub fn share(&self, token: u32) -> Result<Held<'_>, SeatFault> {
        done(unsafe { lwkt_share(self.handle, self.number, token) })?;
        Ok(Held { seat: self, token })
    }

    /// Takes a list of references in order, all or none, without waiting. They are given up together, when the answer is dropped.
    ///
    /// ```
    /// use lwkt::{Bank, Missed, Reference, RowLaw, SeatFault, Token};
    ///
    /// let tokens = [Token::new(&[1], RowLaw::Any, 0), Token::new(&[2], RowLaw::Any, 0)];
    /// let mut seats = Bank::open(&tokens, 2).unwrap().into_seats();
    /// let mut other = seats.pop().unwrap();
    /// let mut seat = seats.pop().unwrap();
    /// let list = [Reference::exclusive(1), Reference::shared(0)];
    /// let mut held = seat.resume(&list)?;
    /// assert_eq!(held.load(0, 0), Ok(1));
    /// held.store(1, 0, 3).unwrap();
    /// assert_eq!(other.resume(&list).unwrap_err(), Missed { place: 0, fault: SeatFault::Busy });
    /// assert_eq!(held.block(), None);
    /// assert_eq!(other.resume(&list)?.load(1, 0), Ok(3));
    /// # Ok::<(), Missed>(())
    /// ```
    pub fn resume(&mut self, list: &[Reference]) -> Result<Resumed<'_>, Missed> {
        self.hold(list)?;
        Ok(Resumed { seat: self })
    }

    /// The same, and sleeps while a token is missed. Nothing is held meanwhile, so lists don't wait for each other for ever.
    pub fn resume_waiting(&mut self, list: &[Reference]) -> Result<Resumed<'_>, Missed> {
        let mut held = self.hold(list);
        while let Err(Missed { place, fault }) = held {
            if !fault.is_busy() {
                return Err(Missed { place, fault });
            }
            let token = list[place].token;
            // It goes on when the list is held, or another token is missed.
            let waited = self.whole.wait(token, true, || match self.hold(list) {
                Err(missed) if missed.fault.is_busy() && list[missed.place].token == token => Err(SeatFault::Busy),
                answer => Ok(answer),
            });
            held = waited.unwrap_or(held);
        }
        Ok(Resumed { seat: self })
    }

    // Takes a list, which then is held.
    fn hold(&self, list: &[Reference]) -> Result<(), Missed> {
        let mut place = 0;
        let status = unsafe { lwkt_resume(self.handle, self.number, list.as_ptr(), list.len(), &mut place) };
        if matches!(status, 20 | 23 | 34) {
            // Those in front of the one that was missed were held for a while.
            list[..place].iter().for_each(|reference| self.whole.wake(reference.token));
        }
        done(status).map_err(|fault| Missed { place, fault })
    }

    /// Gives up all that the seat holds, as references that were forgotten; answers the first token whose row and record broke the law,
    /// if there is one: they are the first ones again.
    pub fn block(&mut self) -> Option<u32> {
        let mut restored = 0;
        let status = unsafe { lwkt_block(self.handle, self.number, &mut restored) };
        self.whole.wake_all();
        (status == 19).then_some(restored)
    }

    /// Marks a token for an exclusive request.
    pub fn mark(&self, token: u32) -> Result<(), SeatFault> {
        done(unsafe { lwkt_mark(self.handle, self.number, token) })
    }

    /// The address of its bank's, another one for each bank that is open.
    pub(crate) fn place(&self) -> usize {
        self.handle.place as usize
    }
}

/// A reference to a token, given back when it is dropped. A row that breaks its law, with its record, is then the section's first
/// one again, and so is the record. Several may live at once, and end in any order:
///
/// ```
/// use lwkt::{Bank, RowLaw, SeatFault, Token};
///
/// let tokens = [Token::new(&[1], RowLaw::Any, 0), Token::new(&[2], RowLaw::Any, 0)];
/// let mut bank = Bank::open(&tokens, 1)?;
/// let seat = &bank.seats()[0];
/// let outer = seat.take(0)?;
/// let inner = seat.take(1)?;
/// inner.store(0, outer.load(0)? + 6)?;
/// drop(outer);
/// assert_eq!(inner.load(0), Ok(7));
/// # Ok::<(), SeatFault>(())
/// ```
///
/// It stays with the thread that has the seat.
///
/// ```compile_fail
/// let mut bank = lwkt::Bank::open(&[lwkt::Token::new(&[1], lwkt::RowLaw::Any, 0)], 1).unwrap();
/// let held = bank.seats()[0].take(0).unwrap();
/// std::thread::scope(|scope| scope.spawn(|| held.load(0)));
/// ```
#[derive(Debug)]
pub struct Held<'a> {
    seat: &'a Seat,
    token: u32,
}

impl<'a> Held<'a> {
    /// The value of a cell.
    pub fn load(&self, cell: u32) -> Result<u64, SeatFault> {
        let mut value = 0;
        done(unsafe { lwkt_load(self.seat.handle, self.seat.number, self.token, cell, &mut value) })?;
        Ok(value)
    }

    /// Stores a value in a cell.
    pub fn store(&self, cell: u32, value: u64) -> Result<(), SeatFault> {
        done(unsafe { lwkt_store(self.seat.handle, self.seat.number, self.token, cell, value) })
    }

    /// Adds to the cell of a tally, and answers the new value.
    pub fn add(&self, amount: u64) -> Result<u64, SeatFault> {
        let mut value = 0;
        done(unsafe { lwkt_add(self.seat.handle, self.seat.number, self.token, amount, &mut value) })?;
        Ok(value)
    }

    /// The record.
    ///
    /// ```
    /// use lwkt::{Bank, RowLaw, SeatFault, Token};
    ///
    /// let mut seats = Bank::open(&[Token::new(&[3], RowLaw::Len, 0).with_record(b"abc")], 1)?.into_seats();
    /// let held = seats[0].take(0)?;
    /// held.write_record(b"hello")?;
    /// assert_eq!(held.read_record()?, b"hello");
    /// assert!(!held.is_lawful()?);
    /// held.store(0, 5)?;
    /// held.give()?;
    /// # Ok::<(), SeatFault>(())
    /// ```
    pub fn read_record(&self) -> Result<Vec<u8>, SeatFault> {
        let mut bytes = [0; RECORD_ROOM];
        let mut length = 0;
        let (handle, number) = (self.seat.handle, self.seat.number);
        done(unsafe { lwkt_read_record(handle, number, self.token, bytes.as_mut_ptr(), RECORD_ROOM, &mut length) })?;
        Ok(bytes[..length.min(RECORD_ROOM)].to_vec())
    }

    /// Writes the record.
    pub fn write_record(&self, bytes: &[u8]) -> Result<(), SeatFault> {
        let (handle, number) = (self.seat.handle, self.seat.number);
        done(unsafe { lwkt_write_record(handle, number, self.token, bytes.as_ptr(), bytes.len()) })
    }

    /// Whether row and record obey the law.
    pub fn is_lawful(&self) -> Result<bool, SeatFault> {
        match unsafe { lwkt_lawful(self.seat.handle, self.seat.number, self.token) } {
            19 => Ok(false),
            status => done(status).map(|()| true),
        }
    }

    /// Makes row and record the section's first ones again.
    pub fn restore(&self) -> Result<(), SeatFault> {
        done(unsafe { lwkt_restore(self.seat.handle, self.seat.number, self.token) })
    }

    /// Another reference to the same token.
    pub fn again(&self) -> Result<Held<'a>, SeatFault> {
        done(unsafe { lwkt_again(self.seat.handle, self.seat.number, self.token) })?;
        Ok(Held {
            seat: self.seat,
            token: self.token,
        })
    }

    /// A further token, taken exclusively while this one is held.
    pub fn take(&self, token: u32) -> Result<Held<'a>, SeatFault> {
        self.seat.take(token)
    }

    /// A further token, taken shared while this one is held.
    pub fn share(&self, token: u32) -> Result<Held<'a>, SeatFault> {
        self.seat.share(token)
    }

    /// Gives the reference back. Refused with 19 where row and record break the law: they are then the first ones again, and the
    /// reference is given back.
    pub fn give(self) -> Result<(), SeatFault> {
        let given = self.give_or_restore();
        std::mem::forget(self);
        given
    }

    /// Stores a value in a cell and gives the reference back, faster than [`store`](Held::store) and [`give`](Held::give). Where it is
    /// refused the reference is given back too; with 19 as there.
    pub fn store_give(self, cell: u32, value: u64) -> Result<(), SeatFault> {
        done(unsafe { lwkt_store_give(self.seat.handle, self.seat.number, self.token, cell, value) })?;
        let given = std::mem::ManuallyDrop::new(self);
        given.seat.whole.wake(given.token);
        Ok(())
    }

    fn give_or_restore(&self) -> Result<(), SeatFault> {
        let give = || done(unsafe { lwkt_give(self.seat.handle, self.seat.number, self.token) });
        let given = give();
        if given == Err(SeatFault::Broken) {
            self.restore()?;
            give()?;
        }
        self.seat.whole.wake(self.token);
        given
    }
}

/// A list of references that is held. All is given up when it is dropped; a row that breaks its law is then, with its record, the
/// section's first one again.
#[derive(Debug)]
pub struct Resumed<'a> {
    seat: &'a mut Seat,
}

impl Resumed<'_> {
    pub(crate) fn seat(&self) -> &Seat {
        self.seat
    }

    // A reference to a token of the list, which the list gives up.
    fn held<T>(&self, token: u32, call: impl FnOnce(&Held<'_>) -> T) -> T {
        call(&std::mem::ManuallyDrop::new(Held {
            seat: &*self.seat,
            token,
        }))
    }

    /// The value of a cell.
    pub fn load(&self, token: u32, cell: u32) -> Result<u64, SeatFault> {
        self.held(token, |held| held.load(cell))
    }

    /// Stores a value in a cell.
    pub fn store(&self, token: u32, cell: u32, value: u64) -> Result<(), SeatFault> {
        self.held(token, |held| held.store(cell, value))
    }

    /// Adds to the cell of a tally, and answers the new value.
    pub fn add(&self, token: u32, amount: u64) -> Result<u64, SeatFault> {
        self.held(token, |held| held.add(amount))
    }

    /// The record of a token.
    pub fn read_record(&self, token: u32) -> Result<Vec<u8>, SeatFault> {
        self.held(token, |held| held.read_record())
    }

    /// Writes the record of a token.
    pub fn write_record(&self, token: u32, bytes: &[u8]) -> Result<(), SeatFault> {
        self.held(token, |held| held.write_record(bytes))
    }

    /// Whether row and record of a token obey the law.
    pub fn is_lawful(&self, token: u32) -> Result<bool, SeatFault> {
        self.held(token, |held| held.is_lawful())
    }

    /// Gives up all; answers the first token whose row and record broke the law, if there is one: they are the first ones again.
    pub fn block(self) -> Option<u32> {
        let restored = self.seat.block();
        std::mem::forget(self);
        restored
    }
}

impl Drop for Resumed<'_> {
    fn drop(&mut self) {
        self.seat.block();
    }
}

impl Drop for Held<'_> {
    fn drop(&mut self) {
        let _ = self.give_or_restore();
    }
}
