use crate::{Held, Resumed, Seat, SeatFault};
use std::cell::UnsafeCell;
use std::fmt;
use std::ops::{Deref, DerefMut};
use std::sync::atomic::{AtomicIsize, Ordering::Relaxed};

/// A value that a token of a bank guards, beside the token's own cells: who holds the token reads it, and changes it if alone.
///
/// ```
/// use lwkt::{Bank, RowLaw, Token};
/// use std::thread;
///
/// let mut bank = Bank::open(&[Token::new(&[], RowLaw::Any, 0)], 2)?;
/// let words = bank.guard(0, Vec::new())?;
/// thread::scope(|scope| {
///     for seat in bank.seats() {
///         let words = &words;
///         scope.spawn(move || seat.lock_waiting(words).unwrap().push("said"));
///     }
/// });
/// bank.close()?;
/// assert_eq!(words.into_inner(), ["said", "said"]);
/// # Ok::<(), Box<dyn std::error::Error + Send + Sync>>(())
/// ```
pub struct Guarded<T> {
    place: usize,
    token: u32,
    // How many guards read the value; or -1 while one changes it. Only holders of the token look, so that of one seat's guards it decides,
    // and of different seats' the token has decided.
    guards: AtomicIsize,
    value: UnsafeCell<T>,
}

// SAFETY: a value that is shared goes to the holders of its token: to one thread after another, or to several that read it.
unsafe impl<T: Send + Sync> Sync for Guarded<T> {}

impl<T: fmt::Debug> fmt::Debug for Guarded<T> {
    fn fmt(&self, out: &mut fmt::Formatter<'_>) -> fmt::Result {
        out.debug_struct("Guarded")
            .field("token", &self.token)
            .finish_non_exhaustive()
    }
}

impl<T> Guarded<T> {
    pub(crate) fn new(place: usize, token: u32, value: T) -> Guarded<T> {
        Guarded {
            place,
            token,
            guards: AtomicIsize::new(0),
            value: UnsafeCell::new(value),
        }
    }

    /// The value, of who has it alone.
    pub fn get_mut(&mut self) -> &mut T {
        self.value.get_mut()
    }

    /// The value.
    pub fn into_inner(self) -> T {
        self.value.into_inner()
    }

    // Counts a guard that reads or one that changes, of a holder: refused where the seat has one that excludes it.
    fn count(&self, from: impl Fn(isize) -> bool, by: isize) -> Result<(), SeatFault> {
        let counted = self
            .guards
            .fetch_update(Relaxed, Relaxed, |guards| from(guards).then_some(guards + by));
        counted.map(drop).map_err(|_| SeatFault::Guarded)
    }
}

/// A guarded value that may be changed. Its token is held exclusively until the guard is dropped.
#[derive(Debug)]
pub struct Guard<'a, T> {
    value: &'a Guarded<T>,
    held: Held<'a>,
}

/// A guarded value that may be read. Its token is held until the guard is dropped.
#[derive(Debug)]
pub struct ReadGuard<'a, T> {
    value: &'a Guarded<T>,
    held: Held<'a>,
}

impl<'a, T> Guard<'a, T> {
    /// The reference to the token, with its cells and its record.
    pub fn held(&self) -> &Held<'a> {
        &self.held
    }
}

impl<'a, T> ReadGuard<'a, T> {
    /// The reference to the token, with its cells.
    pub fn held(&self) -> &Held<'a> {
        &self.held
    }
}

impl<T> Deref for Guard<'_, T> {
    type Target = T;

    fn deref(&self) -> &T {
        // SAFETY: the token is held exclusively, and the seat has no other guard of the value.
        unsafe { &*self.value.value.get() }
    }
}

impl<T> DerefMut for Guard<'_, T> {
    fn deref_mut(&mut self) -> &mut T {
        // SAFETY: as in `deref`.
        unsafe { &mut *self.value.value.get() }
    }
}

impl<T> Deref for ReadGuard<'_, T> {
    type Target = T;

    fn deref(&self) -> &T {
        // SAFETY: the token is held, and no guard that changes the value is there.
        unsafe { &*self.value.value.get() }
    }
}

// The count goes back before the token does, which a field's drop gives back.
impl<T> Drop for Guard<'_, T> {
    fn drop(&mut self) {
        self.value.guards.store(0, Relaxed);
    }
}

impl<T> Drop for ReadGuard<'_, T> {
    fn drop(&mut self) {
        self.value.guards.fetch_sub(1, Relaxed);
    }
}

// The guard of a reference that was got.
fn locked<'a, T>(value: &'a Guarded<T>, held: Held<'a>) -> Result<Guard<'a, T>, SeatFault> {
    value.count(|guards| guards == 0, -1)?;
    Ok(Guard { value, held })
}

fn read<'a, T>(value: &'a Guarded<T>, held: Held<'a>) -> Result<ReadGuard<'a, T>, SeatFault> {
    value.count(|guards| guards >= 0, 1)?;
    Ok(ReadGuard { value, held })
}

// The token of a value, if that is of the bank at this place.
fn token_of<T>(place: usize, value: &Guarded<T>) -> Result<u32, SeatFault> {
    if value.place == place {
        Ok(value.token)
    } else {
        Err(SeatFault::OtherBank)
    }
}

/// Values that tokens guard. Refused as the call on the token is; where the value is of another bank; and where a guard of this seat's
/// has it already, unless both read.
impl Seat {
    /// Takes a value's token exclusively, without waiting, and answers a guard that may change the value.
    ///
    /// An outer guard can be read while an inner one lives, and they end in any order:
    ///
    /// ```
    /// use lwkt::{Bank, RowLaw, SeatFault, Token};
    ///
    /// let tokens = [Token::new(&[], RowLaw::Any, 0); 2];
    /// let mut bank = Bank::open(&tokens, 2)?;
    /// let (from, to) = (bank.guard(0, 10)?, bank.guard(1, 0)?);
    /// let [seat, other] = bank.seats() else { panic!() };
    /// let mut outer = seat.lock(&from)?;
    /// let mut inner = seat.lock(&to)?;
    /// *inner += *outer;
    /// *outer = 0;
    /// assert_eq!(seat.read(&from).unwrap_err(), SeatFault::Guarded);
    /// assert_eq!(other.lock(&to).unwrap_err(), SeatFault::Busy);
    /// drop(outer);
    /// drop(inner);
    /// assert_eq!(*other.read(&to)?, 10);
    /// # Ok::<(), SeatFault>(())
    /// ```
    pub fn lock<'a, T>(&'a self, value: &'a Guarded<T>) -> Result<Guard<'a, T>, SeatFault> {
        locked(value, self.take(token_of(self.place(), value)?)?)
    }

    /// The same, sleeping while another seat has the token.
    pub fn lock_waiting<'a, T>(&'a self, value: &'a Guarded<T>) -> Result<Guard<'a, T>, SeatFault> {
        locked(value, self.take_waiting(token_of(self.place(), value)?)?)
    }

    /// Takes a value's token shared, sleeping while another seat has it exclusively, and answers a guard that reads the value.
    pub fn read_waiting<'a, T>(&'a self, value: &'a Guarded<T>) -> Result<ReadGuard<'a, T>, SeatFault> {
        read(value, self.share_waiting(token_of(self.place(), value)?)?)
    }

    /// Takes a value's token shared, without waiting, and answers a guard that reads the value.
    pub fn read<'a, T>(&'a self, value: &'a Guarded<T>) -> Result<ReadGuard<'a, T>, SeatFault> {
        read(value, self.share(token_of(self.place(), value)?)?)
    }
}

/// Values that tokens of the list guard, as those of a seat.
impl Resumed<'_> {
    /// A guard that may change a value whose token is held exclusively.
    ///
    /// ```
    /// use lwkt::{Bank, Reference, RowLaw, Token};
    ///
    /// let tokens = [Token::new(&[], RowLaw::Any, 0); 2];
    /// let mut bank = Bank::open(&tokens, 1)?;
    /// let (from, to) = (bank.guard(0, 10)?, bank.guard(1, 0)?);
    /// let list = bank.seats()[0].resume(&[Reference::shared(0), Reference::exclusive(1)])?;
    /// *list.lock(&to)? = *list.read(&from)?;
    /// assert!(list.lock(&from).is_err());
    /// drop(list);
    /// assert_eq!(to.into_inner(), 10);
    /// # Ok::<(), Box<dyn std::error::Error>>(())
    /// ```
    pub fn lock<'a, T>(&'a self, value: &'a Guarded<T>) -> Result<Guard<'a, T>, SeatFault> {
        self.seat().lock(value)
    }

    /// A guard that reads a value.
    pub fn read<'a, T>(&'a self, value: &'a Guarded<T>) -> Result<ReadGuard<'a, T>, SeatFault> {
        self.seat().read(value)
    }
}
