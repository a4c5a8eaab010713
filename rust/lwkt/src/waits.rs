use crate::SeatFault;
use std::sync::atomic::{AtomicU32, AtomicUsize, Ordering::SeqCst};
use std::sync::{Condvar, Mutex, PoisonError};

/// What the seats of a bank share: how many tokens and seats there are, and who waits for which token.
pub(crate) struct Whole {
    pub(crate) tokens: usize,
    pub(crate) seats: usize,
    waiters: Vec<Waiters>,
}

impl Whole {
    pub(crate) fn new(tokens: usize, seats: usize) -> Whole {
        Whole {
            tokens,
            seats,
            waiters: (0..tokens).map(|_| Waiters::default()).collect(),
        }
    }

    /// Asks until the answer isn't that the token is busy, and sleeps in between. What there is no token of is asked once. `is_shared` says
    /// that the token is left to others too where the answer is good.
    pub(crate) fn wait<T>(
        &self,
        token: u32,
        is_shared: bool,
        mut ask: impl FnMut() -> Result<T, SeatFault>,
    ) -> Result<T, SeatFault> {
        match (ask(), self.waiters.get(token as usize)) {
            (Err(SeatFault::Busy), Some(waiters)) => waiters.wait(is_shared, ask),
            (answer, _) => answer,
        }
    }

    /// Wakes a thread that waits for the token, if there is one: a reference to it was given back.
    pub(crate) fn wake(&self, token: u32) {
        if let Some(waiters) = self.waiters.get(token as usize) {
            waiters.wake();
        }
    }

    /// The same for each token.
    pub(crate) fn wake_all(&self) {
        self.waiters.iter().for_each(Waiters::wake);
    }
}

// Those that wait for one token, as in include/lwkt_wait.h. A waiting thread counts itself, reads the turn, asks once more, and sleeps while
// the turn is what it read. Who gives a reference back looks behind that whether anybody is counted, and then makes the turn one more.
#[derive(Default)]
struct Waiters {
    turn: AtomicU32,
    count: AtomicUsize,
    sleep: Mutex<()>,
    woken: Condvar,
}

// Where another thread may come between; tests delay threads here.
fn step() {
    #[cfg(test)]
    tests::delay();
}

impl Waiters {
    fn wait<T>(&self, is_shared: bool, mut ask: impl FnMut() -> Result<T, SeatFault>) -> Result<T, SeatFault> {
        step();
        self.count.fetch_add(1, SeqCst);
        step();
        let answer = loop {
            let seen = self.turn.load(SeqCst);
            step();
            match ask() {
                Err(SeatFault::Busy) => self.sleep_while(seen),
                answer => break answer,
            }
        };
        step();
        self.count.fetch_sub(1, SeqCst);
        if is_shared || answer.is_err() {
            self.wake();
        }
        answer
    }

    fn sleep_while(&self, seen: u32) {
        step();
        let asleep = self.sleep.lock().unwrap_or_else(PoisonError::into_inner);
        let is_same = |(): &mut ()| {
            let seen_again = self.turn.load(SeqCst) == seen;
            step();
            seen_again
        };
        drop(self.woken.wait_while(asleep, is_same));
    }

    fn wake(&self) {
        step();
        if self.count.load(SeqCst) == 0 {
            return;
        }
        step();
        self.turn.fetch_add(1, SeqCst);
        step();
        // Who read the turn before is asleep by now, or will read it again.
        drop(self.sleep.lock().unwrap_or_else(PoisonError::into_inner));
        self.woken.notify_one();
    }
}

#[cfg(test)]
mod tests {
    use super::Whole;
    use crate::SeatFault;
    use std::cell::Cell;
    use std::sync::atomic::{AtomicU32, Ordering::SeqCst};
    use std::sync::{mpsc, Arc};
    use std::thread;
    use std::time::Duration;

    thread_local! {
        static BITS: Cell<u64> = const { Cell::new(0) };
    }

    fn chance(below: u64) -> u64 {
        BITS.with(|bits| {
            let next = bits.get().wrapping_mul(6_364_136_223_846_793_005);
            bits.set(next.wrapping_add(1_442_695_040_888_963_407));
            (bits.get() >> 33) % below
        })
    }

    pub(super) fn delay() {
        match chance(32) {
            0 => thread::sleep(Duration::from_micros(20)),
            1..=7 => thread::yield_now(),
            _ => {}
        }
    }

    const GAMES: u64 = 500;
    const ROUNDS: u32 = 2;
    const EXCLUSIVE: u32 = 1 << 16;

    // Takes a token of one word: refused where it is held; and of those that have waited some where it isn't, as at the last generation.
    fn ask(word: &AtomicU32, is_shared: bool, has_waited: bool) -> Result<(), SeatFault> {
        let next = |held| match is_shared {
            true if held < EXCLUSIVE => Some(held + 1),
            false if held == 0 => Some(EXCLUSIVE),
            _ => None,
        };
        if has_waited && next(word.load(SeqCst)).is_some() && chance(2) == 0 {
            return Err(SeatFault::Worn);
        }
        word.fetch_update(SeqCst, SeqCst, next).map(drop).map_err(|_| SeatFault::Busy)
    }

    fn take_turns(whole: &Whole, word: &AtomicU32, seed: u64, with_shared: bool) {
        BITS.with(|bits| bits.set(seed));
        for _ in 0..ROUNDS {
            let is_shared = with_shared && chance(2) == 0;
            let mut asked = 0;
            let taken = whole.wait(0, is_shared, || {
                asked += 1;
                ask(word, is_shared, asked > 1)
            });
            delay();
            if taken.is_ok() {
                word.fetch_sub(if is_shared { 1 } else { EXCLUSIVE }, SeqCst);
                whole.wake(0);
            }
        }
    }

    // All of the threads have to come to an end: nobody is there to wake one that sleeps when all others have.
    fn all_wake(game: u64, with_shared: bool) {
        let (whole, word) = (Arc::new(Whole::new(1, 4)), Arc::new(AtomicU32::new(0)));
        let (ended, ends) = mpsc::channel();
        for seed in 0..4 {
            let (whole, word, ended) = (Arc::clone(&whole), Arc::clone(&word), ended.clone());
            thread::spawn(move || {
                take_turns(&whole, &word, 4 * game + seed, with_shared);
                ended.send(()).unwrap();
            });
        }
        for _ in 0..4 {
            ends.recv_timeout(Duration::from_secs(60)).expect("a thread sleeps for ever");
        }
        assert_eq!(word.load(SeqCst), 0);
    }

    #[test]
    fn no_wake_up_is_lost() {
        (0..GAMES).for_each(|game| all_wake(game, false));
    }

    #[test]
    fn no_wake_up_is_lost_by_those_that_share() {
        (0..GAMES).for_each(|game| all_wake(game, true));
    }
}
