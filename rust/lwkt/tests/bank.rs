//! Banks of tokens: sections of four threads, and what each call refuses.
use lwkt::{Bank, Closing, Held, Missed, Reference, RowLaw, Seat, SeatFault, Token};
use std::sync::mpsc;
use std::thread;
use std::time::Duration;

const ROUNDS: u64 = 100_000;
const TALLY: u32 = 0;
const SUM: u32 = 1;
const ANY: u32 = 2;
const ORDER: u32 = 3;
const LEN: u32 = 4;
const NOTE: u32 = 5;
const TOKENS: u32 = 6;

fn tokens() -> [Token; 6] {
    [
        Token::new(&[5], RowLaw::Tally, 5),
        Token::new(&[400_000, 600_000], RowLaw::Sum, 1_000_000),
        Token::new(&[0], RowLaw::Any, 0),
        Token::new(&[1, 2], RowLaw::Order, 0),
        Token::new(&[3], RowLaw::Len, 0).with_record(b"aaa"),
        Token::new(&[], RowLaw::Any, 0).with_record(b"abc"),
    ]
}

fn seats() -> Vec<Seat> {
    Bank::open(&tokens(), 4).unwrap().into_seats()
}

fn refused<T>(answer: Result<T, SeatFault>) -> u32 {
    answer.err().map_or(0, SeatFault::number)
}

// Writes the record of the token of lengths anew, all of one letter, and its length into the cell.
fn rewrite(seat: &mut Seat, letter: u8) -> Result<(), SeatFault> {
    let held = seat.take_waiting(LEN)?;
    let record = held.read_record()?;
    assert_eq!(held.load(0)?, record.len() as u64);
    assert!(record.iter().all(|byte| *byte == record[0]));
    let length = (record.len() + 7) % 65;
    held.write_record(&[letter; 64][..length])?;
    assert!(!held.is_lawful()?);
    held.store(0, length as u64)?;
    held.give()
}

// Adds one in each section, and in some of them moves one from cell to cell of the token of sums and writes a record.
fn work(seat: &mut Seat, letter: u8) -> Result<(), SeatFault> {
    for round in 0..ROUNDS {
        seat.take_waiting(TALLY)?.add(1)?;
        if round % 100 == 0 {
            let held = seat.take_waiting(SUM)?;
            let (first, second) = (held.load(0)?, held.load(1)?);
            assert_eq!(first + second, 1_000_000);
            held.store(0, first - 1)?;
            assert!(!held.is_lawful()?);
            held.store(1, second + 1)?;
            held.give()?;
            rewrite(seat, letter)?;
        }
    }
    Ok(())
}

#[test]
fn sections_of_four_threads_add_up() {
    let mut seats = seats();
    thread::scope(|scope| {
        for (seat, letter) in seats.iter_mut().zip(b'a'..) {
            scope.spawn(move || work(seat, letter).unwrap());
        }
    });
    let seat = &mut seats[0];
    assert_eq!(seat.share(TALLY).unwrap().load(0), Ok(5 + 4 * ROUNDS));
    let held = seat.share(SUM).unwrap();
    assert_eq!(held.load(0), Ok(400_000 - 4 * ROUNDS / 100));
    assert_eq!(held.load(1), Ok(600_000 + 4 * ROUNDS / 100));
}

#[test]
fn what_is_not_there_is_refused() {
    let mut seats = seats();
    let seat = &mut seats[0];
    assert_eq!(refused(seat.take(TOKENS)), 16);
    assert_eq!(refused(seat.take_waiting(u32::MAX)), 16);
    assert_eq!(refused(seat.share(TOKENS)), 16);
    assert_eq!(refused(seat.mark(TOKENS)), 16);
    assert_eq!(refused(seat.take_load(TOKENS, 0)), 16);
    assert_eq!(refused(seat.take_load(ANY, 1)), 17);
    assert_eq!(refused(seat.take(ANY).unwrap().store_give(1, 1)), 17);
    let held = seat.take(ANY).unwrap();
    assert_eq!(refused(held.load(1)), 17);
    assert_eq!(refused(held.store(256, 1)), 17);
    assert_eq!(refused(held.read_record()), 17);
    assert_eq!(refused(held.write_record(b"b")), 17);
    assert_eq!(refused(held.take(256)), 16);
}

#[test]
fn what_the_holding_forbids_is_refused() {
    let mut seats = seats();
    let other = seats.pop().unwrap();
    let seat = &mut seats[0];
    let held = seat.share(ANY).unwrap();
    assert_eq!(refused(held.take(ANY)), 11);
    assert_eq!(refused(held.store(0, 1)), 18);
    assert_eq!(refused(held.add(1)), 18);
    assert_eq!(refused(held.is_lawful()), 18);
    assert_eq!(refused(held.restore()), 18);
    assert_eq!(refused(other.take(ANY)), 23);
    assert_eq!(refused(other.take_load(ANY, 0)), 23);
    assert_eq!(refused(held.store_give(0, 1)), 18);
    let (held, value) = seat.take_load(ANY, 0).unwrap();
    held.store_give(0, value + 8).unwrap();
    assert_eq!(other.take_load(ANY, 0).unwrap().1, 8);
    assert_eq!(refused(seat.take(ANY).unwrap().add(1)), 22);
    let tally = seat.take(TALLY).unwrap();
    assert_eq!(refused(tally.store(0, 1)), 22);
    assert_eq!(refused(tally.add(u64::MAX)), 21);
    assert_eq!(tally.load(0), Ok(5));
}

#[test]
fn a_mark_holds_off_who_has_nothing() {
    let mut seats = seats();
    let other = seats.pop().unwrap();
    let seat = &mut seats[0];
    let held = seat.share(ANY).unwrap();
    other.mark(ANY).unwrap();
    assert_eq!(refused(other.share(ANY)), 23);
    held.give().unwrap();
    other.take(ANY).unwrap().give().unwrap();
    assert_eq!(refused(seat.share(ANY)), 0);
}

// References on references, as many as these; then the fault of one more.
fn nest(held: &mut Held<'_>, further: u32) -> u32 {
    match held.again() {
        Ok(mut next) => nest(&mut next, further + 1),
        Err(fault) => {
            assert_eq!(further, 31);
            fault.number()
        }
    }
}

#[test]
fn references_end_with_their_guards() {
    let mut seats = seats();
    let other = seats.pop().unwrap();
    assert_eq!(nest(&mut seats[0].take(ANY).unwrap(), 0), 10);
    assert_eq!(refused(other.take(ANY)), 0);
}

#[test]
fn a_row_that_breaks_its_law_is_the_first_row_again() {
    let mut seats = seats();
    let seat = &mut seats[0];
    let held = seat.take(ORDER).unwrap();
    held.store(0, 9).unwrap();
    assert_eq!(refused(held.give()), 19);
    assert_eq!(refused(seat.take_load(ORDER, 0).unwrap().0.store_give(0, 9)), 19);
    seat.take(ORDER).unwrap().store(0, 9).unwrap();
    assert_eq!(seat.share(ORDER).unwrap().load(0), Ok(1));
    let held = seat.take(ORDER).unwrap();
    held.store(0, 9).unwrap();
    held.restore().unwrap();
    assert_eq!(held.is_lawful(), Ok(true));
}

#[test]
fn a_record_is_read_and_written() {
    let mut seats = seats();
    let other = seats.pop().unwrap();
    let seat = &mut seats[0];
    let held = seat.take(NOTE).unwrap();
    held.write_record(b"hello").unwrap();
    assert_eq!(held.read_record(), Ok(b"hello".to_vec()));
    held.restore().unwrap();
    assert_eq!(held.read_record(), Ok(b"abc".to_vec()));
    held.write_record(&[7; 64]).unwrap();
    assert_eq!(refused(held.write_record(&[7; 65])), 38);
    held.give().unwrap();
    assert_eq!(other.take(NOTE).unwrap().read_record(), Ok(vec![7; 64]));
    let held = other.share(NOTE).unwrap();
    assert_eq!(refused(held.read_record()), 37);
    assert_eq!(refused(held.write_record(&[7; 65])), 37);
}

#[test]
fn a_record_of_another_length_is_the_first_one_again() {
    let mut seats = seats();
    let seat = &mut seats[0];
    let held = seat.take(LEN).unwrap();
    held.write_record(b"hello").unwrap();
    assert_eq!(held.is_lawful(), Ok(false));
    assert_eq!(refused(held.give()), 19);
    let held = seat.take(LEN).unwrap();
    assert_eq!(held.read_record(), Ok(b"aaa".to_vec()));
    held.write_record(b"").unwrap();
    held.store(0, 0).unwrap();
    held.give().unwrap();
    assert_eq!(seat.take(LEN).unwrap().read_record(), Ok(Vec::new()));
}

fn missed(place: usize, fault: u32) -> Option<Missed> {
    Some(Missed {
        place,
        fault: SeatFault::of_number(fault),
    })
}

#[test]
fn a_list_is_taken_all_or_none() {
    let mut seats = seats();
    let mut other = seats.pop().unwrap();
    let seat = &mut seats[0];
    let list = [Reference::shared(ANY), Reference::exclusive(SUM)];
    let blocker = other.take(SUM).unwrap();
    assert_eq!(seat.resume(&list).err(), missed(1, 23));
    blocker.give().unwrap();
    let held = seat.resume(&list).unwrap();
    assert_eq!(held.load(ANY, 0), Ok(0));
    assert_eq!(other.resume(&list).err(), missed(1, 23));
    held.store(SUM, 0, 1).unwrap();
    assert_eq!(held.is_lawful(SUM), Ok(false));
    assert_eq!(held.block(), Some(SUM));
    let held = other.resume(&list).unwrap();
    assert_eq!(held.load(SUM, 0), Ok(400_000));
    assert_eq!(held.block(), None);
}

#[test]
fn what_is_no_list_is_refused() {
    let mut seats = seats();
    let seat = &mut seats[0];
    let shared = Reference::shared(ANY);
    assert_eq!(seat.resume(&[shared, Reference::shared(TOKENS)]).err(), missed(1, 16));
    assert_eq!(seat.resume(&[shared, Reference::exclusive(ANY)]).err(), missed(1, 11));
    assert_eq!(
        seat.resume(&[shared, Reference::exclusive(ANY), Reference::shared(TOKENS)])
            .err(),
        missed(1, 11)
    );
    assert_eq!(seat.resume(&[shared; 33]).err(), missed(32, 10));
    assert_eq!(seat.resume(&[shared; 32]).unwrap().block(), None);
    assert_eq!(seat.resume(&[]).unwrap().block(), None);
}

// Adds to two tokens, which it takes together.
fn work_on_list(seat: &mut Seat, list: [Reference; 2]) {
    for _ in 0..ROUNDS / 100 {
        let held = loop {
            match seat.resume(&list) {
                Ok(held) => break held,
                Err(missed) if missed.fault.is_busy() => thread::yield_now(),
                Err(missed) => panic!("{missed}"),
            }
        };
        let value = held.load(ANY, 0).unwrap();
        held.store(ANY, 0, value + 1).unwrap();
        held.add(TALLY, 1).unwrap();
        assert_eq!(held.block(), None);
    }
}

#[test]
fn lists_of_four_threads_add_up() {
    let mut seats = seats();
    let list = [Reference::exclusive(ANY), Reference::exclusive(TALLY)];
    thread::scope(|scope| {
        for (number, seat) in seats.iter_mut().enumerate() {
            let list = if number % 2 == 0 { list } else { [list[1], list[0]] };
            scope.spawn(move || work_on_list(seat, list));
        }
    });
    let held = seats[0].resume(&list).unwrap();
    assert_eq!(held.load(ANY, 0), Ok(4 * ROUNDS / 100));
    assert_eq!(held.load(TALLY, 0), Ok(5 + 4 * ROUNDS / 100));
}

#[test]
fn openings_keep_the_limits_of_records() {
    let bare = Token::new(&[1], RowLaw::Any, 0);
    assert_eq!(refused(Bank::open(&[bare.with_record(&[0; 64])], 1)), 0);
    assert_eq!(refused(Bank::open(&[bare.with_record(&[0; 65])], 1)), 39);
    assert_eq!(refused(Bank::open(&[Token::new(&[1], RowLaw::Len, 0)], 1)), 39);
    assert_eq!(
        refused(Bank::open(&[Token::new(&[], RowLaw::Len, 0).with_record(b"")], 1)),
        39
    );
    assert_eq!(
        refused(Bank::open(&[Token::new(&[1], RowLaw::Tally, 1).with_record(b"a")], 1)),
        39
    );
    assert_eq!(
        refused(Bank::open(&[Token::new(&[4], RowLaw::Len, 0).with_record(b"abc")], 1)),
        40
    );
}

#[test]
fn openings_keep_the_limits() {
    let good = Token::new(&[1], RowLaw::Any, 0);
    assert_eq!(refused(Bank::open(&[good], 0)), 39);
    assert_eq!(refused(Bank::open(&[good], 9)), 39);
    assert_eq!(refused(Bank::open(&[good; 65], 1)), 39);
    assert_eq!(refused(Bank::open(&[Token::new(&[0; 5], RowLaw::Any, 0)], 1)), 39);
    assert_eq!(refused(Bank::open(&[Token::new(&[0; 2], RowLaw::Tally, 0)], 1)), 39);
    assert_eq!(refused(Bank::open(&[Token::new(&[5, 6], RowLaw::Sum, 10)], 1)), 40);
    assert_eq!(Bank::open(&[], 8).unwrap().into_seats().len(), 8);
}

fn closing(cells: &[u64], generation: u64, record: Option<&[u8]>) -> Closing {
    Closing {
        cells: cells.to_vec(),
        generation,
        tallies: Vec::new(),
        record: record.map(<[u8]>::to_vec),
    }
}

#[test]
fn a_bank_closes_with_what_its_tokens_came_to() {
    let mut bank = Bank::open(&tokens(), 4).unwrap();
    thread::scope(|scope| {
        for (seat, letter) in bank.seats().iter_mut().zip(b'a'..) {
            scope.spawn(move || work(seat, letter).unwrap());
        }
    });
    let held = bank.seats()[2].take(NOTE).unwrap();
    held.write_record(&[7; 64]).unwrap();
    held.give().unwrap();
    let closings = bank.close().unwrap();
    assert_eq!(closings.len(), TOKENS as usize);
    let tally = &closings[TALLY as usize];
    assert_eq!((&tally.cells[..], tally.generation), (&[5 + 4 * ROUNDS][..], 4 * ROUNDS));
    assert_eq!(tally.tallies, [ROUNDS; 4]);
    let moved = 4 * ROUNDS / 100;
    assert_eq!(
        closings[SUM as usize],
        closing(&[400_000 - moved, 600_000 + moved], moved, None)
    );
    assert_eq!(closings[ANY as usize], closing(&[0], 0, None));
    assert_eq!(closings[ORDER as usize], closing(&[1, 2], 0, None));
    let len = &closings[LEN as usize];
    assert_eq!(
        (len.generation, len.record.as_ref().unwrap().len() as u64),
        (moved, len.cells[0])
    );
    assert_eq!(closings[NOTE as usize], closing(&[], 1, Some(&[7; 64])));
}

#[test]
fn a_bank_with_a_forgotten_reference_is_not_closed() {
    let mut bank = Bank::open(&tokens(), 2).unwrap();
    std::mem::forget(bank.seats()[1].take(SUM).unwrap());
    let refused = bank.close().unwrap_err();
    assert_eq!(refused.fault, SeatFault::SeatHolds);
    assert_eq!(refused.to_string(), "a token is held");
    let mut bank = refused.bank;
    std::mem::forget(bank.seats()[1].take(SUM).unwrap());
    assert_eq!(bank.seats()[1].block(), None);
    assert_eq!(bank.seats()[1].block(), None);
    assert_eq!(bank.close().unwrap().len(), TOKENS as usize);
}

// What is lost would be found by a look at the memory of this test's program.
#[test]
fn a_bank_that_is_dropped_gives_up_what_its_seats_hold() {
    let mut bank = Bank::open(&tokens(), 2).unwrap();
    std::mem::forget(bank.seats()[1].take(SUM).unwrap());
    drop(bank);
    let bank = Bank::open(&tokens(), 2).unwrap();
    drop(Bank::of_seats(bank.into_seats()).unwrap());
}

#[test]
fn seats_are_one_bank_again() {
    let mut seats = seats();
    let mut other = self::seats();
    seats.rotate_left(1);
    let last = seats.pop().unwrap();
    let mut seats = Bank::of_seats(seats).unwrap_err();
    assert_eq!(seats.len(), 3);
    seats.push(other.pop().unwrap());
    let mut seats = Bank::of_seats(seats).unwrap_err();
    other.push(seats.pop().unwrap());
    seats.push(last);
    assert_eq!(
        Bank::of_seats(seats).unwrap().close().unwrap()[SUM as usize],
        closing(&[400_000, 600_000], 0, None)
    );
    assert!(Bank::of_seats(Vec::new()).is_err());
    assert!(Bank::of_seats(other).unwrap().close().is_ok());
}

// Runs a bank to its close, as a program does whose errors go to other threads.
fn run_to_close() -> Result<usize, Box<dyn std::error::Error + Send + Sync>> {
    let mut bank = Bank::open(&tokens(), 1)?;
    bank.seats()[0].take(ANY)?.store(0, 1)?;
    bank.seats()[0].resume(&[Reference::shared(ANY)])?.block();
    Ok(bank.close()?.len())
}

#[test]
fn errors_are_boxed_for_other_threads() {
    assert_eq!(run_to_close().unwrap(), TOKENS as usize);
}

#[test]
fn a_fault_has_the_number_that_it_was_made_of() {
    for number in 0..100 {
        assert_eq!(SeatFault::of_number(number).number(), number);
    }
    assert_eq!(SeatFault::of_number(34), SeatFault::Race);
    assert_eq!(SeatFault::of_number(99).to_string(), "fault 99");
}

#[test]
fn values_are_guarded_by_their_tokens() {
    let mut bank = Bank::open(&tokens(), 4).unwrap();
    let log = bank.guard(ANY, Vec::new()).unwrap();
    let sums = bank.guard(ANY, (0, 0)).unwrap();
    assert_eq!(refused(bank.guard(TOKENS, ())), 16);
    thread::scope(|scope| {
        for (seat, number) in bank.seats().iter_mut().zip(0u64..) {
            let (log, sums) = (&log, &sums);
            scope.spawn(move || {
                for round in 0..ROUNDS / 100 {
                    let mut log = seat.lock_waiting(log).unwrap();
                    let mut sums = seat.lock(sums).unwrap();
                    assert_eq!(log.len() as u64, sums.0);
                    *sums = (sums.0 + 1, sums.1 + round);
                    drop(sums);
                    log.push(number);
                }
            });
        }
    });
    let mut log = log.into_inner();
    log.sort();
    assert_eq!(log, (0..4).flat_map(|number| vec![number; 1000]).collect::<Vec<u64>>());
    assert_eq!(sums.into_inner(), (4000, 4 * 999 * 500));
    bank.close().unwrap();
}

#[test]
fn one_guard_has_a_value_or_many_read_it() {
    let mut bank = Bank::open(&tokens(), 2).unwrap();
    let value = bank.guard(ANY, 7).unwrap();
    let [seat, other] = bank.seats() else { panic!() };
    let first = seat.read(&value).unwrap();
    let second = seat.read(&value).unwrap();
    assert_eq!((*first, *second, *other.read(&value).unwrap()), (7, 7, 7));
    assert_eq!(refused(seat.lock(&value)), 11);
    assert_eq!(refused(other.lock(&value)), 23);
    drop((first, second));
    let held = seat.take(ANY).unwrap();
    let first = seat.read(&value).unwrap();
    assert_eq!(refused(seat.lock(&value)), 102);
    drop(first);
    let mut alone = seat.lock(&value).unwrap();
    *alone += 1;
    held.give().unwrap();
    assert_eq!(refused(seat.lock(&value)), 102);
    assert_eq!(refused(seat.read(&value)), 102);
    assert_eq!(refused(other.read(&value)), 23);
    std::mem::forget(alone);
    seat.block();
    assert_eq!(refused(other.lock(&value)), 102);
    assert_eq!(value.into_inner(), 8);
}

#[test]
fn a_value_of_another_bank_is_refused() {
    let mut bank = Bank::open(&tokens(), 1).unwrap();
    let other = Bank::open(&tokens(), 1).unwrap();
    let value = other.guard(ANY, 7).unwrap();
    let seat = &mut bank.seats()[0];
    assert_eq!(refused(seat.lock(&value)), 101);
    assert_eq!(refused(seat.lock_waiting(&value)), 101);
    assert_eq!(refused(seat.read(&value)), 101);
    assert_eq!(refused(seat.resume(&[]).unwrap().lock(&value)), 101);
}

#[test]
fn a_section_with_a_guard_keeps_the_law() {
    let mut bank = Bank::open(&tokens(), 1).unwrap();
    let value = bank.guard(SUM, 7).unwrap();
    let seat = &mut bank.seats()[0];
    let guard = seat.lock(&value).unwrap();
    guard.held().store(0, 9).unwrap();
    assert_eq!(guard.held().is_lawful(), Ok(false));
    drop(guard);
    assert_eq!(seat.share(SUM).unwrap().load(0), Ok(400_000));
}

#[test]
fn errors_go_anywhere() {
    fn goes<T: std::error::Error + Send + Sync + 'static>() {}
    goes::<SeatFault>();
    goes::<Missed>();
    goes::<lwkt::NotClosed>();
    goes::<lwkt::Refusal>();
    goes::<lwkt::StepFault>();
    fn closed() -> Result<Vec<Closing>, Box<dyn std::error::Error + Send + Sync>> {
        Ok(Bank::open(&tokens(), 1)?.close()?)
    }
    assert_eq!(closed().unwrap().len(), TOKENS as usize);
}

// Whether a thread that waits for a token is woken by what the call does once the thread waits.
fn wakes(gives: fn(&mut Seat, &mut dyn FnMut())) {
    let mut seats = seats();
    let (ended, ends) = mpsc::channel();
    let mut waiting = Some((seats.pop().unwrap(), ended));
    gives(&mut seats[0], &mut || {
        let (seat, ended) = waiting.take().unwrap();
        thread::spawn(move || {
            drop(seat.take_waiting(ANY).unwrap());
            ended.send(()).unwrap();
        });
        thread::sleep(Duration::from_millis(30));
    });
    ends.recv_timeout(Duration::from_secs(60)).expect("a thread sleeps for ever");
}

#[test]
fn who_gives_back_wakes_who_waits() {
    wakes(|seat, wait| {
        let _held = seat.take(ANY).unwrap();
        wait();
    });
    wakes(|seat, wait| {
        let held = seat.share(ANY).unwrap();
        wait();
        held.give().unwrap();
    });
    wakes(|seat, wait| {
        let held = seat.take(ORDER).unwrap();
        let inner = held.take(ANY).unwrap();
        wait();
        std::mem::forget(inner);
        drop(held);
        assert_eq!(seat.block(), None);
    });
    wakes(|seat, wait| {
        let _list = seat.resume(&[Reference::shared(ANY), Reference::exclusive(ORDER)]).unwrap();
        wait();
    });
}

// Sections of more kinds than one, in which a thread sleeps until another one has given back what it waits for.
fn wait_in_turns(seat: &mut Seat, number: u64, shared: &lwkt::Guarded<(u64, u64)>) {
    for round in 0..ROUNDS / 20 {
        match (round + number) % 4 {
            0 => {
                let mut both = seat.lock_waiting(shared).unwrap();
                both.0 += 1;
                if round % 500 == 0 {
                    thread::sleep(Duration::from_micros(50));
                }
                both.1 += 1;
            }
            1 => {
                let both = seat.read_waiting(shared).unwrap();
                assert_eq!(both.0, both.1);
            }
            2 => {
                let list = [Reference::exclusive(ANY), Reference::exclusive(TALLY)];
                let list = if number % 2 == 0 { list } else { [list[1], list[0]] };
                let held = seat.resume_waiting(&list).unwrap();
                held.add(TALLY, 1).unwrap();
                held.lock(shared).unwrap().0 += 0;
            }
            _ => drop(seat.share_waiting(TALLY).unwrap().load(0).unwrap()),
        }
    }
}

#[test]
fn threads_that_wait_are_woken() {
    let mut bank = Bank::open(&tokens(), 8).unwrap();
    let shared = bank.guard(ANY, (0, 0)).unwrap();
    thread::scope(|scope| {
        for (seat, number) in bank.seats().iter_mut().zip(0..) {
            let shared = &shared;
            scope.spawn(move || wait_in_turns(seat, number, shared));
        }
    });
    assert_eq!(shared.into_inner(), (2 * ROUNDS / 20, 2 * ROUNDS / 20));
    assert_eq!(bank.close().unwrap()[TALLY as usize].cells, [5 + 2 * ROUNDS / 20]);
}

#[test]
fn what_can_not_be_waited_for_is_refused() {
    let mut seats = seats();
    assert_eq!(refused(seats[0].share_waiting(TOKENS)), 16);
    let list = [Reference::shared(ANY), Reference::exclusive(ANY)];
    assert_eq!(seats[0].resume_waiting(&list).err(), missed(1, 11));
    let held = seats[0].share_waiting(ANY).unwrap();
    assert_eq!(refused(seats[0].take_waiting(ANY)), 11);
    drop(held);
    assert_eq!(seats[0].resume_waiting(&[]).unwrap().block(), None);
}
