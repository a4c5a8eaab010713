//! The recorder: threads with locks of their own, and what its calls refuse.
use lwkt::{Finding, RecordFault, Recorder, RowLaw};
use std::io::{self, Write};
use std::sync::Mutex;
use std::thread;

const THREADS: u32 = 8;
const SECTIONS: u64 = 200;

// Threads that move one from cell to cell under a lock; those of odd numbers write a cell after the lock is gone, if they are wrong.
fn moves(recorder: &Recorder, rows: &Mutex<[u64; 2]>, number: u32, is_wrong: bool) {
    for _ in 0..SECTIONS {
        let mut row = rows.lock().unwrap();
        recorder.take(number, 0).unwrap();
        for cell in 0..2 {
            recorder.read(number, 0, cell, row[cell as usize]).unwrap();
        }
        *row = [row[0] - 1, row[1] + 1];
        recorder.write(number, 0, 0, row[0]).unwrap();
        if is_wrong {
            recorder.give(number, 0).unwrap();
            drop(row);
            continue;
        }
        recorder.write(number, 0, 1, row[1]).unwrap();
        recorder.give(number, 0).unwrap();
    }
}

fn opened(room: usize) -> (Recorder, Mutex<[u64; 2]>) {
    let mut recorder = Recorder::open(THREADS, 1, 0, room).unwrap();
    recorder.token(0, RowLaw::Sum, 5000, 0, &[5000, 0]).unwrap();
    (recorder, Mutex::new([5000, 0]))
}

#[test]
fn a_lock_is_recorded() {
    let (mut recorder, rows) = opened(2000);
    thread::scope(|scope| {
        for number in 0..THREADS {
            let (recorder, rows) = (&recorder, &rows);
            scope.spawn(move || moves(recorder, rows, number, false));
        }
    });
    let row = rows.into_inner().unwrap();
    assert_eq!(row[1], u64::from(THREADS) * SECTIONS);
    recorder.end_cells(0, &row).unwrap();
    recorder.end_generation(0, row[1]).unwrap();
    recorder.end_references(0, 0).unwrap();
    assert_eq!(recorder.end_references(0, 1), Err(RecordFault::Otherwise));
    assert_eq!(recorder.lost(), None);
    assert_eq!(lwkt::check_trace(&recorder.trace().unwrap()), Ok(Finding::Lawful));
}

#[test]
fn a_wrong_section_is_found() {
    let (recorder, rows) = opened(2000);
    moves(&recorder, &rows, 3, true);
    let found = lwkt::check_trace(&recorder.trace().unwrap()).unwrap();
    let Finding::Unlawful(why) = found else { panic!("{found:?}") };
    assert!(why.contains("give_written by 3 of token 0"), "{why}");
}

#[test]
fn a_recording_is_drained_by_lent_numbers() {
    let (mut recorder, rows) = opened(3000);
    let mut lines = Vec::new();
    for _ in 0..4 {
        thread::scope(|scope| {
            for _ in 0..THREADS {
                let (recorder, rows) = (&recorder, &rows);
                scope.spawn(move || {
                    let number = recorder.enter().unwrap();
                    assert!(recorder.room(number) >= 6 * SECTIONS as usize);
                    for _ in 0..10 {
                        moves_once(recorder, rows, number);
                    }
                    recorder.leave(number).unwrap();
                });
            }
        });
        assert!(recorder.drain(&mut lines).unwrap());
    }
    recorder.end().unwrap();
    assert!(recorder.drain(&mut lines).unwrap());
    let text = String::from_utf8(lines).unwrap();
    assert!(text.lines().count() > 4 * 8 * 10 * 6);
    assert!(text.starts_with("{\"version\":1,\"cpus\":8,"));
}

fn moves_once(recorder: &Recorder, rows: &Mutex<[u64; 2]>, number: u32) {
    let mut row = rows.lock().unwrap();
    recorder.take(number, 0).unwrap();
    *row = [row[0] - 1, row[1] + 1];
    for cell in 0..2 {
        recorder.write(number, 0, cell, row[cell as usize]).unwrap();
    }
    recorder.read(number, 0, 0, row[0]).unwrap();
    recorder.mark(number, 0).unwrap();
    recorder.give(number, 0).unwrap();
}

struct Full;

impl Write for Full {
    fn write(&mut self, _: &[u8]) -> io::Result<usize> {
        Err(io::Error::new(io::ErrorKind::WriteZero, "no room"))
    }

    fn flush(&mut self) -> io::Result<()> {
        Ok(())
    }
}

#[test]
fn what_is_no_recording_is_refused() {
    assert_eq!(Recorder::open(9, 1, 0, 10).unwrap_err(), RecordFault::Limit);
    let mut recorder = Recorder::open(1, 1, 1, 2).unwrap();
    assert_eq!(recorder.token(0, RowLaw::Len, 0, 0, &[0]), Err(RecordFault::Limit));
    assert_eq!(recorder.token(1, RowLaw::Any, 0, 0, &[]), Err(RecordFault::NoToken));
    recorder.message(0, 0, 1, 5).unwrap();
    let number = recorder.enter().unwrap();
    assert_eq!(recorder.enter(), Err(RecordFault::AllLent));
    recorder.take(number, 0).unwrap();
    assert_eq!(recorder.leave(number), Err(RecordFault::Holds));
    recorder.give(number, 0).unwrap();
    recorder.leave(number).unwrap();
    assert_eq!(recorder.token(0, RowLaw::Any, 0, 0, &[]), Err(RecordFault::Late));
    assert_eq!(recorder.drain(&mut Full).unwrap_err().kind(), io::ErrorKind::WriteZero);
    assert_eq!(recorder.trace(), Err(RecordFault::Mode));
    recorder.take(0, 0).unwrap();
    recorder.give(0, 0).unwrap();
    assert_eq!(recorder.take(0, 0), Err(RecordFault::Full));
    assert_eq!(recorder.lost(), Some(RecordFault::Full));
    assert!(!recorder.drain(&mut Vec::new()).unwrap());
    let mut last = Recorder::open(1, 1, 0, 20).unwrap();
    last.keep_last().unwrap();
    for _ in 0..100 {
        last.take(0, 0).unwrap();
        last.give(0, 0).unwrap();
    }
    assert_eq!(lwkt::check_trace(&last.trace().unwrap()), Ok(Finding::Lawful));
}

#[test]
fn lines_of_events_are_told() {
    let mut recorder = Recorder::open(2, 1, 0, 20).unwrap();
    let line = line!() + 2;
    for number in [0, 1] {
        recorder.at(number, lwkt::here!());
        recorder.take(number, 0).unwrap();
        recorder.give(number, 0).unwrap();
    }
    let (trace, lines) = recorder.trace_and_lines().unwrap();
    assert_eq!(lines, format!("0 {0}:{line}\n2 {0}:{line}\n", file!()));
    assert_eq!(recorder.trace(), Ok(trace));
    assert!(recorder.drain(&mut Vec::new()).unwrap());
    assert_eq!(recorder.trace_and_lines(), Err(RecordFault::Late));
}

#[test]
fn messages_are_recorded() {
    let mut recorder = Recorder::open(2, 0, 1, 20).unwrap();
    for _ in 0..2 {
        recorder.send(0, 0, 1, 0).unwrap();
        recorder.take_message(1, 0, 0).unwrap();
        recorder.reply(1, 0).unwrap();
        recorder.reap(0, 0).unwrap();
    }
    recorder.send(0, 0, 1, 0).unwrap();
    recorder.abort(0, 0).unwrap();
    recorder.drop_message(0, 0).unwrap();
    recorder.end().unwrap();
    assert_eq!(lwkt::check_trace(&recorder.trace().unwrap()), Ok(Finding::Lawful));
}
