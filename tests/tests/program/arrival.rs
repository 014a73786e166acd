//! What is printed while the input is open, and of input that comes in pieces.
use crate::list::{List, BATCH, RANDOM_STEPS};
use crate::session::{assert_lines, in_background, Session, A_WHILE};
use std::io::Write;
use std::ops::RangeInclusive;
use std::os::fd::OwnedFd;
use std::os::unix::net::UnixDatagram;
use std::thread;
use std::time::Duration;
use tests::monitor::{Call, Kind};
use tests::program::{spoilt_records, RECORD_BYTES};
use tests::random::Random;
use Kind::*;

/// Each record comes in two pieces, and is answered before the next comes.
#[test]
fn answers_come_while_the_input_is_open() {
    let list = List::new(6, RANDOM_STEPS);
    let (mut input, mut session) = Session::on_pipe();
    for (number, record, line) in list.turns() {
        let (begin, end) = record.split_at(1 + number % (RECORD_BYTES - 1));
        input.write_all(begin).unwrap();
        thread::sleep(Duration::from_micros(300));
        input.write_all(end).unwrap();
        session.must_print(line, &format!("record {number}"));
    }
    drop(input);
    assert_eq!(session.end_well(), "");
}

/// As soon as a byte is wrong, whether the rest of the record has come or not.
#[test]
fn bad_is_said_while_the_input_is_open() {
    for earlier in [0, 11, BATCH] {
        let list = List::new(7, earlier);
        for (at, record) in spoilt_records() {
            for length in [at + 1, RECORD_BYTES - 1, RECORD_BYTES] {
                let what = format!("{earlier} records, then {:02x?}", &record[..length]);
                let (mut input, mut session) = Session::on_pipe();
                input.write_all(&list.records()).unwrap();
                session.must_print(&list.lines, &what);
                input.write_all(&record[..length]).unwrap();
                assert_eq!(session.end_well(), format!("bad {earlier}\n"), "{what}");
                drop(input);
            }
        }
    }
}

#[test]
fn every_wrong_byte_is_bad_at_once() {
    let good = Call::new(Begin, &[0]).record();
    for (at, byte) in (0..3).flat_map(|at| (0..=255).map(move |byte| (at, byte))) {
        if byte == good[at] || at == 2 && Kind::of_byte(byte).is_some() {
            continue;
        }
        let (mut input, session) = Session::on_pipe();
        input.write_all(&[&good[..at], &[byte]].concat()).unwrap();
        assert_eq!(session.end_well(), "bad 0\n", "byte {at} is {byte:02x}");
        drop(input);
    }
}

/// Beginnings of every length, and of every call.
#[test]
fn a_good_beginning_is_waited_on() {
    let begin = Call::new(Begin, &[0]).record();
    let lengths = (1..RECORD_BYTES).map(|length| (begin, length));
    let calls = Kind::recorded().map(|kind| (Call { kind, ..Call::new(Begin, &[0]) }.record(), 3));
    let beginnings: Vec<([u8; RECORD_BYTES], usize)> = lengths.chain(calls).collect();
    for is_closed in [true, false] {
        let mut sessions: Vec<_> = beginnings.iter().map(|_| Session::on_pipe()).collect();
        for ((input, _), (record, length)) in sessions.iter_mut().zip(&beginnings) {
            input.write_all(&begin).unwrap();
            input.write_all(&record[..*length]).unwrap();
        }
        for (_, session) in &mut sessions {
            session.must_print("1 0\n", "the first record");
        }
        thread::sleep(A_WHILE);
        for ((mut input, session), (record, length)) in sessions.into_iter().zip(&beginnings) {
            let what = format!("{:02x?}", &record[..*length]);
            session.must_be_silent(Duration::ZERO, &what);
            if is_closed {
                drop(input);
                assert_eq!(session.end_well(), "bad 1\n", "{what}");
                continue;
            }
            input.write_all(&record[*length..]).unwrap();
            drop(input);
            let answer = session.end_well();
            assert!(answer.starts_with(&format!("{} ", record[2])), "{what}: {answer}");
        }
    }
}

/// Pieces of random sizes.
fn pieces(mut bytes: &[u8], sizes: RangeInclusive<usize>, random: &mut Random) -> Vec<Vec<u8>> {
    let mut pieces = Vec::new();
    while !bytes.is_empty() {
        let size = sizes.start() + random.below(sizes.end() - sizes.start() + 1);
        let (piece, rest) = bytes.split_at(size.min(bytes.len()));
        pieces.push(piece.to_vec());
        bytes = rest;
    }
    pieces
}

/// A list, the same with a bad record and more after it, and cut short: how many records are good, the input, and what is printed.
fn inputs(list: &List) -> [(usize, Vec<u8>, String); 3] {
    let good = list.calls.len();
    let (_, spoilt) = spoilt_records().last().unwrap();
    let (mut bad, bad_expected) = list.then_bad(&spoilt);
    bad.extend(list.records());
    let (short, short_expected) = list.then_bad(&list.calls[0].record()[..RECORD_BYTES - 1]);
    [(good, list.records(), list.lines.clone()), (good, bad, bad_expected), (good, short, short_expected)]
}

/// A read of a datagram gives that piece alone, and one without bytes is the end. A datagram has to fit behind what is kept of a record.
#[test]
fn a_read_may_give_any_piece() {
    let room = BATCH * RECORD_BYTES - (RECORD_BYTES - 1);
    let mut random = Random::new(8);
    let (small, long) = (List::new(9, RANDOM_STEPS), List::long());
    for (list, sizes) in
        [(&small, 1..=1), (&small, 1..=2), (&long, 18..=20), (&long, 1..=60), (&long, room - 40..=room)]
    {
        for (_, input, expected) in inputs(list) {
            let what = format!("{} bytes in pieces of {sizes:?}", input.len());
            let pieces = pieces(&input, sizes.clone(), &mut random);
            let (socket, stdin) = UnixDatagram::pair().unwrap();
            let session = Session::start(OwnedFd::from(stdin));
            thread::scope(|scope| {
                scope.spawn(|| pieces.iter().chain([&Vec::new()]).try_for_each(|piece| socket.send(piece).map(drop)));
                assert_lines(&session.end_well(), &expected, &what);
            });
        }
    }
}

/// Pieces of some records, about as large as what is obeyed at a time, and about as large as a pipe. Each comes when those before it are answered.
#[test]
fn a_pipe_may_bring_any_piece() {
    let mut random = Random::new(10);
    let list = List::long();
    let line_ends: Vec<usize> = list.lines.match_indices('\n').map(|(at, _)| at + 1).collect();
    for size in [RECORD_BYTES * 10, BATCH * RECORD_BYTES, 1 << 16, 1 << 17] {
        for (good, input, expected) in inputs(&list) {
            let what = format!("{} bytes in pieces of about {size}", input.len());
            let (pipe, mut session) = Session::on_pipe();
            let pipe = in_background(pipe);
            let (mut sent, mut seen) = (0, 0);
            for piece in pieces(&input, size - 20..=size + 20, &mut random) {
                sent += piece.len();
                let _ = pipe.send(piece);
                let due = line_ends[..good.min(sent / RECORD_BYTES)].last().copied().unwrap_or(0);
                session.must_print(&expected[seen..due], &what);
                seen = due;
            }
            drop(pipe);
            assert_eq!(session.end_well(), expected[seen..], "{what}");
        }
    }
}
