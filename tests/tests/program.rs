//! The built program: what it prints of what it reads, and when.
use list::{List, BATCH, RANDOM_STEPS};
use session::{assert_lines, repository, Session};
use std::io::{PipeWriter, Write};
use std::time::{Duration, Instant};
use std::{fs, thread};
use tests::monitor::{Call, Kind};
use tests::program::{bad_records, records, RECORD_BYTES, SAMPLE};
use tests::random::Random;
use Kind::*;

#[path = "program/arrival.rs"]
mod arrival;
#[path = "program/failures.rs"]
mod failures;
#[path = "program/interruptions.rs"]
mod interruptions;
#[path = "program/list.rs"]
mod list;
#[path = "program/session.rs"]
mod session;

/// What the program prints of an input that is written by `write`.
fn printed_as_written(write: impl FnOnce(PipeWriter) + Send) -> String {
    let (input, session) = Session::on_pipe();
    thread::scope(|scope| {
        scope.spawn(|| write(input));
        session.end_well()
    })
}

/// What the program prints of these bytes. It may end before it has read them all.
fn printed(input: &[u8]) -> String {
    printed_as_written(|mut stdin| drop(stdin.write_all(input)))
}

#[test]
fn the_sample() {
    let calls = SAMPLE.map(|(kind, arguments, _)| Call::new(kind, arguments));
    let expected = SAMPLE.map(|(_, _, line)| line.to_string() + "\n").concat();
    assert_eq!(printed(&records(&calls)), expected);
    assert_eq!(records(&calls), fs::read(repository().join("crates/pagemon/stdin")).unwrap());
}

#[test]
fn nothing_is_printed_of_nothing() {
    assert_eq!(printed(b""), "");
}

/// At the start, after a few records and on both sides of the most that is obeyed at a time. Whatever follows a bad record is not obeyed.
#[test]
fn bad_records_end_the_run() {
    let more = Call::new(Begin, &[0]).record().repeat(BATCH);
    for earlier in [0, 1, 11, BATCH - 1, BATCH, 2 * BATCH - 1, 2 * BATCH] {
        let list = List::new(1, earlier);
        for bad in bad_records() {
            let what = format!("{earlier} records, then {bad:02x?}");
            let (mut input, expected) = list.then_bad(&bad);
            assert_lines(&printed(&input), &expected, &what);
            if bad.len() == RECORD_BYTES {
                input.extend(&more);
                assert_lines(&printed(&input), &expected, &what);
            }
        }
    }
}

#[test]
fn refused_calls_count_as_obeyed() {
    let refused = records(&[Call::new(Begin, &[1]), Call::new(Switch, &[1]), Call::new(Fetch, &[0])]);
    assert_eq!(printed(&[&refused[..], &[0]].concat()), "1 1\n11 3\n14 22\nbad 3\n");
}

/// Call bytes 15 and 16 are those of large pages, and 17 is no call.
#[test]
fn calls_of_large_pages() {
    let calls = [
        (Begin, &[0][..], "1 0"),
        (CreateL1, &[0], "2 0"),
        (CreateL2, &[4], "3 0"),
        (Link, &[0, 0, 4, 0], "8 0"),
        (Switch, &[0], "11 0"),
        (MapLarge, &[4, 16, 0, 1], "15 0"),
        (MapLarge, &[4, 16, 0, 1], "15 8"),
        (MapLarge, &[4, 32, 0, 3], "15 10"),
        (MapLarge, &[4, 1025, 0, 1], "15 3"),
        (Read, &[0x14040], "12 0 45"),
        (UnmapL2, &[4, 31], "10 8"),
        (UnmapLarge, &[4, 16], "16 0"),
        (UnmapLarge, &[4, 16], "16 8"),
        (Read, &[0x14040], "12 22"),
    ];
    let mut input = records(&calls.map(|(kind, arguments, _)| Call::new(kind, arguments)));
    let mut unlisted = Call::new(UnmapLarge, &[4, 16]).record();
    unlisted[2] = 17;
    input.extend(unlisted);
    let expected = calls.map(|(.., line)| line.to_string() + "\n").concat() + "bad 14\n";
    assert_eq!(printed(&input), expected);
}

/// The words that a call does not use, and the high bits of the byte that is written.
#[test]
fn spare_words_may_hold_anything() {
    let mut list = List::new(2, RANDOM_STEPS);
    let mut random = Random::new(3);
    for call in &mut list.calls {
        for word in &mut call.arguments[call.kind.arity()..] {
            *word = random.next() as u32;
        }
        if call.kind == Write {
            call.arguments[1] ^= (random.next() as u32) << 8;
        }
    }
    assert_lines(&printed(&list.records()), &list.lines, "the list");
}

#[test]
fn input_comes_in_pieces() {
    let cases: [(usize, &[usize]); 4] =
        [(30, &[1]), (100, &[7, 18, 1, 20, 37]), (100, &[19, 38, 3]), (BATCH + 1, &[1009])];
    for (length, sizes) in cases {
        let list = List::new(4, length);
        let input = list.records();
        let output = printed_as_written(|mut stdin| {
            let (mut rest, mut sizes) = (&input[..], sizes.iter().cycle());
            while !rest.is_empty() {
                let (piece, more) = rest.split_at(rest.len().min(*sizes.next().unwrap()));
                stdin.write_all(piece).unwrap();
                thread::sleep(Duration::from_micros(300));
                rest = more;
            }
        });
        assert_lines(&output, &list.lines, &format!("{length} records in pieces of {sizes:?} bytes"));
    }
}

#[test]
fn lists_that_end_about_a_batch() {
    for length in [BATCH - 1, BATCH, BATCH + 1, 2 * BATCH - 1, 2 * BATCH, 2 * BATCH + 1] {
        let list = List::new(5, length);
        assert_lines(&printed(&list.records()), &list.lines, &format!("{length} records"));
    }
}

/// From the program's start, and across the most that is obeyed at a time.
#[test]
fn a_hundred_thousand_random_records() {
    for seed in 0..(100_000 / RANDOM_STEPS) as u64 {
        let length = [RANDOM_STEPS, BATCH + RANDOM_STEPS / 2][seed as usize % 2];
        let list = List::new(seed, length);
        assert_lines(&printed(&list.records()), &list.lines, &format!("list {seed}"));
    }
}

/// A bound that no machine should come near, so that only a change in kind is red.
#[test]
fn a_million_records_take_seconds() {
    let turn = [
        (Call::new(Write, &[0x5000, 65]), "13 0\n"),
        (Call::new(Read, &[0x5000]), "12 0 65\n"),
        (Call::new(Fetch, &[0x5000]), "14 23\n"),
        (Call::new(MapL2, &[4, 6, 8, 3]), "7 0\n"),
        (Call::new(UnmapL2, &[4, 6]), "10 0\n"),
    ];
    let (calls, lines): (Vec<Call>, Vec<&str>) = turn.into_iter().unzip();
    let setup = SAMPLE.map(|(kind, arguments, _)| Call::new(kind, arguments));
    let turns = 1_000_000 / calls.len();
    let input = [records(&setup), records(&calls).repeat(turns)].concat();
    let expected = SAMPLE.map(|(_, _, line)| line.to_string() + "\n").concat() + &lines.concat().repeat(turns);
    let start = Instant::now();
    let output = printed(&input);
    let seconds = start.elapsed().as_secs_f32();
    assert_lines(&output, &expected, "the list");
    println!("{} records in {seconds:.2} s", input.len() / RECORD_BYTES);
    assert!(seconds < 10.0, "{seconds} s");
}
