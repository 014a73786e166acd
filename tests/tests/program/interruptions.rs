//! Reads and writes that would wait or are interrupted.
use crate::list::{List, BATCH};
use crate::session::{assert_lines, in_background, set_nonblocking, Session, A_WHILE, LIMIT};
use std::io::{pipe, Read, Write};
use std::os::fd::OwnedFd;
use std::os::unix::net::UnixStream;
use std::sync::mpsc::{channel, Receiver};
use std::thread;
use std::time::Duration;
use tests::program::RECORD_BYTES;

#[test]
fn the_input_may_refuse_to_wait() {
    let list = List::new(14, 30);
    let (stdin, mut input) = pipe().unwrap();
    set_nonblocking(&stdin);
    let mut session = Session::start(stdin);
    for (number, record, line) in list.turns() {
        for piece in record.chunks(7) {
            thread::sleep(Duration::from_millis(2));
            input.write_all(piece).unwrap();
        }
        session.must_print(line, &format!("record {number}"));
    }
    drop(input);
    assert_eq!(session.end_well(), "");
}

/// An output that is read once the gate is gone.
struct Held<R> {
    output: R,
    gate: Receiver<()>,
}

impl<R: Read> Read for Held<R> {
    fn read(&mut self, bytes: &mut [u8]) -> std::io::Result<usize> {
        let _ = self.gate.recv();
        self.output.read(bytes)
    }
}

/// Fills an output that does not wait, and gives what fits.
fn fill(mut output: impl Write) -> String {
    let page = (".".repeat(63) + "\n").repeat(64);
    let mut filling = String::new();
    while let Ok(length) = output.write(page.as_bytes()) {
        filling += &page[..length];
    }
    filling
}

/// A pipe that is full, or has room for some of what is to be printed.
#[test]
fn the_output_may_refuse_to_wait() {
    let list = List::new(15, 2 * BATCH);
    for room in [0, 4096] {
        let (mut output, stdout) = pipe().unwrap();
        set_nonblocking(&stdout);
        let mut filling = fill(&stdout);
        output.read_exact(&mut vec![0; room]).unwrap();
        filling.truncate(filling.len() - room);
        let (gate_keeper, gate) = channel();
        let (stdin, input) = pipe().unwrap();
        let session = Session::between(stdin, stdout, Held { output, gate });
        in_background(input).send(list.records()).unwrap();
        thread::sleep(A_WHILE);
        drop(gate_keeper);
        assert_lines(&session.end_well(), &(filling + &list.lines), &format!("room for {room} bytes"));
    }
}

#[test]
fn a_stopped_program_goes_on() {
    let list = List::new(16, 19);
    let (mut input, mut session) = Session::on_pipe();
    for (number, record, line) in list.turns() {
        let (begin, end) = record.split_at(number);
        input.write_all(begin).unwrap();
        session.until_it_waits();
        session.stop();
        input.write_all(end).unwrap();
        session.must_be_silent(Duration::from_millis(2), "stopped");
        session.go_on();
        session.must_print(line, &format!("record {number}"));
    }
    drop(input);
    assert_eq!(session.end_well(), "");
}

/// On a socket with a time limit a read that a stop interrupts is not begun again by the system: it fails.
#[test]
fn an_interrupted_read_is_tried_again() {
    let list = List::new(17, 19);
    let (mut input, stdin) = UnixStream::pair().unwrap();
    stdin.set_read_timeout(Some(LIMIT)).unwrap();
    let mut session = Session::start(OwnedFd::from(stdin));
    for (number, record, line) in list.turns() {
        let (begin, end) = record.split_at(number);
        input.write_all(begin).unwrap();
        session.until_it_waits();
        session.stop();
        session.go_on();
        input.write_all(end).unwrap();
        session.must_print(line, &format!("record {number}"));
    }
    drop(input);
    assert_eq!(session.end_well(), "");
}

/// The same of a write.
#[test]
fn an_interrupted_write_is_tried_again() {
    let list = List::new(18, 2 * BATCH);
    let (output, stdout) = UnixStream::pair().unwrap();
    stdout.set_write_timeout(Some(LIMIT)).unwrap();
    stdout.set_nonblocking(true).unwrap();
    let filling = fill(&stdout);
    stdout.set_nonblocking(false).unwrap();
    let (gate_keeper, gate) = channel();
    let (stdin, mut input) = pipe().unwrap();
    input.write_all(&list.records()[..RECORD_BYTES]).unwrap();
    let mut session = Session::between(stdin, OwnedFd::from(stdout), Held { output, gate });
    for _ in 0..3 {
        session.until_it_waits();
        session.stop();
        session.go_on();
    }
    drop(gate_keeper);
    in_background(input).send(list.records()[RECORD_BYTES..].to_vec()).unwrap();
    assert_lines(&session.end_well(), &(filling + &list.lines), "the list");
}
