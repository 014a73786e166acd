//! What is said of reads and writes that fail.
use crate::list::{List, BATCH};
use crate::session::{program, Session};
use std::io::{pipe, Read, Write};
use std::os::fd::OwnedFd;
use std::os::unix::net::UnixStream;
use std::process::Command;
use tests::monitor::Call;
use tests::program::{records, SAMPLE};

/// The program as the shell starts it after a command, with redirections.
fn in_shell(command: &str, redirections: &str) -> Command {
    let mut shell = Command::new("sh");
    shell.arg("-c").arg(format!("{command}; exec \"$0\" {redirections}")).arg(program());
    shell
}

/// One line on standard error says what failed. All of the input is in the pipe when the program starts.
#[test]
fn failures_are_reported() {
    let many = List::new(11, BATCH + 1).records();
    let sample = records(&SAMPLE.map(|(kind, arguments, _)| Call::new(kind, arguments)));
    let cases: [(&str, &[u8], &str); 13] = [
        ("< .", b"", "pagemon: read failed, records obeyed: 0: Is a directory\n"),
        ("<&-", b"", "pagemon: read failed, records obeyed: 0: Bad file descriptor\n"),
        ("<&- >&-", b"", "pagemon: read failed, records obeyed: 0: Bad file descriptor\n"),
        ("<&- 2>&-", b"", ""),
        ("<&- 2> /dev/full", b"", ""),
        ("> /dev/full", b"", ""),
        ("> /dev/full", &sample, "pagemon: write failed, records obeyed: 11: No space left on device\n"),
        ("> /dev/full", &sample[..20], "pagemon: write failed, records obeyed: 1: No space left on device\n"),
        ("> /dev/full", &sample[..18], "pagemon: write failed, records obeyed: 0: No space left on device\n"),
        ("> /dev/full", b"no", "pagemon: write failed, records obeyed: 0: No space left on device\n"),
        ("> /dev/full", &many, "pagemon: write failed, records obeyed: 2048: No space left on device\n"),
        (">&-", b"", ""),
        (">&-", &sample, "pagemon: write failed, records obeyed: 11: Bad file descriptor\n"),
    ];
    for (redirections, bytes, said) in cases {
        let (stdin, mut input) = pipe().unwrap();
        input.write_all(bytes).unwrap();
        drop(input);
        let (output, stdout) = pipe().unwrap();
        let mut command = in_shell(":", redirections);
        command.stdin(stdin).stdout(stdout);
        let (status, printed, stderr) = Session::of(command, output).end();
        let what = format!("{redirections} with {} bytes", bytes.len());
        assert_eq!((&printed[..], &stderr[..], status.code()), ("", said, Some(0)), "{what}");
    }
}

/// A socket fails once its other end is closed before all that was sent there was read.
#[test]
fn a_read_fails_after_some_records() {
    let list = List::new(12, 5);
    let (mut input, mut stdin) = UnixStream::pair().unwrap();
    stdin.write_all(b"unread").unwrap();
    let mut session = Session::start(OwnedFd::from(stdin));
    input.write_all(&list.records()).unwrap();
    input.write_all(&list.records()[..7]).unwrap();
    session.must_print(&list.lines, "the list");
    session.until_it_waits();
    drop(input);
    let (status, printed, stderr) = session.end();
    assert_eq!(printed, "");
    assert_eq!(stderr, "pagemon: read failed, records obeyed: 5: Connection reset by peer\n");
    assert_eq!(status.code(), Some(0));
}

/// A write to a pipe that is closed fails, whether the signal is ignored when the program starts or not.
#[test]
fn the_output_is_closed_after_some_records() {
    let list = List::new(13, 3);
    for before in [":", "trap '' PIPE"] {
        let (stdin, mut input) = pipe().unwrap();
        let (output, stdout) = pipe().unwrap();
        let mut probe = stdout.try_clone().unwrap();
        let mut command = in_shell(before, "");
        command.stdin(stdin).stdout(stdout);
        let mut session = Session::of(command, output.take(list.lines.len() as u64));
        input.write_all(&list.records()).unwrap();
        assert_eq!(session.take(usize::MAX), list.lines);
        // Processes that other tests just start may have the pipe open for a moment.
        session.until("lose its output", |_| probe.write(b".").err());
        input.write_all(&list.records()).unwrap();
        let (status, _, stderr) = session.end();
        assert_eq!(stderr, "pagemon: write failed, records obeyed: 6: Broken pipe\n", "{before}");
        assert_eq!(status.code(), Some(0), "{before}");
    }
}
