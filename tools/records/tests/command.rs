//! The command: what it writes where, and its exit status.
use calls::Kind;
use std::io::Write;
use std::process::{Command, Stdio};
use std::sync::mpsc::channel;
use std::thread;
use std::time::Duration;

/// Exit status, standard output and standard error.
fn records(arguments: &[&str], input: &[u8]) -> (i32, Vec<u8>, String) {
    run(env!("CARGO_BIN_EXE_records"), arguments, input)
}

fn run(program: &str, arguments: &[&str], input: &[u8]) -> (i32, Vec<u8>, String) {
    let mut command = Command::new(program);
    let streams = command.args(arguments).stdin(Stdio::piped()).stdout(Stdio::piped()).stderr(Stdio::piped());
    let mut child = streams.spawn().unwrap();
    // A command that does not read its input may have ended already.
    let _ = child.stdin.take().unwrap().write_all(input);
    let output = child.wait_with_output().unwrap();
    (output.status.code().unwrap(), output.stdout, String::from_utf8(output.stderr).unwrap())
}

const BEGIN: [u8; 19] = [0x50, 0x54, 1, 0, 1, 0, 0, 0, 0, 0, 0, 0, 0, 0, 0, 0, 0, 0, 0];

#[test]
fn encode_and_decode() {
    assert_eq!(records(&["encode"], b"begin 0x100"), (0, BEGIN.to_vec(), String::new()));
    assert_eq!(records(&["decode"], &BEGIN), (0, b"begin 256\n".to_vec(), String::new()));
    assert_eq!(records(&["encode"], b""), (0, Vec::new(), String::new()));
}

#[test]
fn spare_words_are_kept() {
    let record: Vec<u8> = [0x50, 0x54, 13].into_iter().chain(1..=16).collect();
    let line = b"write 0x4030201 134678021 | 0xc0b0a09 0x100f0e0d\n".to_vec();
    assert_eq!(records(&["decode"], &record), (0, line.clone(), String::new()));
    assert_eq!(records(&["encode"], &line), (0, record, String::new()));
}

#[test]
fn a_wrong_line_leaves_no_partial_output() {
    let error = "line 2: there is no call `stop`\n".to_string();
    assert_eq!(records(&["encode"], b"begin 0\nstop\n"), (1, Vec::new(), error));
}

#[test]
fn a_wrong_record_comes_after_the_lines_before_it() {
    let error = "record 2: short: 5 of 19 bytes\n".to_string();
    assert_eq!(records(&["decode"], &[&BEGIN[..], &BEGIN[..5]].concat()), (1, b"begin 256\n".to_vec(), error));
}

#[test]
fn explain_reads_the_script_from_its_file() {
    let path = concat!(env!("CARGO_TARGET_TMPDIR"), "/script.txt");
    std::fs::write(path, "begin 1\n").unwrap();
    let (status, output, error) = records(&["explain", path], b"1 1\n");
    assert_eq!((status, error), (0, String::new()));
    assert_eq!(String::from_utf8(output).unwrap(), "begin 1                  => 1 a length or B breaks the rules\n");
    assert_eq!(records(&["explain", path], b"").0, 1);
    assert_eq!(records(&["explain", "/nonexistent"], b"").0, 1);
}

#[test]
fn a_wrong_command_prints_the_usage_as_an_error() {
    for arguments in [&[][..], &["encode", "script"], &["explain"], &["--help", "encode"], &["help"]] {
        let (status, output, error) = records(arguments, b"");
        assert_eq!((status, output), (2, Vec::new()));
        assert!(error.starts_with("usage: records encode"));
    }
}

/// It does not wait for its input, which stays open.
#[test]
fn help_comes_at_once() {
    let mut command = Command::new(env!("CARGO_BIN_EXE_records"));
    let streams = command.arg("--help").stdin(Stdio::piped()).stdout(Stdio::piped()).stderr(Stdio::piped());
    let mut child = streams.spawn().unwrap();
    let stdin = child.stdin.take();
    let (sender, ended) = channel();
    thread::spawn(move || sender.send(child.wait_with_output()));
    let output = ended.recv_timeout(Duration::from_secs(20)).expect("it waits").unwrap();
    drop(stdin);
    let usage = String::from_utf8(output.stdout).unwrap();
    assert_eq!((output.status.code(), output.stderr), (Some(0), Vec::new()));
    assert!(usage.starts_with("usage: records encode"));
    for kind in Kind::recorded() {
        assert!(usage.contains(&format!("\n  {} {}\n", kind.name(), kind.parameters().join(" "))));
    }
}

/// Every command, with its output redirected by a shell: exit status and standard error.
fn redirected(redirection: &str) -> [(i32, String); 4] {
    let sample = concat!(env!("CARGO_MANIFEST_DIR"), "/../../gallery/sample.txt");
    let answers = include_bytes!("../../../gallery/sample.expected");
    let commands: [(&[&str], &[u8]); 4] =
        [(&["encode"], b"begin 0"), (&["decode"], &BEGIN), (&["explain", sample], answers), (&["--help"], b"")];
    commands.map(|(arguments, input)| {
        let script = format!("exec \"$0\" \"$@\" {redirection}");
        let (status, _, error) =
            run("sh", &[&["-c", &script, env!("CARGO_BIN_EXE_records")], arguments].concat(), input);
        (status, error)
    })
}

#[test]
fn output_that_can_not_be_written_is_an_error() {
    for (redirection, what) in
        [(">&-", "closed"), ("> /dev/full", "No space left"), ("1< /dev/null", "Bad file descriptor")]
    {
        for (status, error) in redirected(redirection) {
            assert_eq!(status, 1, "{redirection}: {error}");
            assert!(
                error.starts_with("records: ") && error.contains(what) && error.ends_with('\n'),
                "{redirection}: {error}"
            );
        }
    }
}

/// Also where /dev/null is open for both, as std itself opens it.
#[test]
fn output_may_go_nowhere() {
    for redirection in ["> /dev/null", "1<> /dev/null"] {
        assert_eq!(redirected(redirection), [(); 4].map(|()| (0, String::new())));
    }
}

/// The exit status is the same where messages can't be written.
#[test]
fn errors_that_can_not_be_written() {
    for redirection in ["> /dev/full 2> /dev/full", ">&- 2>&-"] {
        assert_eq!(redirected(redirection), [(); 4].map(|()| (1, String::new())));
    }
}

#[test]
fn a_reader_that_is_gone() {
    let lines = "begin 0\n".repeat(100_000);
    let script = "\"$0\" encode; echo $? >&2";
    let mut command = Command::new("sh");
    let streams = command
        .args(["-c", script, env!("CARGO_BIN_EXE_records")])
        .stdin(Stdio::piped())
        .stdout(Stdio::piped())
        .stderr(Stdio::piped());
    let mut child = streams.spawn().unwrap();
    drop(child.stdout.take());
    child.stdin.take().unwrap().write_all(lines.as_bytes()).unwrap();
    let output = child.wait_with_output().unwrap();
    let error = String::from_utf8(output.stderr).unwrap();
    assert!(error.starts_with("records: Broken pipe") && error.ends_with("\n1\n"), "{error}");
}
