//! Runs of the program.
use std::ffi::c_int;
use std::io::{pipe, PipeWriter, Read, Write};
use std::os::fd::AsRawFd;
use std::path::{Path, PathBuf};
use std::process::{Child, Command, ExitStatus, Stdio};
use std::sync::mpsc::{channel, Receiver, RecvTimeoutError, Sender};
use std::time::{Duration, Instant};
use std::{env, fs, mem, thread};

pub fn repository() -> &'static Path {
    Path::new(concat!(env!("CARGO_MANIFEST_DIR"), "/.."))
}

/// The program that PAGEMON names, or else the one that `./run` builds.
pub fn program() -> PathBuf {
    repository().join(env::var_os("PAGEMON").unwrap_or("target/bin/pagemon".into()))
}

/// The first line that differs, rather than two long texts.
pub fn assert_lines(output: &str, expected: &str, what: &str) {
    let (mut lines, mut expected_lines) = (output.split_inclusive('\n'), expected.split_inclusive('\n'));
    for number in 1.. {
        let (line, expected) = (lines.next(), expected_lines.next());
        assert_eq!(line, expected, "line {number} of {what}");
        if line.is_none() {
            return;
        }
    }
}

/// More than any run here takes, so that a program that waits is red instead of stuck.
pub const LIMIT: Duration = Duration::from_secs(20);

/// Long enough for the program to print what it should not.
pub const A_WHILE: Duration = Duration::from_millis(50);

/// A run of the program, whose output is read as it comes.
pub struct Session {
    child: Child,
    output: Receiver<Vec<u8>>,
    unread: Vec<u8>,
    deadline: Instant,
}

impl Session {
    pub fn start(stdin: impl Into<Stdio>) -> Session {
        let (output, stdout) = pipe().unwrap();
        Session::between(stdin, stdout, output)
    }

    /// With a pipe that stays open until the test closes it.
    pub fn on_pipe() -> (PipeWriter, Session) {
        let (stdin, input) = pipe().unwrap();
        (input, Session::start(stdin))
    }

    /// `output` is the other end of `stdout`.
    pub fn between(stdin: impl Into<Stdio>, stdout: impl Into<Stdio>, output: impl Read + Send + 'static) -> Session {
        let mut command = Command::new(program());
        command.stdin(stdin).stdout(stdout);
        Session::of(command, output)
    }

    pub fn of(mut command: Command, output: impl Read + Send + 'static) -> Session {
        let started = command.stderr(Stdio::piped()).spawn();
        let child = started.unwrap_or_else(|error| panic!("{:?}: {error}", command.get_program()));
        let (sender, receiver) = channel();
        thread::spawn(move || pass_on(sender, output));
        Session { child, output: receiver, unread: Vec::new(), deadline: Instant::now() + LIMIT }
    }

    fn time_left(&self) -> Duration {
        self.deadline.saturating_duration_since(Instant::now())
    }

    /// The next so many bytes, or fewer where the output ends or the time is up.
    pub fn take(&mut self, length: usize) -> String {
        while self.unread.len() < length {
            match self.output.recv_timeout(self.time_left()) {
                Ok(piece) => self.unread.extend(piece),
                Err(_) => break,
            }
        }
        let rest = self.unread.split_off(length.min(self.unread.len()));
        String::from_utf8(mem::replace(&mut self.unread, rest)).unwrap()
    }

    pub fn must_print(&mut self, expected: &str, what: &str) {
        assert_lines(&self.take(expected.len()), expected, what);
    }

    /// Neither prints nor closes its output.
    pub fn must_be_silent(&self, time: Duration, what: &str) {
        assert!(self.unread.is_empty(), "{what}");
        assert_eq!(self.output.recv_timeout(time), Err(RecvTimeoutError::Timeout), "{what}");
    }

    /// How the program ended, and what it printed since, on standard output and standard error.
    pub fn end(mut self) -> (ExitStatus, String, String) {
        let stdout = self.take(usize::MAX);
        let status = self.until("end", |session| session.child.try_wait().unwrap());
        let mut stderr = String::new();
        self.child.stderr.take().unwrap().read_to_string(&mut stderr).unwrap();
        (status, stdout, stderr)
    }

    /// The same of a program that ended with status 0 and without a word on standard error.
    pub fn end_well(self) -> String {
        let (status, stdout, stderr) = self.end();
        assert_eq!(stderr, "");
        assert!(status.success(), "{status}");
        stdout
    }

    pub fn until<T>(&mut self, what: &str, mut found: impl FnMut(&mut Session) -> Option<T>) -> T {
        loop {
            if let Some(found) = found(self) {
                return found;
            }
            assert!(!self.time_left().is_zero(), "the program does not {what}");
            thread::sleep(Duration::from_micros(100));
        }
    }

    pub fn until_it_waits(&mut self) {
        self.until("wait", |session| (session.state() == Some('S')).then_some(()));
    }

    /// As the system gives it: S where it waits, T where it is stopped.
    fn state(&self) -> Option<char> {
        let stat = fs::read_to_string(format!("/proc/{}/stat", self.child.id())).ok()?;
        stat.rsplit(')').next()?.trim_start().chars().next()
    }

    pub fn stop(&mut self) {
        self.signal(SIGSTOP);
        self.until("stop", |session| (session.state() == Some('T')).then_some(()));
    }

    pub fn go_on(&mut self) {
        self.signal(SIGCONT);
        self.until("go on", |session| (session.state() != Some('T')).then_some(()));
    }

    fn signal(&self, signal: c_int) {
        // SAFETY: no memory is involved, and the child was not waited for: its number is its own.
        assert_eq!(unsafe { kill(self.child.id() as c_int, signal) }, 0);
    }
}

/// Nothing is left running by a test that failed.
impl Drop for Session {
    fn drop(&mut self) {
        let _ = self.child.kill();
        let _ = self.child.wait();
    }
}

extern "C" {
    fn fcntl(file: c_int, command: c_int, ...) -> c_int;
    fn kill(process: c_int, signal: c_int) -> c_int;
}

/// Linux's numbers.
const F_SETFL: c_int = 4;
const O_NONBLOCK: c_int = 0o4000;
const SIGCONT: c_int = 18;
const SIGSTOP: c_int = 19;

pub fn set_nonblocking(file: &impl AsRawFd) {
    // SAFETY: the file is open, and the argument is a number.
    assert_eq!(unsafe { fcntl(file.as_raw_fd(), F_SETFL, O_NONBLOCK) }, 0);
}

/// The output is closed before the channel is.
fn pass_on(to: Sender<Vec<u8>>, mut output: impl Read) {
    let mut bytes = [0; 1 << 16];
    while let Ok(length @ 1..) = output.read(&mut bytes) {
        if to.send(bytes[..length].to_vec()).is_err() {
            return;
        }
    }
}

/// Writes what is sent, so that the test is not stuck where the program does not read. The input is closed where the sender is gone.
pub fn in_background(mut input: PipeWriter) -> Sender<Vec<u8>> {
    let (sender, pieces) = channel::<Vec<u8>>();
    thread::spawn(move || pieces.iter().try_for_each(|piece| input.write_all(&piece)));
    sender
}
