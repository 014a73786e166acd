//! Standard output, with the errors that std passes over: it takes a write to a closed standard output for a success.
use std::fs::File;
use std::io::{self, Write};
use std::os::fd::AsFd;
use std::sync::atomic::{AtomicBool, Ordering};

/// Was standard output closed when the process started? Before main, std opens /dev/null in the place of a closed one.
static CLOSED: AtomicBool = AtomicBool::new(false);

#[used]
#[link_section = ".init_array"]
static AT_START: extern "C" fn() = at_start;

extern "C" fn at_start() {
    CLOSED.store(own_output().is_err(), Ordering::Relaxed);
}

/// Standard output by a file descriptor of its own.
fn own_output() -> io::Result<File> {
    Ok(File::from(io::stdout().as_fd().try_clone_to_owned()?))
}

pub fn write(bytes: &[u8]) -> io::Result<()> {
    if CLOSED.load(Ordering::Relaxed) {
        return Err(io::Error::other("standard output is closed"));
    }
    own_output()?.write_all(bytes)
}
