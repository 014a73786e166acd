//! Memory that the operating system maps, which another program may have too. The standard library links that of C, two functions of which stand here.
use std::ffi::{c_int, c_void};
use std::fs::File;
use std::io;
use std::os::fd::AsRawFd;

const READ_WRITE: c_int = 3;
const SHARED: c_int = 1;
const PRIVATE_ANONYMOUS: c_int = 0x22;

extern "C" {
    fn mmap(at: *mut c_void, length: usize, access: c_int, flags: c_int, file: c_int, offset: i64) -> *mut c_void;
    fn munmap(at: *mut c_void, length: usize) -> c_int;
}

pub struct Mapping {
    start: *mut u8,
    length: usize,
}

impl Mapping {
    /// Zeros that no other program has.
    pub fn anonymous(length: usize) -> io::Result<Mapping> {
        Mapping::new(length, PRIVATE_ANONYMOUS, -1)
    }

    /// The bytes of a file, which has so many. What another program that maps it writes there is seen here at once.
    ///
    /// # Safety
    ///
    /// No other program writes them while they are borrowed here, nor cuts off any.
    pub unsafe fn shared(file: &File, length: usize) -> io::Result<Mapping> {
        Mapping::new(length, SHARED, file.as_raw_fd())
    }

    fn new(length: usize, flags: c_int, file: c_int) -> io::Result<Mapping> {
        // SAFETY: the addresses are new ones.
        let start = unsafe { mmap(std::ptr::null_mut(), length, READ_WRITE, flags, file, 0) };
        match start as isize {
            -1 => Err(io::Error::last_os_error()),
            _ => Ok(Mapping { start: start.cast(), length }),
        }
    }

    pub fn pointer(&self) -> *mut u8 {
        self.start
    }

    pub fn bytes(&self) -> &[u8] {
        // SAFETY: they are mapped for as long as `self` is there.
        unsafe { std::slice::from_raw_parts(self.start, self.length) }
    }

    pub fn bytes_mut(&mut self) -> &mut [u8] {
        // SAFETY: as above, and `self` is borrowed by nobody else.
        unsafe { std::slice::from_raw_parts_mut(self.start, self.length) }
    }
}

impl Drop for Mapping {
    fn drop(&mut self) {
        // SAFETY: nothing borrows the bytes any more.
        unsafe { munmap(self.start.cast(), self.length) };
    }
}
