//! The standard streams as the system has them. The runtime opens /dev/null in the place of those that are closed when the
//! program begins, and takes a descriptor that cannot be read or written for one that is empty or takes all: a list would
//! be lost without a word.

use std::ffi::c_int;
use std::fs::File;
use std::io::{self, Read, Write};
use std::mem::ManuallyDrop;
use std::os::fd::FromRawFd;
use std::sync::atomic::{AtomicBool, Ordering};

unsafe extern "C" {
    fn fcntl(descriptor: c_int, command: c_int, ...) -> c_int;
}

/// The command of fcntl that only looks at a descriptor, and the system's number for one that is bad.
const GET_FLAGS: c_int = 1;
const BAD_DESCRIPTOR: i32 = 9;

const INPUT: c_int = 0;
const OUTPUT: c_int = 1;

/// Whether standard input and output were closed when the program began.
static CLOSED: [AtomicBool; 2] = [AtomicBool::new(false), AtomicBool::new(false)];

/// Runs before the runtime begins, and so before it opens anything.
extern "C" fn note_closed() {
    for (descriptor, closed) in [INPUT, OUTPUT].into_iter().zip(&CLOSED) {
        // SAFETY: it changes nothing, whatever the descriptor is.
        closed.store(unsafe { fcntl(descriptor, GET_FLAGS) } < 0, Ordering::Relaxed);
    }
}

#[used]
#[unsafe(link_section = ".init_array")]
static BEFORE_MAIN: extern "C" fn() = note_closed;

/// A standard stream, which is not closed when this goes.
pub struct Stream {
    was_closed: &'static AtomicBool,
    file: ManuallyDrop<File>,
}

impl Stream {
    pub fn input() -> Stream {
        Stream::new(INPUT, &CLOSED[0])
    }

    pub fn output() -> Stream {
        Stream::new(OUTPUT, &CLOSED[1])
    }

    fn new(descriptor: c_int, was_closed: &'static AtomicBool) -> Stream {
        // SAFETY: the descriptor stays open as long as the program runs, for nothing here closes it.
        let file = ManuallyDrop::new(unsafe { File::from_raw_fd(descriptor) });
        Stream { was_closed, file }
    }

    /// An error where the stream was closed when the program began.
    fn open(&self) -> io::Result<()> {
        if self.was_closed.load(Ordering::Relaxed) { Err(io::Error::from_raw_os_error(BAD_DESCRIPTOR)) } else { Ok(()) }
    }
}

impl Read for Stream {
    fn read(&mut self, buffer: &mut [u8]) -> io::Result<usize> {
        self.open()?;
        self.file.read(buffer)
    }
}

impl Write for Stream {
    fn write(&mut self, bytes: &[u8]) -> io::Result<usize> {
        self.open()?;
        self.file.write(bytes)
    }

    fn flush(&mut self) -> io::Result<()> {
        Ok(())
    }
}
