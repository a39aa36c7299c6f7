//! Standard input and standard output, if they were open when the program was started. In the place of one that was not, the runtime of Rust
//! opens `/dev/null` before `main`, which gives nothing and takes everything without an error. So the system is asked before the runtime
//! begins, by a function that the loader calls.

use std::ffi::c_int;
use std::fs::File;
use std::io;
use std::os::fd::AsFd;
use std::sync::atomic::{AtomicBool, Ordering};

/// Whether each of the two was closed, by its number.
static CLOSED: [AtomicBool; 2] = [AtomicBool::new(false), AtomicBool::new(false)];

unsafe extern "C" {
    // SAFETY: with the command below it only looks a number up, and takes no third argument.
    safe fn fcntl(fd: c_int, command: c_int, ...) -> c_int;
}

const F_GETFD: c_int = 1;

// SAFETY: the section is the one in which the loader looks for functions to call before `main`. This one needs nothing of the runtime.
#[used]
#[unsafe(link_section = ".init_array")]
static BEFORE_MAIN: extern "C" fn() = look;

extern "C" fn look() {
    for (fd, closed) in (0..).zip(&CLOSED) {
        closed.store(fcntl(fd, F_GETFD) == -1, Ordering::Relaxed);
    }
}

pub fn input() -> io::Result<File> {
    if_open(0, io::stdin())
}

/// The runtime's own standard output would look for newlines in every page again.
pub fn output() -> io::Result<File> {
    if_open(1, io::stdout())
}

fn if_open(number: usize, stream: impl AsFd) -> io::Result<File> {
    match CLOSED[number].load(Ordering::Relaxed) {
        true => Err(io::Error::other("it is not open")),
        false => stream.as_fd().try_clone_to_owned().map(File::from),
    }
}
