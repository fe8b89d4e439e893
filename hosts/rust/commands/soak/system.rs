//! What a soak asks of the system beyond the standard library: writes that do not wait, how much of a pipe is unread, and the
//! end by a signal of its own.
use std::ffi::{c_int, c_ulong};
use std::io::{Error, ErrorKind};
use std::os::fd::{AsRawFd, RawFd};
use std::time::Duration;

/// The flag of `open` and of an open file: calls do not wait (Linux).
pub const NONBLOCKING: c_int = 0x800;
/// The error of opening a named pipe that nobody reads.
pub const NO_READER: c_int = 6;

const SET_FLAGS: c_int = 4;
const SET_PIPE_SIZE: c_int = 1031;
const LARGE_PIPE: c_int = 1 << 20;
const UNREAD: c_ulong = 0x541b;
const WRITABLE: i16 = 4;
const KILL: c_int = 9;

#[repr(C)]
struct Polled {
    file: c_int,
    wanted: i16,
    found: i16,
}

unsafe extern "C" {
    fn poll(files: *mut Polled, count: c_ulong, milliseconds: c_int) -> c_int;
    fn ioctl(file: c_int, request: c_ulong, ...) -> c_int;
    fn fcntl(file: c_int, command: c_int, ...) -> c_int;
    fn raise(number: c_int) -> c_int;
    fn kill(process: c_int, number: c_int) -> c_int;
}

/// From here on, writes to this end of a pipe do not wait.
pub fn do_not_wait(file: &impl AsRawFd) -> Result<(), Error> {
    match unsafe { fcntl(file.as_raw_fd(), SET_FLAGS, NONBLOCKING) } {
        -1 => Err(Error::last_os_error()),
        _ => Ok(()),
    }
}

/// Asks for a pipe that holds much, so that its two ends take turns less often. It may stay as it is.
pub fn enlarge(pipe: &impl AsRawFd) {
    unsafe { fcntl(pipe.as_raw_fd(), SET_PIPE_SIZE, LARGE_PIPE) };
}

/// Waits until the file takes bytes or fails, but no longer than this.
pub fn wait_until_writable(file: RawFd, longest: Duration) {
    let mut polled = Polled { file, wanted: WRITABLE, found: 0 };
    unsafe { poll(&mut polled, 1, longest.as_millis() as c_int) };
}

/// The bytes of a pipe that were written and not read.
pub fn unread(pipe: &impl AsRawFd) -> Result<usize, Error> {
    let mut count: c_int = 0;
    match unsafe { ioctl(pipe.as_raw_fd(), UNREAD, &mut count as *mut c_int) } {
        0 => Ok(count as usize),
        _ => Err(Error::last_os_error()),
    }
}

/// Whether a write is to be tried again.
pub fn try_again(e: &Error) -> bool {
    matches!(e.kind(), ErrorKind::WouldBlock | ErrorKind::Interrupted)
}

/// Ends a process that leads a group of its own, and what it has started in that group.
pub fn end_group(process: u32) {
    if let Ok(process) = c_int::try_from(process) {
        unsafe { kill(-process, KILL) };
    }
}

/// Ends the program as `kill -9` does: nothing is finished and nothing is removed.
pub fn end_at_once() {
    unsafe { raise(KILL) };
}
