//! What the standard library does not give a program: temporary files that are removed when a signal ends it, an end that a
//! signal asks for, and whether standard output was closed at its start.
use std::ffi::{CString, c_char, c_int};
use std::os::unix::ffi::OsStrExt;
use std::path::Path;
use std::ptr::null_mut;
use std::sync::atomic::{AtomicBool, AtomicPtr, Ordering::SeqCst};

type Handler = extern "C" fn(c_int);

unsafe extern "C" {
    fn signal(number: c_int, handler: usize) -> usize;
    fn raise(number: c_int) -> c_int;
    fn unlink(name: *const c_char) -> c_int;
    fn fcntl(file: c_int, command: c_int, ...) -> c_int;
}

const SIGHUP: c_int = 1;
const SIGINT: c_int = 2;
const SIGTERM: c_int = 15;
/// A file would grow beyond what the process may write.
const SIGXFSZ: c_int = 25;
const DEFAULT: usize = 0;
const IGNORED: usize = 1;
const STANDARD_OUTPUT: c_int = 1;
const GET_FLAGS: c_int = 1;

/// The most outputs of a command: the feeds of a rack.
const MOST_OUTPUTS: usize = 16;

/// The names to remove.
static NAMES: [AtomicPtr<c_char>; MOST_OUTPUTS] = [const { AtomicPtr::new(null_mut()) }; MOST_OUTPUTS];
static OUTPUT_CLOSED: AtomicBool = AtomicBool::new(false);

/// Removes the temporary files, and lets the signal end the program. It calls only what a handler may.
extern "C" fn ended(number: c_int) {
    for name in &NAMES {
        let name = name.load(SeqCst);
        if !name.is_null() {
            unsafe { unlink(name) };
        }
    }
    unsafe {
        signal(number, DEFAULT);
        raise(number);
    }
}

/// From here on hang-up, interrupt and termination remove the temporary files; one that the caller has ignored stays so.
pub fn catch() {
    for number in [SIGHUP, SIGINT, SIGTERM] {
        unsafe {
            if signal(number, ended as Handler as usize) == IGNORED {
                signal(number, IGNORED);
            }
        }
    }
}

static END_ASKED: AtomicBool = AtomicBool::new(false);

extern "C" fn asked(_: c_int) {
    END_ASKED.store(true, SeqCst);
}

/// From here on hang-up, interrupt and termination ask for an end (`end_asked`); one that the caller has ignored stays so. A
/// write beyond the largest file fails, and does not end the program.
pub fn catch_as_asked() {
    unsafe { signal(SIGXFSZ, IGNORED) };
    for number in [SIGHUP, SIGINT, SIGTERM] {
        unsafe {
            if signal(number, asked as Handler as usize) == IGNORED {
                signal(number, IGNORED);
            }
        }
    }
}

pub fn end_asked() -> bool {
    END_ASKED.load(SeqCst)
}

pub fn remove_when_ended(name: &Path) {
    let Ok(name) = CString::new(name.as_os_str().as_bytes()) else { return };
    let name = name.into_raw();
    let free = NAMES.iter().any(|n| n.compare_exchange(null_mut(), name, SeqCst, SeqCst).is_ok());
    if !free {
        drop(unsafe { CString::from_raw(name) });
    }
}

/// The name is no longer one to remove. Its few bytes are kept: a handler may be reading them.
pub fn removed(name: &Path) {
    for slot in &NAMES {
        let found = slot.load(SeqCst);
        if !found.is_null() && unsafe { std::ffi::CStr::from_ptr(found) }.to_bytes() == name.as_os_str().as_bytes() {
            slot.store(null_mut(), SeqCst);
        }
    }
}

/// Runs before the standard library starts, which opens /dev/null in place of a closed standard output.
extern "C" fn look() {
    OUTPUT_CLOSED.store(unsafe { fcntl(STANDARD_OUTPUT, GET_FLAGS) } < 0, SeqCst);
}

#[used]
#[unsafe(link_section = ".init_array")]
static LOOK: extern "C" fn() = look;

pub fn standard_output_was_closed() -> bool {
    OUTPUT_CLOSED.load(SeqCst)
}
