//! What goes when the program is ended from outside: files that are half written.

use std::ffi::{CString, c_char, c_int};
use std::path::Path;
use std::ptr;
use std::sync::atomic::{AtomicPtr, Ordering};

unsafe extern "C" {
    fn signal(number: c_int, handler: usize) -> usize;
    fn raise(number: c_int) -> c_int;
    fn unlink(path: *const c_char) -> c_int;
    fn rmdir(path: *const c_char) -> c_int;
}

/// The signals of a terminal that hangs up, of Ctrl-C and of a plain `kill`.
const SIGNALS: [c_int; 3] = [1, 2, 15];
/// The handlers that end the program, and that do nothing.
const DEFAULT: usize = 0;
const IGNORED: usize = 1;

/// The paths that go, the last first. A path that was put here stays in memory, for a signal may come at any time.
const MOST: usize = 8;
static HALF_WRITTEN: [AtomicPtr<c_char>; MOST] = [const { AtomicPtr::new(ptr::null_mut()) }; MOST];

/// Removes what is half written, and ends the program as the signal would have. It does only what a handler may.
extern "C" fn remove_and_end(number: c_int) {
    for path in HALF_WRITTEN.iter().rev() {
        let path = path.load(Ordering::SeqCst);
        if !path.is_null() {
            // SAFETY: the path is a text that stays, and both calls are allowed in a handler. A folder that is not empty stays.
            unsafe {
                if unlink(path) != 0 {
                    rmdir(path);
                }
            }
        }
    }
    // SAFETY: both calls are allowed in a handler.
    unsafe {
        signal(number, DEFAULT);
        raise(number);
    }
}

/// Has a path removed, a file or a folder that is empty then, where a signal ends the program.
pub fn removes(path: &Path) {
    for number in SIGNALS {
        // SAFETY: the handler does only what one may. A signal that is ignored, as under nohup, stays so.
        unsafe {
            if signal(number, remove_and_end as *const () as usize) == IGNORED {
                signal(number, IGNORED);
            }
        }
    }
    let Ok(path) = CString::new(path.as_os_str().as_encoded_bytes()) else { return };
    let free = HALF_WRITTEN.iter().find(|place| place.load(Ordering::SeqCst).is_null());
    if let Some(place) = free {
        place.store(path.into_raw(), Ordering::SeqCst);
    }
}

/// Leaves all paths where they are from now on.
pub fn keeps_all() {
    for place in &HALF_WRITTEN {
        place.store(ptr::null_mut(), Ordering::SeqCst);
    }
}
