//! The one system call that std hasn't got in the Rust that this crate is written for.

use std::ffi::c_int;
use std::fs::File;
use std::io;
use std::os::fd::AsRawFd;

const LOCK_EX: c_int = 2;
const LOCK_NB: c_int = 4;
const LOCK_UN: c_int = 8;

unsafe extern "C" {
    fn flock(descriptor: c_int, operation: c_int) -> c_int;
}

/// Locks a file or folder for whoever has it open this way, until that is closed, also by the process's end. Where another one has it the
/// error's kind is `WouldBlock`, at once.
pub(crate) fn lock_alone(file: &File) -> io::Result<()> {
    // SAFETY: the descriptor is open as long as the file is there; no memory is shared.
    match unsafe { flock(file.as_raw_fd(), LOCK_EX | LOCK_NB) } {
        0 => Ok(()),
        _ => Err(io::Error::last_os_error()),
    }
}

/// Ends that lock at once. To close the file isn't enough: a child that another thread has forked has it open, too, until it runs a program.
pub(crate) fn unlock(file: &File) {
    // SAFETY: as above. It can't fail: there is nothing to wait for.
    unsafe { flock(file.as_raw_fd(), LOCK_UN) };
}
