//! The lock of a folder that hubs take, by the system's own call.
use std::fs::File;
use std::io;
use std::os::fd::AsRawFd;

const EXCLUSIVE: i32 = 2;
const AT_ONCE: i32 = 4;

extern "C" {
    fn flock(fd: i32, operation: i32) -> i32;
}

/// Locks an open file or folder; `WouldBlock` where another has it. It is freed with the file.
pub fn try_lock(file: &File) -> io::Result<()> {
    match unsafe { flock(file.as_raw_fd(), EXCLUSIVE | AT_ONCE) } {
        0 => Ok(()),
        _ => Err(io::Error::last_os_error()),
    }
}
