//! What is printed to standard output while something is done: caught in memory, and not seen.
use std::ffi::c_char;
use std::fs::File;
use std::io::{stdout, Read, Result, Seek, Write};
use std::os::fd::{AsFd, AsRawFd, FromRawFd};

extern "C" {
    fn memfd_create(name: *const c_char, flags: u32) -> i32;
    fn dup2(from: i32, to: i32) -> i32;
}

const STANDARD_OUTPUT: i32 = 1;

/// What the work prints. No other thread may print meanwhile.
pub fn captured(work: impl FnOnce()) -> Result<Vec<u8>> {
    stdout().flush()?;
    let own = stdout().as_fd().try_clone_to_owned()?;
    let mut caught = in_memory()?;
    unsafe { dup2(caught.as_raw_fd(), STANDARD_OUTPUT) };
    work();
    let flushed = stdout().flush();
    unsafe { dup2(own.as_raw_fd(), STANDARD_OUTPUT) };
    flushed?;
    let mut printed = vec![];
    caught.rewind()?;
    caught.read_to_end(&mut printed)?;
    Ok(printed)
}

fn in_memory() -> Result<File> {
    let file = unsafe { memfd_create(c"captured".as_ptr(), 0) };
    if file < 0 {
        return Err(std::io::Error::last_os_error());
    }
    Ok(unsafe { File::from_raw_fd(file) })
}
