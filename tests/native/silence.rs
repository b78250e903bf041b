//! The Rust writes its messages to standard output and error, and refuses by a panic: neither shall be seen.
use std::fs::File;
use std::io::Write;
use std::os::fd::{AsRawFd, FromRawFd};
use std::panic::{catch_unwind, UnwindSafe};
use std::sync::atomic::{AtomicBool, Ordering};

extern "C" {
    fn dup(fd: i32) -> i32;
    fn dup2(from: i32, to: i32) -> i32;
}

/// True while a panic would be an answer.
static ASKED: AtomicBool = AtomicBool::new(false);

/// Sends standard output and error nowhere and hands back what was standard output. Panics of our own are still told there.
pub fn silence() -> File {
    let nowhere = File::options().write(true).open("/dev/null").expect("/dev/null");
    let own = unsafe {
        let own = File::from_raw_fd(dup(1));
        dup2(nowhere.as_raw_fd(), 1);
        dup2(nowhere.as_raw_fd(), 2);
        own
    };
    let told = own.try_clone().expect("standard output");
    std::panic::set_hook(Box::new(move |panic| {
        if !ASKED.load(Ordering::Relaxed) {
            let _ = writeln!(&told, "{panic}");
        }
    }));
    own
}

/// What the work comes to; nothing where it panics.
pub fn answered<R>(work: impl FnOnce() -> R + UnwindSafe) -> Option<R> {
    ASKED.store(true, Ordering::Relaxed);
    let answer = catch_unwind(work);
    ASKED.store(false, Ordering::Relaxed);
    answer.ok()
}
