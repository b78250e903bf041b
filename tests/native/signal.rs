//! Signals and hangs: both end the process with a line that says in which case it was.
use std::fs::File;
use std::io::Write;
use std::os::fd::{AsRawFd, FromRawFd};
use std::process::ExitCode;
use std::sync::atomic::{AtomicI32, AtomicU64, Ordering};
use std::time::Duration;

/// The case that is being tried.
pub static PLACE: AtomicU64 = AtomicU64::new(0);
/// How many calls were made: the last of them is being made.
pub static CALLS: AtomicU64 = AtomicU64::new(0);
static OUT: AtomicI32 = AtomicI32::new(-1);

/// The status of a process that a signal ended.
pub const SIGNALLED: i32 = 4;

const SIGNALS: [i32; 4] = [4, 7, 8, 11]; // illegal instruction, bus, arithmetic, segment
const SA_ONSTACK: i32 = 0x0800_0000;
/// No call takes so long.
const HANG: Duration = Duration::from_secs(60);
const LOOK: Duration = Duration::from_millis(50);

#[repr(C)]
struct SigAction {
    handler: extern "C" fn(i32),
    mask: [u64; 16],
    flags: i32,
    restorer: usize,
}

extern "C" {
    fn sigaction(signal: i32, new: *const SigAction, old: *mut SigAction) -> i32;
    fn _exit(status: i32) -> !;
}

pub fn report_to(out: &File) {
    OUT.store(out.as_raw_fd(), Ordering::Relaxed);
    let action = SigAction { handler: signalled, mask: [0; 16], flags: SA_ONSTACK, restorer: 0 };
    for signal in SIGNALS {
        unsafe { sigaction(signal, &action, std::ptr::null_mut()) };
    }
}

extern "C" fn signalled(signal: i32) {
    say(&format!("signal {signal}"));
    unsafe { _exit(SIGNALLED) }
}

fn say(what: &str) {
    let mut out = unsafe { File::from_raw_fd(OUT.load(Ordering::Relaxed)) };
    let (place, call) = (PLACE.load(Ordering::Relaxed), CALLS.load(Ordering::Relaxed));
    let _ = writeln!(out, "{what} in case {place}, call {call}");
    std::mem::forget(out);
}

/// Does the work on a thread with so many bytes of stack, and watches it. The status is 0 where all is well, 1 where
/// something is found, 2 where the work cannot be done and 3 where a call has no end.
pub fn watched(stack: usize, out: &File, work: impl FnOnce() -> Result<bool, String> + Send + 'static) -> ExitCode {
    let worker = std::thread::Builder::new().stack_size(stack).spawn(work).expect("a thread");
    while !worker.is_finished() {
        if stuck() {
            return ExitCode::from(3);
        }
    }
    match worker.join() {
        Ok(Ok(true)) => ExitCode::SUCCESS,
        Ok(Ok(false)) => ExitCode::from(1),
        Ok(Err(message)) => {
            let _ = writeln!(&mut &*out, "{message}");
            ExitCode::from(2)
        }
        Err(_) => ExitCode::from(2),
    }
}

/// Waits a little. Has a single case lasted too long?
fn stuck() -> bool {
    static SINCE: AtomicU64 = AtomicU64::new(0);
    static SEEN: AtomicU64 = AtomicU64::new(0);
    std::thread::sleep(LOOK);
    let now = CALLS.load(Ordering::Relaxed);
    if SEEN.swap(now, Ordering::Relaxed) != now {
        SINCE.store(0, Ordering::Relaxed);
        return false;
    }
    let waited = SINCE.fetch_add(1, Ordering::Relaxed) * LOOK.as_millis() as u64;
    let hangs = waited > HANG.as_millis() as u64;
    if hangs {
        say("no end");
    }
    hangs
}
