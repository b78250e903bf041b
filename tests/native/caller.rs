//! A thread with a small stack of our own, between unreadable pages, on which the engine is called; and how much of that stack
//! a call took.
use crate::pages::Pages;
use std::ffi::c_void;
use std::sync::mpsc::{sync_channel, Receiver, SyncSender};

#[repr(C, align(16))]
struct ThreadAttributes([u8; 64]);

#[repr(C)]
struct SignalStack {
    start: *mut u8,
    flags: i32,
    length: usize,
}

extern "C" {
    fn pthread_attr_init(attributes: *mut ThreadAttributes) -> i32;
    fn pthread_attr_setstack(attributes: *mut ThreadAttributes, start: *mut c_void, length: usize) -> i32;
    fn pthread_create(
        thread: *mut usize,
        attributes: *const ThreadAttributes,
        start: extern "C" fn(*mut c_void) -> *mut c_void,
        argument: *mut c_void,
    ) -> i32;
    fn sigaltstack(new: *const SignalStack, old: *mut SignalStack) -> i32;
}

const SIGNAL_STACK: usize = 1 << 16;
/// What an unused word of the stack holds.
const UNUSED: u64 = 0xa7a7_a7a7_a7a7_a7a7;
const WORD: usize = 8;

/// A call that waits to be made.
struct Job(*mut (dyn FnMut() + 'static));
unsafe impl Send for Job {}

/// The thread's own ends of the two channels.
struct Ends {
    waiting: Receiver<Job>,
    ready: SyncSender<()>,
}

/// The thread that makes the calls, one at a time.
pub struct Caller {
    jobs: SyncSender<Job>,
    done: Receiver<()>,
    stack: Pages,
}

impl Caller {
    /// The stack is of so many bytes, rounded up to whole pages.
    pub fn with_stack(bytes: usize) -> Caller {
        let (jobs, waiting) = sync_channel::<Job>(1);
        let (ready, done) = sync_channel(1);
        let stack = Pages::holding(bytes);
        let ends = Box::into_raw(Box::new(Ends { waiting, ready }));
        let mut attributes = ThreadAttributes([0; 64]);
        let mut thread = 0;
        let started = unsafe {
            pthread_attr_init(&mut attributes) == 0
                && pthread_attr_setstack(&mut attributes, stack.start as *mut c_void, stack.length) == 0
                && pthread_create(&mut thread, &attributes, make_calls, ends as *mut c_void) == 0
        };
        assert!(started, "no thread to be had on {bytes} bytes");
        Caller { jobs, done, stack }
    }

    /// Makes the call on the thread and waits for it.
    pub fn call<R>(&self, job: impl FnOnce() -> R) -> R {
        let mut job = Some(job);
        let mut answer = None;
        let mut work = || answer = job.take().map(|job| job());
        let borrowed: &mut dyn FnMut() = &mut work;
        // the thread is done with the borrow before this returns
        let lasting = unsafe { std::mem::transmute::<*mut (dyn FnMut() + '_), *mut (dyn FnMut() + 'static)>(borrowed) };
        self.jobs.send(Job(lasting)).expect("the calling thread");
        self.done.recv().expect("the calling thread");
        answer.expect("an answer")
    }

    /// Makes the call and says how many bytes of stack it took, from the frame that makes it down.
    pub fn measured<R>(&self, job: impl FnOnce() -> R) -> (R, usize) {
        let start = self.stack.start as usize;
        self.call(|| {
            // no function is called but the job: it would come to the stack below this frame itself
            let end = stack_pointer();
            for word in (start..end).step_by(WORD) {
                unsafe { (word as *mut u64).write_volatile(UNUSED) };
            }
            let answer = job();
            let mut words = (start..end).step_by(WORD);
            let deepest = words.find(|&word| unsafe { (word as *const u64).read_volatile() } != UNUSED);
            (answer, end - deepest.unwrap_or(end))
        })
    }
}

/// Where the frame that asks ends.
#[inline(always)]
fn stack_pointer() -> usize {
    let pointer: usize;
    #[cfg(target_arch = "x86_64")]
    unsafe {
        std::arch::asm!("mov {}, rsp", out(reg) pointer)
    };
    #[cfg(target_arch = "aarch64")]
    unsafe {
        std::arch::asm!("mov {}, sp", out(reg) pointer)
    };
    pointer
}

extern "C" fn make_calls(ends: *mut c_void) -> *mut c_void {
    let Ends { waiting, ready } = *unsafe { Box::from_raw(ends as *mut Ends) };
    let own = SignalStack { start: Pages::holding(SIGNAL_STACK).start, flags: 0, length: SIGNAL_STACK };
    unsafe { sigaltstack(&own, std::ptr::null_mut()) };
    while let Ok(Job(job)) = waiting.recv() {
        unsafe { (*job)() };
        if ready.send(()).is_err() {
            break;
        }
    }
    std::ptr::null_mut()
}
