//! The processor time of this thread in seconds, which does not run on while another has the processor.

#[repr(C)]
#[derive(Default)]
struct Time {
    seconds: i64,
    nanoseconds: i64,
}

extern "C" {
    fn clock_gettime(clock: i32, time: *mut Time) -> i32;
}

const THREAD_TIME: i32 = 3;

pub fn now() -> f64 {
    let mut time = Time::default();
    assert_eq!(unsafe { clock_gettime(THREAD_TIME, &mut time) }, 0);
    time.seconds as f64 + time.nanoseconds as f64 * 1e-9
}
