//! The processor time of this process: on a busy machine it leaves out the time in which others run. Ours has one thread;
//! another program's library may start more, and they count.
use std::time::Duration;

#[repr(C)]
struct Timespec {
    seconds: i64,
    nanoseconds: i64,
}

extern "C" {
    fn clock_gettime(clock: i32, time: *mut Timespec) -> i32;
}

/// CLOCK_PROCESS_CPUTIME_ID of Linux.
const PROCESS: i32 = 2;

pub fn now() -> Duration {
    let mut time = Timespec { seconds: 0, nanoseconds: 0 };
    assert!(unsafe { clock_gettime(PROCESS, &mut time) } == 0);
    Duration::new(time.seconds as u64, time.nanoseconds as u32)
}
