//! CPU time in seconds. Other work on the machine lengthens wall-clock time,
//! but hardly this.

pub use clock::{children_seconds, thread_seconds, CHILDREN_CLOCK, THREAD_CLOCK};

#[cfg(all(target_os = "linux", target_arch = "x86_64"))]
mod clock {
    use std::ffi::{c_int, c_long};

    pub const THREAD_CLOCK: &str = "thread CPU time";
    pub const CHILDREN_CLOCK: &str = "CPU time";

    const CLOCK_THREAD_CPUTIME_ID: c_int = 3;
    const RUSAGE_CHILDREN: c_int = -1;

    /// A `timespec` counts nanoseconds after the seconds, a `timeval` microseconds.
    #[repr(C)]
    #[derive(Default)]
    struct Time {
        seconds: c_long,
        parts: c_long,
    }

    impl Time {
        fn in_seconds(&self, parts_of_a_second: f64) -> f64 {
            self.seconds as f64 + self.parts as f64 / parts_of_a_second
        }
    }

    #[repr(C)]
    #[derive(Default)]
    struct Usage {
        user: Time,
        system: Time,
        others: [c_long; 14],
    }

    extern "C" {
        fn clock_gettime(clock: c_int, time: *mut Time) -> c_int;
        fn getrusage(whose: c_int, usage: *mut Usage) -> c_int;
    }

    /// CPU time of this thread up to now.
    pub fn thread_seconds() -> f64 {
        let mut time = Time::default();
        // SAFETY: the pointer comes from a live borrow of a `timespec`.
        let status = unsafe { clock_gettime(CLOCK_THREAD_CPUTIME_ID, &mut time) };
        assert_eq!(status, 0, "the thread's CPU time cannot be read");
        time.in_seconds(1e9)
    }

    /// CPU time of the child processes that have ended up to now: in user mode,
    /// and in all.
    pub fn children_seconds() -> [f64; 2] {
        let mut usage = Usage::default();
        // SAFETY: the pointer comes from a live borrow of an `rusage`.
        let status = unsafe { getrusage(RUSAGE_CHILDREN, &mut usage) };
        assert_eq!(status, 0, "the children's CPU time cannot be read");
        let user = usage.user.in_seconds(1e6);
        [user, user + usage.system.in_seconds(1e6)]
    }
}

/// Elsewhere the wall clock stands in for both.
#[cfg(not(all(target_os = "linux", target_arch = "x86_64")))]
mod clock {
    use std::sync::OnceLock;
    use std::time::Instant;

    pub const THREAD_CLOCK: &str = "wall-clock time";
    pub const CHILDREN_CLOCK: &str = THREAD_CLOCK;

    /// Seconds since the first call.
    pub fn thread_seconds() -> f64 {
        static START: OnceLock<Instant> = OnceLock::new();
        START.get_or_init(Instant::now).elapsed().as_secs_f64()
    }

    pub fn children_seconds() -> [f64; 2] {
        [thread_seconds(); 2]
    }
}
