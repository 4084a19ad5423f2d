//! The clock: the time that this thread has had a core. Waiting for one, on a loaded machine, is not in it.

#[repr(C)]
struct Timespec {
    seconds: i64,
    nanoseconds: i64,
}

extern "C" {
    fn clock_gettime(clock: i32, time: *mut Timespec) -> i32;
}

const THREAD_CPUTIME: i32 = 3;

fn now() -> f64 {
    let mut t = Timespec { seconds: 0, nanoseconds: 0 };
    let status = unsafe { clock_gettime(THREAD_CPUTIME, &mut t) };
    assert_eq!(status, 0, "a clock for threads");
    t.seconds as f64 * 1e9 + t.nanoseconds as f64
}

pub struct Clock {
    /// What reading the clock costs; it is taken off each time.
    own: f64,
}

impl Clock {
    pub fn new() -> Self {
        let mut own = f64::INFINITY;
        for _ in 0..1000 {
            let start = now();
            own = own.min(now() - start);
        }
        Clock { own }
    }

    /// Nanoseconds.
    pub fn time(&self, go: &mut dyn FnMut()) -> f64 {
        let start = now();
        go();
        (now() - start - self.own).max(0.0)
    }
}
