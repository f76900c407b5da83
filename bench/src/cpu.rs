//! CPU time of this process, all its threads together.
use std::arch::asm;

#[repr(C)]
struct Timespec {
    seconds: i64,
    nanoseconds: i64,
}

const PROCESS_CPUTIME: i32 = 2;

extern "C" {
    fn clock_gettime(clock: i32, time: *mut Timespec) -> i32;
}

fn now() -> f64 {
    let mut time = Timespec { seconds: 0, nanoseconds: 0 };
    // SAFETY: the struct is Linux's timespec on x86-64, lent for writing.
    assert_eq!(unsafe { clock_gettime(PROCESS_CPUTIME, &mut time) }, 0);
    time.seconds as f64 + 1e-9 * time.nanoseconds as f64
}

/// Seconds of CPU time.
pub fn timed(run: &mut dyn FnMut()) -> f64 {
    let begin = now();
    run();
    now() - begin
}

pub fn median(mut times: Vec<f64>) -> f64 {
    times.sort_by(f64::total_cmp);
    times[times.len() / 2]
}

/// The clock's rate in Hz, by products that wait for each other: each takes 3 cycles on every x86-64 of this century.
pub fn clock() -> f64 {
    const TURNS: u64 = 20_000_000;
    let mut products = || {
        let (mut left, mut x) = (TURNS, 3u64);
        // SAFETY: registers alone.
        unsafe {
            asm!("2:", "imul {x}, {x}", "imul {x}, {x}", "dec {left}", "jnz 2b",
                x = inout(reg) x, left = inout(reg) left, options(nomem, nostack));
        }
        std::hint::black_box((x, left));
    };
    let times = (0..5).map(|_| timed(&mut products)).collect();
    6.0 * TURNS as f64 / median(times)
}
