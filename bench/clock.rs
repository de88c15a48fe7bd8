// Times: whole runs by the system's clock, single slots by the processor's counter.

use std::time::{Duration, Instant};

/// The counter, calibrated by the system's clock.
pub struct Counter {
    ns_a_tick: f64,
}

#[cfg(target_arch = "x86_64")]
#[inline]
pub fn ticks() -> u64 {
    use std::arch::x86_64::{_mm_lfence, _rdtsc};
    // SAFETY: every processor of this kind has both instructions. The fence waits until what stands before has ended.
    unsafe {
        _mm_lfence();
        _rdtsc()
    }
}

impl Counter {
    pub fn calibrated() -> Self {
        let (clock, counter) = (Instant::now(), ticks());
        while clock.elapsed() < Duration::from_millis(100) {
            std::hint::spin_loop();
        }
        let elapsed = ticks() - counter;
        Counter { ns_a_tick: clock.elapsed().as_nanos() as f64 / elapsed as f64 }
    }

    pub fn ns(&self, ticks: u64) -> f64 {
        ticks as f64 * self.ns_a_tick
    }

    /// What the time of a slot has of the counter itself: the median of nothing, measured.
    pub fn own_ns(&self) -> f64 {
        let mut times: Vec<u64> = (0..10_001)
            .map(|_| {
                let start = ticks();
                ticks() - start
            })
            .collect();
        times.sort_unstable();
        self.ns(times[times.len() / 2])
    }
}
