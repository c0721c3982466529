//! How long a call takes: by the processor time of the thread, so that what else runs on the machine is not measured, or
//! by the time that passes, where the clock of processor time stands still or moves in long steps.

use std::time::Instant;

/// Two clocks, in seconds.
pub trait Clocks {
    /// How long this thread has had the processor.
    fn processor(&self) -> f64;
    /// How long it has been, whoever had the processor.
    fn passed(&self) -> f64;
}

/// The clock that is measured by.
#[derive(Clone, Copy, Debug, PartialEq, Eq)]
pub enum Clock {
    Processor,
    Passed,
}

/// A clock is fine enough if it moves this often while this long passes.
const MOVES: u32 = 5_000;
const TRIAL: f64 = 0.2;
/// Calls are measured together until they take this long; then what a call takes is known to a few hundredths.
const LEAST: f64 = 2e-5;
/// A clock that shows less than that while so long passes stands still.
const STILL: f64 = 0.25;

impl Clock {
    /// Processor time, if its clock is fine enough.
    pub fn of(clocks: &impl Clocks) -> Clock {
        let begin = clocks.passed();
        let mut last = clocks.processor();
        let mut moves = 0;
        while moves < MOVES {
            if clocks.passed() - begin >= TRIAL {
                return Clock::Passed;
            }
            let now = clocks.processor();
            moves += u32::from(now > last);
            last = now;
        }
        Clock::Processor
    }

    pub fn name(self) -> &'static str {
        match self {
            Clock::Processor => "processor time",
            Clock::Passed => "the time that passes, since the clock of processor time is too coarse",
        }
    }
}

/// The shortest time of a call, in seconds, of many turns.
pub struct Shortest {
    /// The calls of a turn, as many as take `LEAST`.
    calls: u32,
    pub a_call: f64,
    /// The time of all turns.
    pub all: f64,
}

impl Default for Shortest {
    fn default() -> Self {
        Shortest { calls: 1, a_call: f64::MAX, all: 0.0 }
    }
}

impl Shortest {
    /// One turn more. What it takes is never nothing: it is at least `LEAST` on the clock, or `STILL` has passed.
    pub fn turn(&mut self, clocks: &impl Clocks, clock: Clock, mut call: impl FnMut()) {
        let began = clocks.passed();
        loop {
            let passed = clocks.passed();
            let processor = clocks.processor();
            for _ in 0..self.calls {
                call();
            }
            let processor = clocks.processor() - processor;
            let now = clocks.passed();
            let taken = if clock == Clock::Processor { processor } else { now - passed };
            if taken >= LEAST {
                return self.add(taken);
            }
            if now > passed && now - began >= STILL {
                return self.add(now - passed);
            }
            self.calls = self.calls.saturating_mul(2);
        }
    }

    fn add(&mut self, taken: f64) {
        self.all += taken;
        self.a_call = self.a_call.min(taken / f64::from(self.calls));
    }
}

/// The clocks of this machine.
pub struct Machine(Instant);

impl Default for Machine {
    fn default() -> Self {
        Machine(Instant::now())
    }
}

/// As C has it on 64-bit Linux.
#[repr(C)]
struct Timespec {
    seconds: i64,
    nanoseconds: i64,
}

extern "C" {
    fn clock_gettime(clock: i32, time: *mut Timespec) -> i32;
}

const THREAD_CPU_TIME: i32 = 3;

impl Clocks for Machine {
    /// 0 where the machine has no such clock: it stands still then.
    fn processor(&self) -> f64 {
        let mut time = Timespec { seconds: 0, nanoseconds: 0 };
        // SAFETY: the pointer is that of a live value, which C's timespec is.
        let failed = unsafe { clock_gettime(THREAD_CPU_TIME, &mut time) };
        if failed != 0 {
            return 0.0;
        }
        time.seconds as f64 + time.nanoseconds as f64 * 1e-9
    }

    fn passed(&self) -> f64 {
        self.0.elapsed().as_secs_f64()
    }
}

#[cfg(test)]
mod tests {
    use super::*;
    use std::cell::Cell;

    /// A look at either clock and a call take so long; processor time moves in steps, or never.
    struct Fake {
        time: Cell<f64>,
        step: Option<f64>,
    }

    const LOOK: f64 = 1e-7;
    const CALL: f64 = 3e-6;

    impl Fake {
        fn new(step: Option<f64>) -> Fake {
            Fake { time: Cell::new(0.0), step }
        }

        fn go(&self, seconds: f64) -> f64 {
            self.time.set(self.time.get() + seconds);
            self.time.get()
        }
    }

    impl Clocks for Fake {
        fn processor(&self) -> f64 {
            let time = self.go(LOOK);
            self.step.map_or(7.0, |step| (time / step).floor() * step)
        }

        fn passed(&self) -> f64 {
            self.go(LOOK)
        }
    }

    fn measured(fake: &Fake, clock: Clock) -> Shortest {
        let mut shortest = Shortest::default();
        for _ in 0..20 {
            shortest.turn(fake, clock, || {
                fake.go(CALL);
            });
        }
        shortest
    }

    fn about(time: f64) -> bool {
        (CALL * 0.9..CALL * 1.1).contains(&time)
    }

    #[test]
    fn a_fine_clock_is_used() {
        let fake = Fake::new(Some(1e-9));
        assert_eq!(Clock::of(&fake), Clock::Processor);
        assert!(about(measured(&fake, Clock::Processor).a_call));
    }

    #[test]
    fn a_clock_that_stands_still_is_not() {
        let fake = Fake::new(None);
        assert_eq!(Clock::of(&fake), Clock::Passed);
        assert!(about(measured(&fake, Clock::Passed).a_call));
    }

    #[test]
    fn a_clock_of_long_steps_is_not() {
        let fake = Fake::new(Some(0.01));
        assert_eq!(Clock::of(&fake), Clock::Passed);
        assert!(about(measured(&fake, Clock::Passed).a_call));
    }

    #[test]
    fn a_clock_that_stops_later_gives_no_nothing() {
        let shortest = measured(&Fake::new(None), Clock::Processor);
        assert!(about(shortest.a_call));
        assert!(shortest.all > 0.0);
    }
}
