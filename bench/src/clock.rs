//! Times of contenders side by side: their rounds are interleaved, and the best of all rounds counts.

use std::time::Instant;

/// A time of the system: seconds and nanoseconds.
#[repr(C)]
struct Time {
    seconds: i64,
    nanos: i64,
}

extern "C" {
    fn clock_gettime(clock: i32, time: *mut Time) -> i32;
}

/// The processor time of this thread, in nanoseconds.
fn processor_nanos() -> u64 {
    const THREAD: i32 = 3;
    let mut time = Time {
        seconds: 0,
        nanos: 0,
    };
    // SAFETY: the time is lent for this call, in the form of 64-bit Linux.
    let failed = unsafe { clock_gettime(THREAD, &mut time) };
    assert_eq!(failed, 0, "the clock of this thread");
    (time.seconds * 1_000_000_000 + time.nanos) as u64
}

/// How long the work takes, in nanoseconds, and what it makes. The lesser of clock and processor time counts: the first is finer for a short call,
/// and the second leaves out what the machine does for others during a long one.
fn timed<T>(work: impl FnOnce() -> T) -> (u64, T) {
    let processor = processor_nanos();
    let start = Instant::now();
    let made = std::hint::black_box(work());
    let clock = start.elapsed().as_nanos() as u64;
    (clock.min(processor_nanos() - processor), made)
}

/// A contender: its name, and a call that does the work once and says how many nanoseconds it took.
pub struct Contender<'a> {
    pub name: &'static str,
    call: Box<dyn FnMut() -> u64 + 'a>,
}

impl<'a> Contender<'a> {
    /// A contender whose call gives something back only after its time is taken.
    pub fn new<T>(name: &'static str, work: impl FnMut() -> T + 'a) -> Contender<'a> {
        Contender::after(name, || (), work)
    }

    /// The same, where something else is done before each call and its time does not count: it leaves the caches as the work will find them.
    pub fn after<S, T>(
        name: &'static str,
        mut before: impl FnMut() -> S + 'a,
        mut work: impl FnMut() -> T + 'a,
    ) -> Contender<'a> {
        let call = move || {
            std::hint::black_box(before());
            let (time, made) = timed(&mut work);
            drop(made);
            time
        };
        Contender {
            name,
            call: Box::new(call),
        }
    }
}

/// A contender that takes longer than this, in nanoseconds, is timed once.
const LONG: u64 = 500_000_000;

/// The best time of each contender in microseconds. In each round every contender in turn warms up once and is timed twice;
/// each round starts with another one.
pub fn best_of(rounds: usize, mut contenders: Vec<Contender>) -> Vec<(&'static str, f64)> {
    let count = contenders.len();
    let mut best = vec![u64::MAX; count];
    for turn in 0..rounds * count {
        let which = (turn + turn / count) % count;
        if turn >= count && best[which] > LONG {
            continue;
        }
        let call = &mut contenders[which].call;
        let first = call();
        best[which] = match first > LONG {
            true => first,
            false => best[which].min(call()).min(call()),
        };
    }
    let names = contenders.iter().map(|contender| contender.name);
    let micros = best.iter().map(|&nanos| nanos as f64 / 1000.0);
    names.zip(micros).collect()
}
