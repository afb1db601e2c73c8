//! Times of both resolvers, taken by turns in processor time.

use crate::clock::processor_time;
use std::hint::black_box;
use std::time::{Duration, Instant};

/// How often a call is timed at most, and when no further run is begun.
const RUNS: usize = 31;
const ENOUGH: Duration = Duration::from_secs(5);

/// How long one timing lasts at least, where a call is shorter: it is then made several times.
const SHORTEST: Duration = Duration::from_micros(200);

/// The medians of both times and of their ratios, turn by turn, and the number of turns.
#[derive(Clone, Copy)]
pub struct Times {
    pub library: Duration,
    pub plain: Duration,
    pub ratio: f64,
    pub runs: usize,
}

/// The time of each of so many equal calls, in their mean.
fn timed<T>(calls: u32, call: &mut impl FnMut() -> T) -> Duration {
    let before = processor_time();
    for _ in 0..calls {
        black_box(call());
    }
    (processor_time() - before) / calls
}

/// How many calls one timing takes, where one takes so long.
fn calls(once: Duration) -> u32 {
    let once = once.max(Duration::from_nanos(1));
    SHORTEST.div_duration_f64(once).ceil() as u32
}

fn median<T: Copy>(mut values: Vec<T>, order: impl Fn(&T, &T) -> std::cmp::Ordering) -> T {
    values.sort_by(order);
    values[values.len() / 2]
}

/// The medians of pairs of times.
fn medians(pairs: &[(Duration, Duration)]) -> Times {
    let ratios = pairs
        .iter()
        .map(|(library, plain)| library.div_duration_f64(*plain));
    Times {
        library: median(pairs.iter().map(|pair| pair.0).collect(), Ord::cmp),
        plain: median(pairs.iter().map(|pair| pair.1).collect(), Ord::cmp),
        ratio: median(ratios.collect(), f64::total_cmp),
        runs: pairs.len(),
    }
}

/// Times both calls by turns, once each at least.
pub fn by_turns<T, U>(mut library: impl FnMut() -> T, mut plain: impl FnMut() -> U) -> Times {
    let begin = Instant::now();
    let first = (timed(1, &mut library), timed(1, &mut plain));
    let (counts, mut pairs) = ((calls(first.0), calls(first.1)), vec![first]);
    while pairs.len() < RUNS && begin.elapsed() < ENOUGH {
        pairs.push((timed(counts.0, &mut library), timed(counts.1, &mut plain)));
    }
    medians(&pairs)
}

/// Times one call of each by turns, every one in a new thread with a stack of so many bytes.
pub fn in_fresh_threads<T, U>(
    stack: usize,
    library: impl Fn() -> T + Sync,
    plain: impl Fn() -> U + Sync,
) -> Times {
    let turn = |_| {
        let library = in_thread(stack, || timed(1, &mut || library()));
        let plain = in_thread(stack, || timed(1, &mut || plain()));
        (library, plain)
    };
    medians(&(0..RUNS).map(turn).collect::<Vec<_>>())
}

/// Makes a call in a new thread with a stack of so many bytes.
pub fn in_thread<T: Send>(stack: usize, call: impl FnOnce() -> T + Send) -> T {
    let thread = std::thread::Builder::new().stack_size(stack);
    std::thread::scope(|scope| {
        let thread = thread
            .spawn_scoped(scope, call)
            .expect("there is memory for a thread");
        thread
            .join()
            .unwrap_or_else(|panic| std::panic::resume_unwind(panic))
    })
}
