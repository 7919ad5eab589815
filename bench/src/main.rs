//! plain_search FILE...: for each sheet its verdict, the cases popped and the time that a check takes.

use plain_search::formed::well_formed;
use plain_search::piece::NO_CONTRACTS;
use plain_search::{search, sheet};
use std::hint::black_box;
use std::time::{Duration, Instant};

/// Over this one run is measured, and up to it as many as fit into about as much time.
const LONG: Duration = Duration::from_secs(1);
const MOST_SAMPLES: usize = 31;

fn main() {
    let mut failed = false;
    for file in std::env::args().skip(1) {
        match std::fs::read(&file) {
            Ok(text) => println!("{}", line(&file, &text)),
            Err(error) => {
                eprintln!("plain_search: {file}: {error}");
                failed = true;
            }
        }
    }
    std::process::exit(failed as i32);
}

fn line(file: &str, text: &[u8]) -> String {
    let routine = sheet::read(text);
    if sheet::write(&routine).as_bytes() != text || !well_formed(&routine) {
        return format!("{file} is no sheet");
    }
    let (report, once) = timed(|| search::check(&routine, &NO_CONTRACTS));
    let again = || drop(black_box(search::check(black_box(&routine), &NO_CONTRACTS)));
    let time = if once > LONG { once } else { median(once, again) };
    format!(
        "{file} {} {}  cases {}  deepest {}  time {}",
        report.verdict.number,
        report.verdict.row,
        report.cases,
        report.deepest,
        shown(time)
    )
}

fn timed<T>(work: impl FnOnce() -> T) -> (T, Duration) {
    let start = Instant::now();
    let result = work();
    (result, start.elapsed())
}

/// The median over samples, each of as many runs as make it long enough for the clock.
fn median(once: Duration, work: impl Fn()) -> Duration {
    let runs = (LONG.as_nanos() / once.as_nanos().max(1)).clamp(1, 1_000_000) as usize;
    let count = runs.clamp(3, MOST_SAMPLES);
    let each = (runs / count).max(1) as u32;
    let mut samples: Vec<Duration> = (0..count).map(|_| timed(|| (0..each).for_each(|_| work())).1 / each).collect();
    samples.sort();
    samples[count / 2]
}

fn shown(time: Duration) -> String {
    if time >= Duration::from_secs(1) {
        format!("{:.2} s", time.as_secs_f64())
    } else if time >= Duration::from_millis(1) {
        format!("{:.2} ms", time.as_secs_f64() * 1e3)
    } else {
        format!("{:.2} us", time.as_secs_f64() * 1e6)
    }
}
