//! The same count under a `Mutex` in plain Rust.

use std::sync::Mutex;
use std::thread;
use std::time::{Duration, Instant};

const ROUNDS: u64 = 50_000;
const TRIES: u32 = 20;

fn timed(threads: u64) -> (Duration, u64) {
    let count = Mutex::new(0);
    let begun = Instant::now();
    thread::scope(|scope| {
        for _ in 0..threads {
            scope.spawn(|| {
                for _ in 0..ROUNDS {
                    *count.lock().unwrap() += 1;
                }
            });
        }
    });
    let taken = begun.elapsed();
    (taken, count.into_inner().unwrap())
}

fn main() {
    for threads in [1, 2, 4] {
        let mut best = Duration::MAX;
        let mut total = 0;
        for _ in 0..TRIES {
            let (taken, counted) = timed(threads);
            best = best.min(taken);
            total = counted;
        }
        println!("plain: {threads} threads, {total} turns, {} ns a turn", best.as_nanos() / u128::from(total));
    }
}
