//! The same words over std's `AtomicU64` in plain Rust, timed on the same waits.

use std::sync::atomic::{AtomicU64, Ordering};
use std::time::{Duration, Instant};

const WAITS: u32 = 100_000;
const ROUNDS: u32 = 20;

const WAITING: u64 = 1;
const WOKEN: u64 = 2;
const CANCELLED: u64 = 3;

struct Cells {
    words: Vec<AtomicU64>,
}

impl Cells {
    fn arm(&self, cell: u32, stamp: u64) {
        self.words[cell as usize].swap(4 * stamp + WAITING, Ordering::SeqCst);
    }

    fn decide(&self, cell: u32, armed: u64, stamp: u64, mark: u64) -> Result<u64, u64> {
        self.words[cell as usize].compare_exchange(4 * armed + WAITING, 4 * stamp + mark, Ordering::SeqCst, Ordering::SeqCst)
    }
}

fn arm_all(cells: &Cells) {
    for cell in 0..WAITS {
        cells.arm(cell, 1);
    }
}

fn decide_all(cells: &Cells, mark: u64) -> u32 {
    let mut won = 0;
    for cell in 0..WAITS {
        if cells.decide(cell, 1, 2, mark).is_ok() {
            won += 1;
        }
    }
    won
}

fn new_cells() -> Cells {
    Cells { words: (0..2 * WAITS).map(|_| AtomicU64::new(0)).collect() }
}

fn main() {
    let mut armed = Duration::MAX;
    let mut woken = Duration::MAX;
    let mut raced = Duration::MAX;
    let mut all_cancelled = 0;
    for _ in 0..ROUNDS {
        let cells = new_cells();
        let begun = Instant::now();
        arm_all(&cells);
        armed = armed.min(begun.elapsed());
        let begun = Instant::now();
        assert_eq!(decide_all(&cells, WOKEN), WAITS);
        woken = woken.min(begun.elapsed());

        let cells = new_cells();
        arm_all(&cells);
        let begun = Instant::now();
        let (cancelled, by_others) = std::thread::scope(|scope| {
            let canceller = scope.spawn(|| decide_all(&cells, CANCELLED));
            let by_others = decide_all(&cells, WOKEN);
            (canceller.join().expect("the thread ended"), by_others)
        });
        raced = raced.min(begun.elapsed());
        assert_eq!(cancelled + by_others, WAITS);
        all_cancelled += cancelled;
    }
    println!(
        "plain: {WAITS} waits begun in {} us, woken in {} us, raced for in {} us; of 100 races {} were won by the one who cancels",
        armed.as_micros(),
        woken.as_micros(),
        raced.as_micros(),
        all_cancelled / (WAITS * ROUNDS / 100)
    );
}
