//! The same in plain Rust: an exception that is raised and caught again and again.

// Each bench has some of its forms.
#[allow(dead_code)]
#[path = "../plain_machine.rs"]
mod plain_machine;

use plain_machine::Statement::{Raise, Repeat, Try};
use plain_machine::{Script, print_timed};

fn throws(turns: i64) -> Script {
    let blocks = vec![
        vec![Repeat { turns, body: 1 }],
        vec![Try { body: 2, handler: 3 }],
        vec![Raise { text: 0 }],
        Vec::new(),
    ];
    Script { blocks, texts: vec!["x"] }
}

fn main() {
    for turns in [1_000, 10_000, 100_000] {
        print_timed(&throws(turns as i64), 0, turns, "turn");
    }
}
