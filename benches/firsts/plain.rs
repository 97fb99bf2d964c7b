//! The same in plain Rust: `first` again and again, with a branch that waits and loses.

// Each bench has some of its forms.
#[allow(dead_code)]
#[path = "../plain_machine.rs"]
mod plain_machine;

use plain_machine::Statement::{AwaitCancel, First, Give, Repeat};
use plain_machine::{Script, print_timed};

fn race(turns: i64) -> Script {
    let blocks = vec![
        vec![Repeat { turns, body: 1 }],
        vec![First { branch: 2, own: 3 }],
        vec![AwaitCancel],
        vec![Give { slot: 0 }],
    ];
    Script { blocks, texts: Vec::new() }
}

fn main() {
    for turns in [1_000, 5_000, 20_000] {
        print_timed(&race(turns as i64), 0, turns, "turn");
    }
}
