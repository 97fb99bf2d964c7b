//! The same in plain Rust: a tree of waiting fibers that is cancelled at once.

// Each bench has some of its forms.
#[allow(dead_code)]
#[path = "../plain_machine.rs"]
mod plain_machine;

use plain_machine::Statement::{AwaitCancel, Cancel, Fork, Repeat, Sub, Switch};
use plain_machine::{Script, print_timed};

/// So many fibers, nine below each tenth.
fn tree(fibers: i64) -> Script {
    let blocks = vec![
        vec![Sub { body: 1 }],
        vec![Switch { body: 2 }],
        vec![Repeat { turns: fibers / 10, body: 3 }, Cancel { slot: 0, text: 0 }],
        vec![Fork { slot: 1, body: 4 }],
        vec![Switch { body: 5 }],
        vec![Repeat { turns: 9, body: 6 }, AwaitCancel],
        vec![Fork { slot: 3, body: 7 }],
        vec![Sub { body: 8 }],
        vec![AwaitCancel],
    ];
    Script { blocks, texts: vec!["x"] }
}

fn main() {
    for fibers in [10, 100, 1_000] {
        // Up to the cancellation.
        let before = 4 * fibers + 2;
        print_timed(&tree(fibers as i64), before, fibers, "fiber");
    }
}
