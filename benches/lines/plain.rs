//! The same lines by a reader in plain Rust, which gives each line as bytes of its own too.

use std::time::{Duration, Instant};

const LINES: usize = 250_000;
const PIECE: usize = 4_096;
const ROUNDS: u32 = 5;

fn lines() -> Vec<u8> {
    let mut input = Vec::new();
    for number in 0..LINES {
        input.extend(std::iter::repeat_n(b'x', number % 80));
        input.push(b'\n');
    }
    input
}

#[derive(Default)]
struct Reader {
    bytes: Vec<u8>,
    given: usize,
    searched: usize,
}

impl Reader {
    fn feed(&mut self, bytes: &[u8]) {
        if self.bytes.len() < 2 * self.given {
            self.bytes.drain(..self.given);
            self.searched -= self.given;
            self.given = 0;
        }
        self.bytes.extend_from_slice(bytes);
    }

    fn line(&mut self) -> Option<Vec<u8>> {
        let from = self.searched.max(self.given);
        match self.bytes[from..].iter().position(|byte| *byte == b'\n') {
            Some(place) => {
                let end = from + place;
                let line = self.bytes[self.given..end].strip_suffix(b"\r").unwrap_or(&self.bytes[self.given..end]).to_vec();
                self.given = end + 1;
                self.searched = self.given;
                Some(line)
            }
            None => {
                self.searched = self.bytes.len();
                None
            }
        }
    }
}

fn read_all(input: &[u8]) -> (usize, usize) {
    let mut reader = Reader::default();
    let (mut lines, mut bytes) = (0, 0);
    for piece in input.chunks(PIECE) {
        reader.feed(piece);
        while let Some(line) = reader.line() {
            lines += 1;
            bytes += line.len();
        }
    }
    (lines, bytes)
}

fn main() {
    let input = lines();
    let mut best = Duration::MAX;
    let mut counts = (0, 0);
    for _ in 0..ROUNDS {
        let begun = Instant::now();
        counts = read_all(&input);
        best = best.min(begun.elapsed());
    }
    println!("plain: {} lines, {} bytes of {} in {} us", counts.0, counts.1, input.len(), best.as_micros());
}
