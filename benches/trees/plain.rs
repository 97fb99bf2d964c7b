//! The same reader and writer in plain Rust, with the same pieces, timed on the same tree.

use std::time::{Duration, Instant};

const MOST_INPUT: usize = 262_144;
const ROUNDS: u32 = 50;
const MOST_LISTS: u32 = 64;

pub enum Node {
    Word { at: u32, word: Vec<u8> },
    Number { at: u32, number: i64 },
    Text { at: u32, text: Vec<u8> },
    Open { at: u32 },
    Close,
}

#[derive(Debug)]
#[allow(dead_code)]
pub enum TreeFault {
    Byte(u32),
    Unclosed(u32),
    Stray(u32),
    Number(u32),
    LongText(u32),
    Deep(u32),
}

struct Reader<'a> {
    bytes: &'a [u8],
    at: usize,
    nodes: Vec<Node>,
}

fn is_run_byte(byte: u8) -> bool {
    matches!(byte, b'a'..=b'z' | b'0'..=b'9' | b'-' | b'_')
}

impl Reader<'_> {
    fn place(&self) -> u32 {
        self.at as u32
    }

    fn gap(&mut self) {
        let mut in_comment = false;
        while let Some(&byte) = self.bytes.get(self.at) {
            if in_comment {
                in_comment = byte != b'\n';
            } else if byte == b';' {
                in_comment = true;
            } else if !matches!(byte, b' ' | b'\t' | b'\n' | b'\r') {
                return;
            }
            self.at += 1;
        }
    }

    fn text(&mut self) -> Result<(), TreeFault> {
        let at = self.place();
        let mut text = Vec::new();
        self.at += 1;
        loop {
            let Some(&byte) = self.bytes.get(self.at) else {
                return Err(TreeFault::Unclosed(at));
            };
            let item = match byte {
                b'"' => break,
                b'\\' => {
                    self.at += 1;
                    match self.bytes.get(self.at) {
                        None => return Err(TreeFault::Unclosed(at)),
                        Some(b'n') => b'\n',
                        Some(b'r') => b'\r',
                        Some(b't') => b'\t',
                        Some(b'"') => b'"',
                        Some(b'\\') => b'\\',
                        Some(_) => return Err(TreeFault::Byte(self.place())),
                    }
                }
                b' '..=b'~' => byte,
                _ => return Err(TreeFault::Byte(self.place())),
            };
            if 1024 <= text.len() {
                return Err(TreeFault::LongText(at));
            }
            text.push(item);
            self.at += 1;
        }
        self.at += 1;
        self.nodes.push(Node::Text { at, text });
        Ok(())
    }

    fn run(&mut self) -> Result<(), TreeFault> {
        let at = self.place();
        let rest = &self.bytes[self.at..];
        let len = rest.iter().take_while(|byte| is_run_byte(**byte)).count();
        let run = &rest[..len];
        let node = match run[0] {
            b'a'..=b'z' if 32 < len => return Err(TreeFault::LongText(at)),
            b'a'..=b'z' => Node::Word { at, word: run.to_vec() },
            b'_' => return Err(TreeFault::Byte(at)),
            _ => {
                let digits = run.strip_prefix(b"-").unwrap_or(run);
                let plain = match digits {
                    [] => false,
                    [_] => digits[0].is_ascii_digit(),
                    [first, ..] => *first != b'0' && digits.iter().all(u8::is_ascii_digit),
                };
                let number = std::str::from_utf8(run).ok().and_then(|text| text.parse::<i64>().ok());
                match number {
                    Some(number) if plain && (number != 0 || run[0] != b'-') => Node::Number { at, number },
                    _ => return Err(TreeFault::Number(at)),
                }
            }
        };
        self.nodes.push(node);
        self.at += len;
        Ok(())
    }

    fn tree(&mut self, lists: u32) -> Result<(), TreeFault> {
        let at = self.place();
        match self.bytes.get(self.at) {
            None => Err(TreeFault::Unclosed(at)),
            Some(b'(') if lists == 0 => Err(TreeFault::Deep(at)),
            Some(b'(') => self.list(lists - 1),
            Some(b')') => Err(TreeFault::Stray(at)),
            Some(b'"') => self.text(),
            Some(&byte) if is_run_byte(byte) => self.run(),
            Some(_) => Err(TreeFault::Byte(at)),
        }
    }

    fn list(&mut self, lists: u32) -> Result<(), TreeFault> {
        let paren = self.place();
        self.nodes.push(Node::Open { at: paren });
        self.at += 1;
        loop {
            self.gap();
            match self.bytes.get(self.at) {
                None => return Err(TreeFault::Unclosed(paren)),
                Some(b')') => break,
                Some(_) => self.tree(lists)?,
            }
        }
        self.nodes.push(Node::Close);
        self.at += 1;
        Ok(())
    }
}

pub fn read_tree(bytes: &[u8]) -> Result<Vec<Node>, TreeFault> {
    let mut reader = Reader { bytes, at: 0, nodes: Vec::new() };
    reader.gap();
    reader.tree(MOST_LISTS)?;
    reader.gap();
    if reader.at < bytes.len() {
        return Err(TreeFault::Stray(reader.place()));
    }
    Ok(reader.nodes)
}

fn write_tree(nodes: &[Node], out: &mut Vec<u8>) {
    let mut behind_tree = false;
    for node in nodes {
        if behind_tree && !matches!(node, Node::Close) {
            out.push(b' ');
        }
        match node {
            Node::Word { word, .. } => out.extend_from_slice(word),
            Node::Number { number, .. } => out.extend_from_slice(number.to_string().as_bytes()),
            Node::Text { text, .. } => {
                out.push(b'"');
                for &item in text {
                    match item {
                        b'\n' => out.extend_from_slice(b"\\n"),
                        b'\r' => out.extend_from_slice(b"\\r"),
                        b'\t' => out.extend_from_slice(b"\\t"),
                        b'"' | b'\\' => out.extend_from_slice(&[b'\\', item]),
                        _ => out.push(item),
                    }
                }
                out.push(b'"');
            }
            Node::Open { .. } => out.push(b'('),
            Node::Close => out.push(b')'),
        }
        behind_tree = !matches!(node, Node::Open { .. });
    }
    out.push(b'\n');
}

/// A sum of all places, so that none is left out as unused.
fn places(nodes: &[Node]) -> u64 {
    nodes
        .iter()
        .map(|node| match node {
            Node::Word { at, .. } | Node::Number { at, .. } | Node::Text { at, .. } | Node::Open { at } => u64::from(*at),
            Node::Close => 0,
        })
        .sum()
}

fn main() {
    let mut input = Vec::new();
    input.push(b'(');
    for _ in 0..(MOST_INPUT - 4) / 3 {
        input.extend_from_slice(b"(a)");
    }
    input.extend_from_slice(b") \n");
    let mut read = Duration::MAX;
    let mut written = Duration::MAX;
    let mut bytes = 0;
    for _ in 0..ROUNDS {
        let begun = Instant::now();
        let nodes = read_tree(&input).expect("the input spells a tree");
        read = read.min(begun.elapsed());
        assert_ne!(places(&nodes), 0);
        let mut out = Vec::new();
        let begun = Instant::now();
        write_tree(&nodes, &mut out);
        written = written.min(begun.elapsed());
        bytes = out.len();
    }
    println!(
        "plain:  {} bytes read in {} us, {} bytes written in {} us",
        input.len(),
        read.as_micros(),
        bytes,
        written.as_micros()
    );
}
