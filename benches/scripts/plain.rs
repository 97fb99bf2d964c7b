//! The same readers in plain Rust, with the same nodes, for the forms that the timed scripts have.

use std::hint::black_box;
use std::time::{Duration, Instant};
use trees::{Node as Piece, read_tree};

#[path = "../trees/plain.rs"]
#[allow(dead_code)]
mod trees;

const MOST_INPUT: usize = 262_144;
const ROUNDS: u32 = 20;
const MOST_NAMES: usize = 64;
const MOST_TRACED: usize = 8;

#[derive(Debug)]
#[allow(dead_code)]
enum ScriptFault {
    Shape(u32),
    Name(u32),
    Twice(u32),
    Size(u32),
}

enum Node {
    End,
    Number(i64),
    Variable(u32),
    Let,
    Loop { body: u32, after: u32 },
    Trace(u8),
    Yield,
}

#[derive(Clone, Copy)]
enum Feature {
    FirstForms,
    Exceptions,
}

struct Formed {
    at: u32,
    feature: Feature,
    mocked: bool,
}

#[derive(Default)]
struct Draft {
    nodes: Vec<Node>,
    formed: Vec<Formed>,
}

impl Draft {
    fn next(&self) -> u32 {
        self.nodes.len() as u32
    }

    fn open(&mut self) -> usize {
        self.nodes.push(Node::End);
        self.nodes.len() - 1
    }
}

#[derive(Clone, Copy)]
struct Named<'t> {
    name: &'t [u8],
    number: u32,
}

#[derive(Clone, Default)]
struct Scope<'t> {
    names: Vec<Named<'t>>,
    next: u32,
}

impl<'t> Scope<'t> {
    fn named(&self, name: &[u8]) -> Option<Named<'t>> {
        self.names.iter().find(|it| it.name == name).copied()
    }

    fn bring(&mut self, name: &'t [u8], at: u32) -> Result<(), ScriptFault> {
        if self.named(name).is_none() && self.names.len() >= MOST_NAMES {
            return Err(ScriptFault::Size(at));
        }
        self.names.retain(|it| it.name != name);
        self.names.insert(0, Named { name, number: self.next });
        self.next += 1;
        Ok(())
    }
}

struct Cursor<'t> {
    pieces: &'t [Piece],
}

impl<'t> Cursor<'t> {
    fn has_tree(&self) -> bool {
        !matches!(self.pieces.first(), None | Some(Piece::Close))
    }

    fn place(&self) -> u32 {
        match self.pieces.first() {
            Some(Piece::Word { at, .. } | Piece::Number { at, .. } | Piece::Text { at, .. } | Piece::Open { at }) => *at,
            _ => 0,
        }
    }

    fn pass(&mut self) {
        self.pieces = &self.pieces[1..];
    }

    /// The word that begins the list ahead, behind which the cursor then stands.
    fn enter(&mut self) -> Option<&'t [u8]> {
        let [Piece::Open { .. }, Piece::Word { word, .. }, ..] = self.pieces else {
            return None;
        };
        self.pieces = &self.pieces[2..];
        Some(word)
    }

    /// How many trees are ahead in this list, at most so many.
    fn count(&self, most: usize) -> usize {
        let mut lists = 0usize;
        let mut count = 0;
        for piece in self.pieces {
            if lists == 0 && (count == most || matches!(piece, Piece::Close)) {
                return count;
            }
            if lists == 0 {
                count += 1;
            }
            match piece {
                Piece::Open { .. } => lists += 1,
                Piece::Close => lists -= 1,
                _ => {}
            }
        }
        count
    }

    fn are_texts(&self) -> bool {
        self.pieces
            .iter()
            .take_while(|piece| !matches!(piece, Piece::Close))
            .all(|piece| matches!(piece, Piece::Text { .. }))
    }
}

fn item(cursor: &mut Cursor, draft: &mut Draft, scope: &Scope, full: bool) -> Result<(), ScriptFault> {
    let at = cursor.place();
    if full {
        return Err(ScriptFault::Size(at));
    }
    let node = match cursor.pieces.first() {
        Some(Piece::Number { number, .. }) => Node::Number(*number),
        Some(Piece::Word { word, .. }) => match scope.named(word) {
            Some(it) => Node::Variable(it.number),
            None => return Err(ScriptFault::Name(at)),
        },
        _ => return Err(ScriptFault::Shape(at)),
    };
    cursor.pass();
    draft.nodes.push(node);
    Ok(())
}

fn statements<'t>(cursor: &mut Cursor<'t>, draft: &mut Draft, scope: &Scope<'t>) -> Result<(), ScriptFault> {
    let mut inside = scope.clone();
    while cursor.has_tree() {
        statement(cursor, draft, &mut inside)?;
    }
    draft.nodes.push(Node::End);
    cursor.pass();
    Ok(())
}

fn statement<'t>(cursor: &mut Cursor<'t>, draft: &mut Draft, scope: &mut Scope<'t>) -> Result<(), ScriptFault> {
    let at = cursor.place();
    // whether it is the last of its block, which the form `give` asks
    let _is_last = black_box(cursor.count(2) == 1);
    let Some(word) = cursor.enter() else {
        return Err(ScriptFault::Shape(at));
    };
    let feature = match word {
        b"yield" => Feature::FirstForms,
        b"trace" if cursor.has_tree() && cursor.are_texts() => Feature::FirstForms,
        _ => Feature::Exceptions,
    };
    draft.formed.push(Formed { at, feature, mocked: false });
    let opened = draft.open();
    let node = match word {
        b"yield" if cursor.count(1) == 0 => {
            cursor.pass();
            Node::Yield
        }
        b"loop" => {
            let body = draft.next();
            statements(cursor, draft, scope)?;
            Node::Loop { body, after: draft.next() }
        }
        b"trace" => {
            let mut operands = 0;
            while cursor.has_tree() {
                item(cursor, draft, scope, operands >= MOST_TRACED)?;
                operands += 1;
            }
            cursor.pass();
            Node::Trace(operands as u8)
        }
        b"let" if cursor.count(3) == 2 => {
            let mut behind = scope.clone();
            let Some(Piece::Word { at, word }) = cursor.pieces.first() else {
                return Err(ScriptFault::Shape(cursor.place()));
            };
            behind.bring(word, *at)?;
            cursor.pass();
            item(cursor, draft, scope, false)?;
            cursor.pass();
            *scope = behind;
            Node::Let
        }
        _ => return Err(ScriptFault::Shape(at)),
    };
    draft.nodes[opened] = node;
    Ok(())
}

fn read_script(pieces: &[Piece]) -> Result<Draft, ScriptFault> {
    let mut cursor = Cursor { pieces };
    let mut draft = Draft::default();
    let (Some(b"eio"), Some(Piece::Number { number: 1, .. })) = (cursor.enter(), cursor.pieces.first()) else {
        return Err(ScriptFault::Shape(0));
    };
    cursor.pass();
    let Some(b"main") = cursor.enter() else {
        return Err(ScriptFault::Shape(0));
    };
    statements(&mut cursor, &mut draft, &Scope::default())?;
    Ok(draft)
}

fn filled(front: &str, piece: &str, back: &str) -> String {
    let count = (MOST_INPUT - front.len() - back.len()) / piece.len();
    format!("{front}{}{back}", piece.repeat(count))
}

/// A sum over all that was read, so that none is left out as unused.
fn sum(draft: &Draft) -> u64 {
    let nodes: u64 = draft
        .nodes
        .iter()
        .map(|node| match node {
            Node::Number(number) => *number as u64,
            Node::Variable(slot) => u64::from(*slot),
            Node::Loop { body, after } => u64::from(body + after),
            Node::Trace(count) => u64::from(*count),
            Node::End | Node::Let | Node::Yield => 1,
        })
        .sum();
    let forms: u64 = draft.formed.iter().map(|it| u64::from(it.at) + it.feature as u64 + u64::from(it.mocked)).sum();
    nodes + forms
}

fn main() {
    let loops = "(loop".repeat(60);
    let ends = ")".repeat(60);
    let lets: String = (0..64).map(|number| format!("(let x{number} 1)")).collect();
    for (name, input) in [
        ("flat", filled("(eio 1 (main", "(yield)", "))")),
        ("deep", filled(&format!("(eio 1 (main{loops}"), "(trace 1 2)", &format!("{ends}))"))),
        ("names", filled(&format!("(eio 1 (main{lets}"), "(trace x0 x0)", "))")),
    ] {
        let mut tree_read = Duration::MAX;
        let mut script_read = Duration::MAX;
        for _ in 0..ROUNDS {
            let begun = Instant::now();
            let pieces = read_tree(input.as_bytes()).expect("the input spells a tree");
            tree_read = tree_read.min(begun.elapsed());
            let begun = Instant::now();
            let draft = read_script(&pieces).expect("the tree is a script");
            script_read = script_read.min(begun.elapsed());
            assert_ne!(sum(&draft), 0);
        }
        println!(
            "plain:  {name}, {} bytes: tree in {} us, script in {} us",
            input.len(),
            tree_read.as_micros(),
            script_read.as_micros()
        );
    }
}
