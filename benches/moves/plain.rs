//! The same moves in plain Rust: the first forms, fibers in a slab, a ring of those that are ready.

use std::collections::VecDeque;
use std::hint::black_box;
use std::time::{Duration, Instant};

const ROUNDS: u32 = 20;

/// A statement, by the number of its node; blocks by those of their first ones.
#[derive(Clone, Copy)]
enum Node {
    End,
    Yield,
    Fork { switch: u32, body: u32, after: u32 },
    Switch { body: u32, after: u32 },
}

/// What is left to a fiber, the next item last.
#[derive(Clone, Copy)]
enum Item {
    Run(u32),
    Close { switch: u32, keep: u32 },
}

struct Fiber {
    context: u32,
    switch: Option<u32>,
    frames: Vec<Item>,
    variables: Vec<u32>,
}

struct Switch {
    context: u32,
    attached: Vec<u32>,
    closer: Option<u32>,
    finished: bool,
}

#[derive(Default)]
struct Domain {
    fibers: Vec<Option<Box<Fiber>>>,
    ready: VecDeque<u32>,
    parents: Vec<u32>,
    switches: Vec<Switch>,
}

enum Ask {
    Yield,
    Fork { switch: u32, body: u32 },
    Switch { body: u32 },
    Close { switch: u32 },
    End,
}

fn settle(nodes: &[Node], fiber: &mut Fiber) -> Ask {
    while let Some(item) = fiber.frames.pop() {
        match item {
            Item::Run(at) => match nodes[at as usize] {
                Node::End => {}
                Node::Yield => {
                    fiber.frames.push(Item::Run(at + 1));
                    return Ask::Yield;
                }
                Node::Fork { switch, body, after } => {
                    fiber.frames.push(Item::Run(after));
                    return Ask::Fork { switch: fiber.variables[switch as usize], body };
                }
                Node::Switch { body, after } => {
                    fiber.frames.push(Item::Run(after));
                    return Ask::Switch { body };
                }
            },
            Item::Close { switch, keep } => {
                fiber.variables.truncate(keep as usize);
                return Ask::Close { switch };
            }
        }
    }
    Ask::End
}

impl Domain {
    fn make(&mut self, context: u32, switch: Option<u32>, body: u32, variables: Vec<u32>) -> u32 {
        let number = self.fibers.len() as u32;
        self.fibers.push(Some(Box::new(Fiber { context, switch, frames: vec![Item::Run(body)], variables })));
        number
    }

    fn turn(&mut self, nodes: &[Node]) -> bool {
        let Some(number) = self.ready.pop_front() else {
            return false;
        };
        let fiber = self.fibers[number as usize].as_mut().unwrap();
        match settle(nodes, fiber) {
            Ask::Yield => self.ready.push_back(number),
            Ask::Switch { body } => {
                let context = self.parents.len() as u32;
                self.parents.push(fiber.context);
                let switch = self.switches.len() as u32;
                self.switches.push(Switch { context, attached: Vec::new(), closer: None, finished: false });
                fiber.context = context;
                let keep = fiber.variables.len() as u32;
                fiber.variables.push(switch);
                fiber.frames.push(Item::Close { switch, keep });
                fiber.frames.push(Item::Run(body));
                self.ready.push_front(number);
            }
            Ask::Fork { switch, body } => {
                let variables = fiber.variables.clone();
                let context = self.switches[switch as usize].context;
                let new = self.make(context, Some(switch), body, variables);
                self.switches[switch as usize].attached.push(new);
                self.ready.push_front(number);
                self.ready.push_front(new);
            }
            Ask::Close { switch } => {
                let it = &mut self.switches[switch as usize];
                if it.attached.is_empty() {
                    it.finished = true;
                    fiber.context = self.parents[it.context as usize];
                    self.ready.push_front(number);
                } else {
                    it.closer = Some(number);
                    fiber.frames.push(Item::Close { switch, keep: fiber.variables.len() as u32 });
                }
            }
            Ask::End => {
                let ended = self.fibers[number as usize].take().unwrap();
                if let Some(switch) = ended.switch {
                    let it = &mut self.switches[switch as usize];
                    it.attached.retain(|&g| g != number);
                    if it.attached.is_empty() {
                        if let Some(closer) = it.closer.take() {
                            self.ready.push_back(closer);
                        }
                    }
                }
            }
        }
        true
    }
}

/// A script of so many forks, one after another.
fn script(forks: u32) -> Vec<Node> {
    let mut nodes = vec![Node::Switch { body: 1, after: 0 }];
    for _ in 0..forks {
        let at = nodes.len() as u32;
        nodes.push(Node::Fork { switch: 0, body: at + 1, after: at + 3 });
        nodes.push(Node::Yield);
        nodes.push(Node::End);
        nodes.push(Node::Yield);
    }
    nodes.push(Node::End);
    let end = nodes.len() as u32;
    nodes.push(Node::End);
    nodes[0] = Node::Switch { body: 1, after: end };
    nodes
}

fn run(nodes: &[Node]) -> (Duration, u64) {
    let mut domain = Domain::default();
    domain.parents.push(0);
    let main = domain.make(0, None, 0, Vec::new());
    domain.ready.push_back(main);
    let begun = Instant::now();
    let mut moves = 0;
    while domain.turn(nodes) {
        moves += 1;
    }
    black_box(&domain.switches[0].finished);
    (begun.elapsed(), moves)
}

fn main() {
    for forks in [250, 2_500, 11_500] {
        let nodes = script(forks);
        let (mut least, mut moves) = (Duration::MAX, 1);
        for _ in 0..ROUNDS {
            let (took, made) = run(black_box(&nodes));
            least = least.min(took);
            moves = made;
        }
        println!("plain:  {moves} moves: {} ns a move", least.as_nanos() / moves as u128);
    }
}
