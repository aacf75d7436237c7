//! A walk along a chain of 200 nodes: along the bare cells, and by the touches of a find.
use crate::busy::make_nest;
use crate::checksum::Checksum;
use crate::host::alone;
use crate::keys::SizeLabel;
use crate::nest::{BACK, Cell, FRONT, NestOp, Node};
use crate::requests::{SMALLEST, key};
use crate::run::Run;
use std::time::Instant;

/// How many keys there are, and how often the chain is walked.
const KEYS: usize = 200;
const WALKS: usize = 500;

/// Keys stand in the table in an order that jumps: the node at place i has the key 77 × i, by the remainder, and so the
/// key k has the node 13 × k.
fn key_of_node(place: usize) -> usize {
    place * 77 % KEYS
}

/// A cell that leads to the node of a key, or to the back after the last.
fn cell_before(number: usize) -> Cell {
    Cell::to(Some(if number < KEYS {
        number * 13 % KEYS + 2
    } else {
        BACK
    }))
}

/// The node table as a nest with these keys has it.
fn chain() -> Vec<Node<SizeLabel>> {
    let front = Node {
        key: SMALLEST,
        cell: cell_before(0),
    };
    let back = Node {
        key: SMALLEST,
        cell: Cell::to(None),
    };
    let keys = (0..KEYS).map(key_of_node).map(|number| Node {
        key: key(number as u64),
        cell: cell_before(number + 1),
    });
    [front, back].into_iter().chain(keys).collect()
}

/// Follows the next cells from the front to the back. Tells how many there were.
fn walk(nodes: &[Node<SizeLabel>]) -> usize {
    let mut steps = 0;
    let mut at = FRONT;
    while let Some(next) = nodes[at].cell.next {
        at = next;
        steps += 1;
    }
    steps
}

/// The walk along the bare cells.
pub fn bare_walk() -> Run {
    let nodes = chain();
    let mut sum = Checksum::new();
    let mut steps = 0;
    let start = Instant::now();
    for _ in 0..WALKS {
        let walked = walk(&nodes);
        sum.add(walked as u64);
        steps += walked;
    }
    Run::new(steps, sum, start.elapsed())
}

/// Finds of the last key.
pub fn find_last() -> Run {
    let mut nest = make_nest(1, KEYS);
    let mut sum = Checksum::new();
    for place in 0..KEYS {
        alone(
            &mut nest,
            NestOp::Add(key(key_of_node(place) as u64)),
            &mut sum,
        );
    }
    let last = key(199);
    let mut touches = 0;
    let start = Instant::now();
    for _ in 0..WALKS {
        touches += alone(&mut nest, NestOp::Find(last), &mut sum);
    }
    Run::new(touches, sum, start.elapsed())
}
