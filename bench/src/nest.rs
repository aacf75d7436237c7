//! The nest: a sorted set of keys without locks, worked on one touch at a time.
use crate::board::{Board, Outcome, Station};

#[derive(Clone, Copy, PartialEq, Eq, Debug)]
pub enum NestOp<K> {
    Add(K),
    Drop(K),
    Find(K),
}

impl<K: Copy> NestOp<K> {
    fn key(&self) -> K {
        match *self {
            NestOp::Add(key) | NestOp::Drop(key) | NestOp::Find(key) => key,
        }
    }
}

#[derive(Clone, Copy, PartialEq, Eq, Debug)]
pub enum NestAnswer {
    Added,
    There,
    Dropped,
    Missing,
    Yes,
    No,
}

/// The node after this one, if there is one, and whether this node was dropped.
#[derive(Clone, Copy, PartialEq, Eq)]
pub struct Cell {
    pub next: Option<usize>,
    pub mark: bool,
}

impl Cell {
    pub fn to(next: Option<usize>) -> Cell {
        Cell { next, mark: false }
    }
}

#[derive(Clone, Copy)]
pub struct Node<K> {
    pub key: K,
    pub cell: Cell,
}

/// The ends of the chain are the first two nodes of the table.
pub const FRONT: usize = 0;
pub const BACK: usize = 1;

/// The touch that a waiting station makes next.
#[derive(Clone, Copy)]
enum Phase {
    /// read the front's cell
    Enter,
    /// read the cell of the next node
    Walk,
    /// walk on over dropped nodes behind the key's place
    Skip,
    /// take the dropped nodes out of the chain
    Unlink,
    /// link the own node of an add
    Link,
    /// mark the node of a drop
    Mark,
}

/// A waiting station: its operation, the node that an add took, the touch that comes next, and the registers.
struct Waiting<K> {
    op: NestOp<K>,
    own: usize,
    phase: Phase,
    here: usize,
    seen: Cell,
    keep: usize,
    kept_next: Option<usize>,
}

enum Work<K> {
    Free,
    Waiting(Waiting<K>),
    Ready(NestOp<K>, NestAnswer),
}

pub struct Nest<K> {
    size: usize,
    taken: usize,
    nodes: Vec<Node<K>>,
    works: Vec<Work<K>>,
}

/// What a touch leaves to do.
enum Step {
    Goes(Phase),
    Says(NestAnswer),
}

/// Sets a node's cell to `new` if it is `old`. Tells whether it set the cell.
fn compare_and_set<K>(nodes: &mut [Node<K>], node: usize, old: Cell, new: Cell) -> bool {
    let cell = &mut nodes[node].cell;
    let is_same = *cell == old;
    if is_same {
        *cell = new;
    }
    is_same
}

/// Is the node's key after this one?
fn is_after<K: Ord>(nodes: &[Node<K>], node: usize, key: &K) -> bool {
    match node {
        FRONT => false,
        BACK => true,
        _ => *key < nodes[node].key,
    }
}

impl<K: Ord + Copy> Waiting<K> {
    /// Stands at a node and reads its cell.
    fn read(&mut self, nodes: &[Node<K>], node: usize) {
        self.here = node;
        self.seen = nodes[node].cell;
    }

    /// The next node; the back leads to itself.
    fn next(&self) -> usize {
        self.seen.next.unwrap_or(BACK)
    }

    /// A step of the walk: once the key's place is found the operation is decided.
    fn walk(&mut self, nodes: &mut [Node<K>], node: usize) -> Step {
        self.read(nodes, node);
        if !self.seen.mark {
            self.keep = node;
            self.kept_next = self.seen.next;
        }
        let key = self.op.key();
        let is_place = !is_after(nodes, node, &key) && is_after(nodes, self.next(), &key);
        match (is_place, self.seen.mark) {
            (false, _) => Step::Goes(Phase::Walk),
            (true, true) => Step::Goes(Phase::Skip),
            (true, false) => self.decide(nodes, key),
        }
    }

    /// The key's place is here.
    fn decide(&mut self, nodes: &mut [Node<K>], key: K) -> Step {
        let found = self.here > BACK && nodes[self.here].key == key;
        match (self.op, found) {
            (NestOp::Find(_), true) => Step::Says(NestAnswer::Yes),
            (NestOp::Find(_), false) => Step::Says(NestAnswer::No),
            (NestOp::Add(_), true) => Step::Says(NestAnswer::There),
            (NestOp::Add(_), false) => {
                nodes[self.own].cell = Cell::to(self.seen.next);
                Step::Goes(Phase::Link)
            }
            (NestOp::Drop(_), true) => Step::Goes(Phase::Mark),
            (NestOp::Drop(_), false) => Step::Says(NestAnswer::Missing),
        }
    }

    fn step(&mut self, nodes: &mut [Node<K>]) -> Step {
        match self.phase {
            Phase::Enter => self.walk(nodes, FRONT),
            Phase::Walk => self.walk(nodes, self.next()),
            Phase::Skip => {
                self.read(nodes, self.next());
                Step::Goes(if self.seen.mark {
                    Phase::Skip
                } else {
                    Phase::Unlink
                })
            }
            Phase::Unlink => {
                compare_and_set(
                    nodes,
                    self.keep,
                    Cell::to(self.kept_next),
                    Cell::to(Some(self.here)),
                );
                Step::Goes(Phase::Enter)
            }
            Phase::Link => {
                let old = Cell::to(self.seen.next);
                if compare_and_set(nodes, self.here, old, Cell::to(Some(self.own))) {
                    Step::Says(NestAnswer::Added)
                } else {
                    Step::Goes(Phase::Enter)
                }
            }
            Phase::Mark => {
                let old = Cell::to(self.seen.next);
                if compare_and_set(nodes, self.here, old, Cell { mark: true, ..old }) {
                    Step::Says(NestAnswer::Dropped)
                } else {
                    Step::Goes(Phase::Enter)
                }
            }
        }
    }
}

impl<K: Ord + Copy> Nest<K> {
    /// An empty nest. Its unused nodes hold the key that is handed in.
    pub fn new(stations: usize, size: usize, key: K) -> Nest<K> {
        assert!((1..=16).contains(&stations) && (1..=512).contains(&size));
        let mut nodes = vec![
            Node {
                key,
                cell: Cell::to(None)
            };
            size + 2
        ];
        nodes[FRONT].cell = Cell::to(Some(BACK));
        let works = (0..stations).map(|_| Work::Free).collect();
        Nest {
            size,
            taken: 0,
            nodes,
            works,
        }
    }

    fn work(&self, station: usize) -> Option<&Work<K>> {
        self.works.get(station.checked_sub(1)?)
    }

    fn work_mut(&mut self, station: usize) -> Option<&mut Work<K>> {
        self.works.get_mut(station.checked_sub(1)?)
    }
}

impl<K: Ord + Copy> Board for Nest<K> {
    type Op = NestOp<K>;
    type Answer = NestAnswer;
    type Item = K;

    fn begin(&mut self, station: usize, op: &NestOp<K>) -> bool {
        if !matches!(self.work(station), Some(Work::Free)) || !self.space(op) {
            return false;
        }
        let mut own = BACK;
        if let NestOp::Add(key) = *op {
            own = self.taken + 2;
            self.taken += 1;
            self.nodes[own] = Node {
                key,
                cell: Cell::to(None),
            };
        }
        self.works[station - 1] = Work::Waiting(Waiting {
            op: *op,
            own,
            phase: Phase::Enter,
            here: FRONT,
            seen: Cell::to(None),
            keep: FRONT,
            kept_next: None,
        });
        true
    }

    fn touch(&mut self, station: usize) -> (Outcome, Option<NestAnswer>) {
        let Some(work) = station.checked_sub(1).and_then(|at| self.works.get_mut(at)) else {
            return (Outcome::Idle, None);
        };
        let Work::Waiting(waiting) = work else {
            return (Outcome::Idle, None);
        };
        match waiting.step(&mut self.nodes) {
            Step::Goes(phase) => {
                waiting.phase = phase;
                (Outcome::Going, None)
            }
            Step::Says(answer) => {
                *work = Work::Ready(waiting.op, answer);
                (Outcome::CountedReady, Some(answer))
            }
        }
    }

    fn release(&mut self, station: usize) {
        if let Some(work @ Work::Ready(..)) = self.work_mut(station) {
            *work = Work::Free;
        }
    }

    fn stations(&self) -> usize {
        self.works.len()
    }

    fn station(&self, station: usize) -> Station<NestOp<K>, NestAnswer> {
        match self.work(station) {
            None | Some(Work::Free) => Station::Free,
            Some(Work::Waiting(waiting)) => Station::Uncounted(waiting.op),
            Some(Work::Ready(op, answer)) => Station::Ready(*op, *answer),
        }
    }

    fn is_free(&self, station: usize) -> bool {
        matches!(self.work(station), None | Some(Work::Free))
    }

    fn space(&self, op: &NestOp<K>) -> bool {
        !matches!(op, NestOp::Add(_)) || self.taken < self.size
    }

    fn contents(&self) -> impl Iterator<Item = K> {
        std::iter::successors(Some(FRONT), |&node| self.nodes[node].cell.next)
            .filter(|&node| node > BACK && !self.nodes[node].cell.mark)
            .map(|node| self.nodes[node].key)
    }
}
