//! The line: a queue of elements without locks, worked on one touch at a time.
use crate::board::{Board, Outcome, Station};

#[derive(Clone, Copy, PartialEq, Eq, Debug)]
pub enum LineOp<E> {
    Put(E),
    Take,
}

#[derive(Clone, Copy, PartialEq, Eq, Debug)]
pub enum LineAnswer<E> {
    Put,
    Took(E),
    Empty,
}

#[derive(Clone, Copy)]
struct Node<E> {
    element: E,
    next: Option<usize>,
}

/// The touch of a put that comes next.
#[derive(Clone, Copy)]
enum PutPhase {
    /// read Tail
    ReadTail,
    /// read the next cell of end
    ReadNext,
    /// see whether Tail is still end
    Check,
    /// link the own node behind end
    Link,
    /// move Tail on to n
    Help,
    /// move Tail on to the own node
    Finish,
}

/// The touch of a take that comes next.
#[derive(Clone, Copy)]
enum TakePhase {
    /// read Head
    ReadHead,
    /// read Tail
    ReadTail,
    /// read the next cell of first
    ReadNext,
    /// move Tail on to n
    Help,
    /// move Head on to n
    Advance,
}

struct Put<E> {
    element: E,
    own: usize,
    phase: PutPhase,
    end: usize,
    n: Option<usize>,
}

struct Take {
    phase: TakePhase,
    first: usize,
    end: usize,
    n: usize,
}

enum Seat<E> {
    Free,
    Put(Put<E>),
    Take(Take),
    Ready(LineOp<E>, LineAnswer<E>),
}

/// The nodes with the cells Head and Tail.
struct Queue<E> {
    nodes: Vec<Node<E>>,
    taken: usize,
    head: usize,
    tail: usize,
}

pub struct Line<E> {
    queue: Queue<E>,
    seats: Vec<Seat<E>>,
}

/// Sets the cell to `new` if it is `old`. Tells whether it set the cell.
fn compare_and_set<T: PartialEq>(cell: &mut T, old: T, new: T) -> bool {
    let is_same = *cell == old;
    if is_same {
        *cell = new;
    }
    is_same
}

impl<E: Copy> Put<E> {
    /// One touch. The put is ready after `Finish`.
    fn step(&mut self, queue: &mut Queue<E>) -> Outcome {
        let mut outcome = Outcome::Going;
        self.phase = match self.phase {
            PutPhase::ReadTail => {
                self.end = queue.tail;
                PutPhase::ReadNext
            }
            PutPhase::ReadNext => {
                self.n = queue.nodes[self.end].next;
                PutPhase::Check
            }
            PutPhase::Check if queue.tail != self.end => PutPhase::ReadTail,
            PutPhase::Check if self.n.is_none() => PutPhase::Link,
            PutPhase::Check => PutPhase::Help,
            PutPhase::Link => {
                if compare_and_set(&mut queue.nodes[self.end].next, None, Some(self.own)) {
                    outcome = Outcome::Counted;
                    PutPhase::Finish
                } else {
                    PutPhase::ReadTail
                }
            }
            PutPhase::Help => {
                if let Some(n) = self.n {
                    compare_and_set(&mut queue.tail, self.end, n);
                }
                PutPhase::ReadTail
            }
            PutPhase::Finish => {
                compare_and_set(&mut queue.tail, self.end, self.own);
                outcome = Outcome::Ready;
                PutPhase::Finish
            }
        };
        outcome
    }
}

impl Take {
    /// One touch. The take is ready once it has an answer.
    fn step<E: Copy>(&mut self, queue: &mut Queue<E>) -> Option<LineAnswer<E>> {
        self.phase = match self.phase {
            TakePhase::ReadHead => {
                self.first = queue.head;
                TakePhase::ReadTail
            }
            TakePhase::ReadTail => {
                self.end = queue.tail;
                TakePhase::ReadNext
            }
            TakePhase::ReadNext => match (self.first == self.end, queue.nodes[self.first].next) {
                (true, None) => return Some(LineAnswer::Empty),
                (false, None) => TakePhase::ReadHead,
                (lags, Some(n)) => {
                    self.n = n;
                    if lags {
                        TakePhase::Help
                    } else {
                        TakePhase::Advance
                    }
                }
            },
            TakePhase::Help => {
                compare_and_set(&mut queue.tail, self.end, self.n);
                TakePhase::ReadHead
            }
            TakePhase::Advance => {
                if compare_and_set(&mut queue.head, self.first, self.n) {
                    return Some(LineAnswer::Took(queue.nodes[self.n].element));
                }
                TakePhase::ReadHead
            }
        };
        None
    }
}

impl<E: Copy> Line<E> {
    /// An empty line. Its unused nodes hold the element that is handed in.
    pub fn new(stations: usize, size: usize, element: E) -> Line<E> {
        assert!((1..=16).contains(&stations) && (1..=512).contains(&size));
        let nodes = vec![
            Node {
                element,
                next: None
            };
            size + 1
        ];
        let queue = Queue {
            nodes,
            taken: 1,
            head: 0,
            tail: 0,
        };
        let seats = (0..stations).map(|_| Seat::Free).collect();
        Line { queue, seats }
    }

    fn seat(&self, station: usize) -> Option<&Seat<E>> {
        self.seats.get(station.checked_sub(1)?)
    }
}

impl<E: Copy> Board for Line<E> {
    type Op = LineOp<E>;
    type Answer = LineAnswer<E>;
    type Item = E;

    fn begin(&mut self, station: usize, op: &LineOp<E>) -> bool {
        if !matches!(self.seat(station), Some(Seat::Free)) || !self.space(op) {
            return false;
        }
        self.seats[station - 1] = match *op {
            LineOp::Put(element) => {
                let own = self.queue.taken;
                self.queue.taken += 1;
                self.queue.nodes[own] = Node {
                    element,
                    next: None,
                };
                Seat::Put(Put {
                    element,
                    own,
                    phase: PutPhase::ReadTail,
                    end: 0,
                    n: None,
                })
            }
            LineOp::Take => Seat::Take(Take {
                phase: TakePhase::ReadHead,
                first: 0,
                end: 0,
                n: 0,
            }),
        };
        true
    }

    fn touch(&mut self, station: usize) -> (Outcome, Option<LineAnswer<E>>) {
        let Some(seat) = station.checked_sub(1).and_then(|at| self.seats.get_mut(at)) else {
            return (Outcome::Idle, None);
        };
        match seat {
            Seat::Free | Seat::Ready(..) => (Outcome::Idle, None),
            Seat::Put(put) => {
                let outcome = put.step(&mut self.queue);
                if outcome == Outcome::Ready {
                    *seat = Seat::Ready(LineOp::Put(put.element), LineAnswer::Put);
                }
                (
                    outcome,
                    (outcome != Outcome::Going).then_some(LineAnswer::Put),
                )
            }
            Seat::Take(take) => match take.step(&mut self.queue) {
                None => (Outcome::Going, None),
                Some(answer) => {
                    *seat = Seat::Ready(LineOp::Take, answer);
                    (Outcome::CountedReady, Some(answer))
                }
            },
        }
    }

    fn release(&mut self, station: usize) {
        if let Some(Seat::Ready(..)) = self.seat(station) {
            self.seats[station - 1] = Seat::Free;
        }
    }

    fn stations(&self) -> usize {
        self.seats.len()
    }

    fn station(&self, station: usize) -> Station<LineOp<E>, LineAnswer<E>> {
        match self.seat(station) {
            None | Some(Seat::Free) => Station::Free,
            Some(Seat::Put(put)) => match put.phase {
                PutPhase::Finish => Station::Counted(LineOp::Put(put.element), LineAnswer::Put),
                _ => Station::Uncounted(LineOp::Put(put.element)),
            },
            Some(Seat::Take(_)) => Station::Uncounted(LineOp::Take),
            Some(Seat::Ready(op, answer)) => Station::Ready(*op, *answer),
        }
    }

    fn is_free(&self, station: usize) -> bool {
        matches!(self.seat(station), None | Some(Seat::Free))
    }

    fn space(&self, op: &LineOp<E>) -> bool {
        matches!(op, LineOp::Take) || self.queue.taken < self.queue.nodes.len()
    }

    fn contents(&self) -> impl Iterator<Item = E> {
        let nodes = &self.queue.nodes;
        std::iter::successors(nodes[self.queue.head].next, |&node| nodes[node].next)
            .map(|node| nodes[node].element)
    }
}
