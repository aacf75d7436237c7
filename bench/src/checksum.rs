//! What a run told and left, as one number.
use crate::board::Outcome;
use crate::keys::{CutTicket, SizeLabel};
use crate::line::{LineAnswer, LineOp};
use crate::nest::{NestAnswer, NestOp};
use crate::pair::Side;

/// A hash of the numbers that were added, in their order (FNV over whole words).
pub struct Checksum {
    value: u64,
}

impl Checksum {
    pub fn new() -> Checksum {
        Checksum {
            value: 0xcbf29ce484222325,
        }
    }

    pub fn add(&mut self, number: u64) {
        self.value = (self.value ^ number).wrapping_mul(0x100000001b3);
    }

    pub fn value(&self) -> u64 {
        self.value
    }

    /// Adds what a touch told.
    pub fn add_touch<R: Coded>(&mut self, outcome: Outcome, answer: &Option<R>) {
        self.add(outcome.code());
        if let Some(answer) = answer {
            self.add(answer.code());
        }
    }
}

/// What has a number for a checksum.
pub trait Coded {
    fn code(&self) -> u64;
}

impl Coded for Outcome {
    fn code(&self) -> u64 {
        match self {
            Outcome::Idle => 1,
            Outcome::Going => 2,
            Outcome::Counted => 3,
            Outcome::CountedReady => 4,
            Outcome::Ready => 5,
        }
    }
}

impl Coded for SizeLabel {
    fn code(&self) -> u64 {
        match self {
            SizeLabel::Letter(letter) => *letter as u64,
            SizeLabel::Waist(size) => u64::from(size.waist()) * 1000 + u64::from(size.leg()),
        }
    }
}

impl Coded for CutTicket {
    fn code(&self) -> u64 {
        self.size().code() * 1000 + u64::from(self.plies())
    }
}

impl<K: Coded> Coded for NestOp<K> {
    fn code(&self) -> u64 {
        match self {
            NestOp::Add(key) => key.code() * 4,
            NestOp::Drop(key) => key.code() * 4 + 1,
            NestOp::Find(key) => key.code() * 4 + 2,
        }
    }
}

impl Coded for NestAnswer {
    fn code(&self) -> u64 {
        match self {
            NestAnswer::Added => 1,
            NestAnswer::There => 2,
            NestAnswer::Dropped => 3,
            NestAnswer::Missing => 4,
            NestAnswer::Yes => 5,
            NestAnswer::No => 6,
        }
    }
}

impl<E: Coded> Coded for LineOp<E> {
    fn code(&self) -> u64 {
        match self {
            LineOp::Put(element) => element.code() * 2,
            LineOp::Take => 1,
        }
    }
}

impl<E: Coded> Coded for LineAnswer<E> {
    fn code(&self) -> u64 {
        match self {
            LineAnswer::Put => 1,
            LineAnswer::Took(element) => element.code() * 4,
            LineAnswer::Empty => 2,
        }
    }
}

impl<A: Coded, B: Coded> Coded for Side<A, B> {
    fn code(&self) -> u64 {
        match self {
            Side::First(a) => a.code() * 2,
            Side::Second(b) => b.code() * 2 + 1,
        }
    }
}
