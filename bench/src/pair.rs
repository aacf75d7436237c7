//! The pair of any two boards, which is a board.
use crate::board::{Board, Outcome, Station};

/// An operation, an answer or an item of a pair belongs to its first side or to its second.
#[derive(Clone, Copy, PartialEq, Eq, Debug)]
pub enum Side<A, B> {
    First(A),
    Second(B),
}

/// Two boards side by side. A station is at work at one of them at most: at the first unless it is free there.
pub struct Pair<F, S> {
    first: F,
    second: S,
}

impl<F: Board, S: Board> Pair<F, S> {
    pub fn new(first: F, second: S) -> Pair<F, S> {
        Pair { first, second }
    }
}

impl<F: Board, S: Board> Board for Pair<F, S> {
    type Op = Side<F::Op, S::Op>;
    type Answer = Side<F::Answer, S::Answer>;
    type Item = Side<F::Item, S::Item>;

    fn begin(&mut self, station: usize, op: &Self::Op) -> bool {
        if station > self.stations() || !self.is_free(station) {
            return false;
        }
        match op {
            Side::First(op) => self.first.begin(station, op),
            Side::Second(op) => self.second.begin(station, op),
        }
    }

    fn touch(&mut self, station: usize) -> (Outcome, Option<Self::Answer>) {
        if self.first.is_free(station) {
            let (outcome, answer) = self.second.touch(station);
            (outcome, answer.map(Side::Second))
        } else {
            let (outcome, answer) = self.first.touch(station);
            (outcome, answer.map(Side::First))
        }
    }

    fn release(&mut self, station: usize) {
        if self.first.is_free(station) {
            self.second.release(station);
        } else {
            self.first.release(station);
        }
    }

    fn stations(&self) -> usize {
        self.first.stations().min(self.second.stations())
    }

    fn station(&self, station: usize) -> Station<Self::Op, Self::Answer> {
        if self.first.is_free(station) {
            self.second.station(station).map(Side::Second, Side::Second)
        } else {
            self.first.station(station).map(Side::First, Side::First)
        }
    }

    fn is_free(&self, station: usize) -> bool {
        self.first.is_free(station) && self.second.is_free(station)
    }

    fn space(&self, op: &Self::Op) -> bool {
        match op {
            Side::First(op) => self.first.space(op),
            Side::Second(op) => self.second.space(op),
        }
    }

    fn contents(&self) -> impl Iterator<Item = Self::Item> {
        let second = self.second.contents().map(Side::Second);
        self.first.contents().map(Side::First).chain(second)
    }
}
