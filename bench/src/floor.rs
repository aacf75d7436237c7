//! A floor: a board with a ledger, on which each operation is written at the touch when it takes effect.
use crate::board::{Board, Outcome, Station};

/// Why a call is sent back.
#[derive(Clone, Copy, PartialEq, Eq, Debug)]
pub enum Refusal {
    ShortTable,
    NoSuchStation,
    NotFree,
    StillFree,
    AlreadyReady,
    StillWaiting,
    LedgerFull,
    NoSpace,
}

/// An operation that took effect, by its station and its turn there, with its answer.
#[derive(Clone, Copy)]
pub struct Line<O, R> {
    pub station: usize,
    pub turn: usize,
    pub operation: O,
    pub answer: R,
}

/// A line of the ledger of a board.
pub type BoardLine<B> = Line<<B as Board>::Op, <B as Board>::Answer>;

/// The ledger itself is the host's and goes along with each touch.
pub struct Floor<B> {
    board: B,
    limit: usize,
    written: usize,
    /// how many stations wait with an operation that has not taken effect
    uncounted: usize,
    turns: [usize; 16],
}

impl<B: Board> Floor<B> {
    pub fn open(board: B, limit: usize) -> Floor<B> {
        assert!((1..=1024).contains(&limit));
        Floor {
            board,
            limit,
            written: 0,
            uncounted: 0,
            turns: [0; 16],
        }
    }

    pub fn board(&self) -> &B {
        &self.board
    }

    fn exists(&self, station: usize) -> Result<(), Refusal> {
        if (1..=self.board.stations()).contains(&station) {
            Ok(())
        } else {
            Err(Refusal::NoSuchStation)
        }
    }

    /// Hands an operation to a free station.
    pub fn start(&mut self, station: usize, op: &B::Op) -> Result<(), Refusal> {
        self.exists(station)?;
        if !self.board.is_free(station) {
            return Err(Refusal::NotFree);
        }
        if self.written + self.uncounted == self.limit {
            return Err(Refusal::LedgerFull);
        }
        if !self.board.begin(station, op) {
            return Err(Refusal::NoSpace);
        }
        self.uncounted += 1;
        self.turns[station - 1] += 1;
        Ok(())
    }

    /// Does one step of a waiting station's operation, and writes the next line of the ledger if it counted.
    pub fn touch(
        &mut self,
        station: usize,
        ledger: &mut [BoardLine<B>],
    ) -> Result<(Outcome, Option<B::Answer>), Refusal> {
        if ledger.len() < self.limit {
            return Err(Refusal::ShortTable);
        }
        self.exists(station)?;
        let operation = match self.board.station(station) {
            Station::Free => return Err(Refusal::StillFree),
            Station::Ready(..) => return Err(Refusal::AlreadyReady),
            Station::Uncounted(op) | Station::Counted(op, _) => op,
        };
        let (outcome, answer) = self.board.touch(station);
        if let Some(answer) = answer.filter(|_| outcome.is_counted()) {
            let turn = self.turns[station - 1];
            ledger[self.written] = Line {
                station,
                turn,
                operation,
                answer,
            };
            self.written += 1;
            self.uncounted -= 1;
        }
        Ok((outcome, answer))
    }

    /// Gives the answer of a ready station, which is free then.
    pub fn collect(&mut self, station: usize) -> Result<B::Answer, Refusal> {
        self.exists(station)?;
        match self.board.station(station) {
            Station::Free => Err(Refusal::StillFree),
            Station::Uncounted(_) | Station::Counted(..) => Err(Refusal::StillWaiting),
            Station::Ready(_, answer) => {
                self.board.release(station);
                Ok(answer)
            }
        }
    }

    /// The lines that are written.
    pub fn lines<'a>(&self, ledger: &'a [BoardLine<B>]) -> &'a [BoardLine<B>] {
        &ledger[..self.written]
    }
}
