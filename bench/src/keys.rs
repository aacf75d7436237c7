//! Size labels and cut tickets.
use std::cmp::Ordering;

/// A size named by letters. The workloads use the smallest alone.
#[allow(dead_code)]
#[derive(Clone, Copy, PartialEq, Eq, PartialOrd, Ord, Debug)]
pub enum LetterSize {
    Xs,
    S,
    M,
    L,
    Xl,
    Xxl,
}

/// A waist of 40 to 160 and a leg of 50 to 110.
#[derive(Clone, Copy, PartialEq, Eq, PartialOrd, Ord, Debug)]
pub struct WaistSize {
    waist: u32,
    leg: u32,
}

impl WaistSize {
    pub fn new(waist: u32, leg: u32) -> Option<WaistSize> {
        let fits = (40..=160).contains(&waist) && (50..=110).contains(&leg);
        fits.then_some(WaistSize { waist, leg })
    }

    pub fn waist(&self) -> u32 {
        self.waist
    }

    pub fn leg(&self) -> u32 {
        self.leg
    }
}

/// A letter size or a waist with a leg. Letter sizes come before all waists.
#[derive(Clone, Copy, PartialEq, Eq, Debug)]
pub enum SizeLabel {
    Letter(LetterSize),
    Waist(WaistSize),
}

impl Ord for SizeLabel {
    fn cmp(&self, other: &SizeLabel) -> Ordering {
        match (self, other) {
            (SizeLabel::Letter(a), SizeLabel::Letter(b)) => a.cmp(b),
            (SizeLabel::Letter(_), SizeLabel::Waist(_)) => Ordering::Less,
            (SizeLabel::Waist(_), SizeLabel::Letter(_)) => Ordering::Greater,
            (SizeLabel::Waist(a), SizeLabel::Waist(b)) => a.cmp(b),
        }
    }
}

impl PartialOrd for SizeLabel {
    fn partial_cmp(&self, other: &SizeLabel) -> Option<Ordering> {
        Some(self.cmp(other))
    }
}

/// An order to cut a size from 1 to 200 plies of cloth.
#[derive(Clone, Copy, PartialEq, Eq, Debug)]
pub struct CutTicket {
    size: SizeLabel,
    plies: u32,
}

impl CutTicket {
    pub fn new(size: SizeLabel, plies: u32) -> Option<CutTicket> {
        (1..=200)
            .contains(&plies)
            .then_some(CutTicket { size, plies })
    }

    pub fn size(&self) -> SizeLabel {
        self.size
    }

    pub fn plies(&self) -> u32 {
        self.plies
    }
}
