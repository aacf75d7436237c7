//! The interface of boards.

/// What one touch did. An answer goes with the last three and with no other.
#[derive(Clone, Copy, PartialEq, Eq, Debug)]
pub enum Outcome {
    Idle,
    Going,
    Counted,
    CountedReady,
    Ready,
}

impl Outcome {
    /// Did the operation take effect at this touch?
    pub fn is_counted(self) -> bool {
        matches!(self, Outcome::Counted | Outcome::CountedReady)
    }

    /// Can the answer be collected?
    pub fn is_ready(self) -> bool {
        matches!(self, Outcome::CountedReady | Outcome::Ready)
    }
}

/// What a station is doing.
#[derive(Clone, Copy, PartialEq, Eq, Debug)]
pub enum Station<O, R> {
    Free,
    Uncounted(O),
    Counted(O, R),
    Ready(O, R),
}

impl<O, R> Station<O, R> {
    /// The same with another kind of operation and of answer.
    pub fn map<P, Q>(self, op: impl Fn(O) -> P, answer: impl Fn(R) -> Q) -> Station<P, Q> {
        match self {
            Station::Free => Station::Free,
            Station::Uncounted(o) => Station::Uncounted(op(o)),
            Station::Counted(o, r) => Station::Counted(op(o), answer(r)),
            Station::Ready(o, r) => Station::Ready(op(o), answer(r)),
        }
    }
}

/// A shared object that 1 to 16 stations, numbered from 1, work on, one touch at a time.
pub trait Board {
    type Op: Copy;
    type Answer: Copy;
    type Item: Copy;

    /// Hands an operation to a free station. Says whether it was taken.
    fn begin(&mut self, station: usize, op: &Self::Op) -> bool;

    /// Does one step of the station's operation.
    fn touch(&mut self, station: usize) -> (Outcome, Option<Self::Answer>);

    /// Frees a ready station.
    fn release(&mut self, station: usize);

    fn stations(&self) -> usize;

    /// What a station is doing; a station that does not exist is free.
    fn station(&self, station: usize) -> Station<Self::Op, Self::Answer>;

    fn is_free(&self, station: usize) -> bool;

    /// Is there space for the operation?
    fn space(&self, op: &Self::Op) -> bool;

    /// The items that the board holds, in their order.
    fn contents(&self) -> impl Iterator<Item = Self::Item>;

    /// Writes the contents to the front of the list, or nothing where the list is too short. Says whether it wrote.
    fn show(&self, list: &mut [Self::Item]) -> bool {
        if self.contents().count() > list.len() {
            return false;
        }
        for (place, item) in list.iter_mut().zip(self.contents()) {
            *place = item;
        }
        true
    }
}
