//! A host that keeps every station of a board at work.
use crate::board::Board;
use crate::checksum::{Checksum, Coded};
use crate::generator::Generator;
use crate::requests::Requests;
use crate::run::Run;
use std::time::Instant;

/// Hands the next operation to a station.
fn begin<B: Board>(
    board: &mut B,
    station: usize,
    requests: &impl Requests<Op = B::Op>,
    numbers: &mut Generator,
) {
    let op = requests.next(numbers);
    if board.space(&op) {
        board.begin(station, &op);
    } else {
        board.begin(station, &requests.instead(&op));
    }
}

/// So many touches of stations drawn one after another. A station that is ready gets its next operation at once.
fn work<B: Board>(
    board: &mut B,
    requests: &impl Requests<Op = B::Op>,
    touches: usize,
    numbers: &mut Generator,
    sum: &mut Checksum,
) where
    B::Answer: Coded,
{
    let stations = board.stations();
    for station in 1..=stations {
        begin(board, station, requests, numbers);
    }
    for _ in 0..touches {
        let station = numbers.station(stations);
        let (outcome, answer) = board.touch(station);
        sum.add_touch(outcome, &answer);
        if outcome.is_ready() {
            board.release(station);
            begin(board, station, requests, numbers);
        }
    }
}

/// Adds what the board holds to the checksum.
pub fn add_contents<B: Board>(board: &B, sum: &mut Checksum)
where
    B::Item: Coded,
{
    for item in board.contents() {
        sum.add(item.code());
    }
}

/// So many touches of each of the boards. The time is that of the touches, with begins and releases.
pub fn work_on_each<B: Board>(
    mut boards: Vec<B>,
    requests: &impl Requests<Op = B::Op>,
    touches: usize,
) -> Run
where
    B::Answer: Coded,
    B::Item: Coded,
{
    let mut numbers = Generator::new();
    let mut sum = Checksum::new();
    let start = Instant::now();
    for board in &mut boards {
        work(board, requests, touches, &mut numbers, &mut sum);
    }
    let time = start.elapsed();
    for board in &boards {
        add_contents(board, &mut sum);
    }
    Run::new(touches * boards.len(), sum, time)
}

/// One operation of station 1, from its begin to its release. Tells how many touches it took. Only the last of them goes
/// into the checksum.
pub fn alone<B: Board>(board: &mut B, op: B::Op, sum: &mut Checksum) -> usize
where
    B::Answer: Coded,
{
    board.begin(1, &op);
    for touches in 1.. {
        let (outcome, answer) = board.touch(1);
        if outcome.is_ready() {
            sum.add_touch(outcome, &answer);
            board.release(1);
            return touches;
        }
    }
    0
}

/// The numbers that a host draws and adds up for so many touches, without the touches.
pub fn draw(touches: usize) -> Run {
    let mut numbers = Generator::new();
    let mut sum = Checksum::new();
    let start = Instant::now();
    for _ in 0..touches {
        sum.add(numbers.station(4) as u64);
    }
    Run::new(touches, sum, start.elapsed())
}
