//! Days on the floor of a shop, until the ledger is full.
use crate::board::Board;
use crate::busy::make_pair;
use crate::checksum::{Checksum, Coded};
use crate::floor::{BoardLine, Floor, Line as LedgerLine, Refusal};
use crate::generator::Generator;
use crate::host::add_contents;
use crate::keys::{CutTicket, SizeLabel};
use crate::line::{Line, LineAnswer, LineOp};
use crate::nest::Nest;
use crate::pair::{Pair, Side};
use crate::requests::{FindRequests, NestRequests, Requests, ShopOp, ShopRequests};
use crate::run::Run;
use std::time::Instant;

type ShopBoard = Pair<Nest<SizeLabel>, Line<CutTicket>>;

/// A floor with its ledger.
struct Shop {
    floor: Floor<ShopBoard>,
    ledger: Vec<BoardLine<ShopBoard>>,
}

impl Shop {
    /// A shop with 1,024 lines, 512 nodes for keys and 512 for tickets.
    fn open(stations: usize) -> Shop {
        let blank = LedgerLine {
            station: 0,
            turn: 0,
            operation: Side::Second(LineOp::Take),
            answer: Side::Second(LineAnswer::Empty),
        };
        Shop {
            floor: Floor::open(make_pair(stations, 512, 512), 1024),
            ledger: vec![blank; 1024],
        }
    }

    /// Starts the next operation at a station. Says whether there was still a line for it.
    fn start(
        &mut self,
        station: usize,
        requests: &impl Requests<Op = ShopOp>,
        numbers: &mut Generator,
    ) -> bool {
        let op = requests.next(numbers);
        match self.floor.start(station, &op) {
            Ok(()) => true,
            Err(Refusal::NoSpace) => self.floor.start(station, &requests.instead(&op)).is_ok(),
            Err(_) => false,
        }
    }

    /// A day: stations drawn one after another are touched, and each starts again until the ledger is full. Tells how
    /// many touches were taken.
    fn day(
        &mut self,
        requests: &impl Requests<Op = ShopOp>,
        numbers: &mut Generator,
        sum: &mut Checksum,
    ) -> usize {
        let stations = self.floor.board().stations();
        for station in 1..=stations {
            self.start(station, requests, numbers);
        }
        let mut working = stations;
        let mut touches = 0;
        while working > 0 {
            let station = numbers.station(stations);
            let Ok((outcome, answer)) = self.floor.touch(station, &mut self.ledger) else {
                continue;
            };
            touches += 1;
            sum.add_touch(outcome, &answer);
            if outcome.is_ready() {
                if let Ok(answer) = self.floor.collect(station) {
                    sum.add(answer.code());
                }
                if !self.start(station, requests, numbers) {
                    working -= 1;
                }
            }
        }
        touches
    }

    /// Adds the ledger and what the board holds to the checksum.
    fn add_to(&self, sum: &mut Checksum) {
        for line in self.floor.lines(&self.ledger) {
            sum.add(line.station as u64);
            sum.add(line.turn as u64);
            sum.add(line.operation.code());
            sum.add(line.answer.code());
        }
        add_contents(self.floor.board(), sum);
    }
}

/// A day in each of the shops. The time is that of the touches, with starts and collects.
fn days(mut shops: Vec<Shop>, requests: &impl Requests<Op = ShopOp>) -> Run {
    let mut numbers = Generator::new();
    let mut sum = Checksum::new();
    let mut touches = 0;
    let start = Instant::now();
    for shop in &mut shops {
        touches += shop.day(requests, &mut numbers, &mut sum);
    }
    let time = start.elapsed();
    for shop in &shops {
        shop.add_to(&mut sum);
    }
    Run::new(touches, sum, time)
}

/// Days of 4 stations with every kind of operation.
pub fn whole_day() -> Run {
    let requests = ShopRequests {
        nest: NestRequests { keys: 512 },
    };
    days((0..4).map(|_| Shop::open(4)).collect(), &requests)
}

/// Days of 16 stations with finds in an empty nest alone, so that a start and a collect come with each touch.
pub fn short_operations() -> Run {
    days((0..16).map(|_| Shop::open(16)).collect(), &FindRequests)
}
