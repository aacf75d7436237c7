//! Boards whose stations are all at work: a nest, a line, and a pair of the two.
use crate::host::work_on_each;
use crate::keys::{CutTicket, SizeLabel};
use crate::line::Line;
use crate::nest::Nest;
use crate::pair::Pair;
use crate::requests::{LineRequests, NestRequests, SMALLEST, ShopRequests};
use crate::run::Run;

pub fn make_nest(stations: usize, size: usize) -> Nest<SizeLabel> {
    Nest::new(stations, size, SMALLEST)
}

pub fn make_line(stations: usize, size: usize) -> Line<CutTicket> {
    let blank = CutTicket::new(SMALLEST, 1).expect("1 to 200 plies");
    Line::new(stations, size, blank)
}

pub fn make_pair(
    stations: usize,
    nest_size: usize,
    line_size: usize,
) -> Pair<Nest<SizeLabel>, Line<CutTicket>> {
    Pair::new(
        make_nest(stations, nest_size),
        make_line(stations, line_size),
    )
}

/// Nests with keys as many as nodes. Each gets enough touches for most nodes to be taken, about 100,000 in all.
pub fn busy_nest(stations: usize, size: usize) -> Run {
    let (rounds, touches) = match size {
        8 => (512, 192),
        64 => (32, 3072),
        _ => (1, 131072),
    };
    let nests = (0..rounds).map(|_| make_nest(stations, size)).collect();
    work_on_each(nests, &NestRequests { keys: size as u64 }, touches)
}

/// Lines of 512 nodes with 4 stations.
pub fn busy_line() -> Run {
    let lines = (0..20).map(|_| make_line(4, 512)).collect();
    work_on_each(lines, &LineRequests, 5000)
}

/// Pairs of a nest of 64 nodes and a line of 512 with 4 stations.
pub fn busy_pair() -> Run {
    let pairs = (0..32).map(|_| make_pair(4, 64, 512)).collect();
    let requests = ShopRequests {
        nest: NestRequests { keys: 64 },
    };
    work_on_each(pairs, &requests, 3072)
}
