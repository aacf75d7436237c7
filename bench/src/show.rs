//! Listings of a pair.
use crate::board::Board;
use crate::busy::make_pair;
use crate::checksum::{Checksum, Coded};
use crate::generator::Generator;
use crate::host::alone;
use crate::line::LineOp;
use crate::nest::NestOp;
use crate::pair::Side;
use crate::requests::{key, ticket};
use crate::run::Run;
use std::time::Instant;

/// Shows of a pair with 200 keys and 200 tickets. A touch is here an item that was shown.
pub fn show_pair() -> Run {
    let mut pair = make_pair(1, 200, 200);
    let mut numbers = Generator::new();
    let mut sum = Checksum::new();
    for number in 0..200 {
        alone(&mut pair, Side::First(NestOp::Add(key(number))), &mut sum);
        alone(
            &mut pair,
            Side::Second(LineOp::Put(ticket(&mut numbers))),
            &mut sum,
        );
    }
    let mut list = vec![Side::First(key(0)); 400];
    let start = Instant::now();
    for _ in 0..10 {
        sum.add(u64::from(pair.show(&mut list)));
    }
    let time = start.elapsed();
    for item in &list {
        sum.add(item.code());
    }
    Run::new(4000, sum, time)
}
