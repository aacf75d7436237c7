//! What is told of one run of a workload.
use crate::checksum::Checksum;
use std::time::Duration;

/// How many touches there were, the checksum of what they told and left, and their time in nanoseconds.
pub struct Run {
    pub touches: usize,
    pub sum: u64,
    pub nanoseconds: u128,
}

impl Run {
    pub fn new(touches: usize, sum: Checksum, time: Duration) -> Run {
        Run {
            touches,
            sum: sum.value(),
            nanoseconds: time.as_nanos(),
        }
    }
}
