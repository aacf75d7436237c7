//! The twin of the Rattle benchmark: the same boards, floor and workloads in plain safe Rust. For each workload its name,
//! the number of touches and a checksum are printed; with the argument `times` each is run several times, and the
//! nanoseconds a touch of the fastest run are printed too.
mod board;
mod busy;
mod checksum;
mod day;
mod floor;
mod generator;
mod host;
mod keys;
mod line;
mod nest;
mod pair;
mod requests;
mod run;
mod show;
mod walk;
mod workload;

use workload::ALL;

fn main() {
    let timed = std::env::args().any(|argument| argument == "times");
    let more = if timed { 9 } else { 0 };
    for workload in &ALL {
        let run = workload.best(more);
        print!("{workload} {} {:016x}", run.touches, run.sum);
        if timed {
            print!(" {:.2}", run.nanoseconds as f64 / run.touches as f64);
        }
        println!();
    }
}
