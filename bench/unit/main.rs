//! Compares the proved `decode` and `execute` with a plain Rust unit of the same behaviour, by commands per
//! second, in one run over one list of commands.

mod plain;
mod proved;
mod sums;
mod workload;

use std::process::ExitCode;
use std::time::Instant;

const COMMANDS: usize = 1_000_000;

/// Each side runs the list so often, in turn with the other, and its best time counts.
const PASSES: usize = 15;

/// A ratio is the proved one's time by the plain one's, and this is the greatest wanted.
const GOAL: f64 = 1.5;

/// A call that runs a list of commands and sums up what comes out.
type Call = fn(&[u8]) -> u64;

/// What a call came to, and the best of its times in seconds.
struct Measured {
    sum: u64,
    seconds: f64,
}

impl Measured {
    fn new() -> Self {
        Measured {
            sum: 0,
            seconds: f64::INFINITY,
        }
    }

    fn pass(&mut self, call: Call, records: &[u8]) {
        let start = Instant::now();
        self.sum = call(records);
        self.seconds = self.seconds.min(start.elapsed().as_secs_f64());
    }

    fn rate(&self) -> f64 {
        COMMANDS as f64 / self.seconds
    }
}

/// Measures both calls in turn, prints what came out, and says whether the goal is met.
fn compare(name: &str, proved: Call, plain: Call, records: &[u8]) -> bool {
    let mut ours = Measured::new();
    let mut theirs = Measured::new();
    for _ in 0..PASSES {
        ours.pass(proved, records);
        theirs.pass(plain, records);
    }
    if ours.sum != theirs.sum {
        println!("{name}: the answers differ");
        return false;
    }
    let ratio = ours.seconds / theirs.seconds;
    println!(
        "{name}: proved {:.0} commands per second, plain {:.0}, ratio {ratio:.2}",
        ours.rate(),
        theirs.rate()
    );
    ratio <= GOAL
}

fn main() -> ExitCode {
    let records = workload::records(COMMANDS);
    let [good, check, conflict, no_request] = sums::ends(&records);
    println!("{COMMANDS} commands from 8 hosts, best of {PASSES} passes of each side in turn");
    println!(
        "ended GOOD {good}, CHECK CONDITION {check}, RESERVATION CONFLICT {conflict}, no request {no_request}"
    );
    let is_decode_met = compare("decode", proved::decoded, sums::decoded, &records);
    let is_execute_met = compare("execute", proved::executed, sums::executed, &records);
    if is_decode_met && is_execute_met {
        println!("no ratio above {GOAL}: the goal is met");
        ExitCode::SUCCESS
    } else {
        println!("the goal, no ratio above {GOAL} and the same answers, is not met");
        ExitCode::FAILURE
    }
}
