//! Times audits of the proved program beside a replay of the same scenario that writes as many entries as a replay may.

use std::fs::{self, File};
use std::process::{Command, ExitCode, Stdio};
use std::time::{Duration, Instant};

const ROUNDS: u32 = 50;

/// As many entries as a replay has at most, and as a trace has at most.
const REPLAYED: usize = 4_096;
const MOST: usize = 32_768;

/// How many times as long an entry may take in an audit as in a replay, and the most memory in bytes.
const MOST_RATIO: f64 = 4.0;
const MOST_MEMORY: i64 = 64_000_000;

/// A host registers, reserves, writes and reads the keys, 8,192 times.
const SCENARIO: &str = "fence 1
keys a1
host a
script a budget 4096
repeat 128
repeat 64
send --out --register-ignore --param-sark=a1
on good
done
send --out --reserve --param-rk=a1 --prout-type=5
on good
done
send write 0 8
on good
done
send --in --read-keys
on good
done
done
done
end
";

#[repr(C)]
#[derive(Default)]
struct Usage {
    times: [i64; 4],
    most_memory: i64,
    others: [i64; 13],
}

unsafe extern "C" {
    fn wait4(child: i32, status: *mut i32, options: i32, usage: *mut Usage) -> i32;
}

/// The lines of the first entries of its history, so many of them; each registration counts the generation up.
fn trace(entries: usize) -> String {
    let mut text = String::from("fence-trace 1\n");
    for place in 1..=entries {
        let said = match place % 4 {
            1 => String::from("5f060000000000001800 000000000000000000000000000000a10000000000000000 00 - -"),
            2 => String::from("5f010500000000001800 00000000000000a100000000000000000000000000000000 00 - -"),
            3 => String::from("2a000000000000000800 - 00 - -"),
            _ => format!("5e000000000000200000 - 00 - {:08x}0000000800000000000000a1", place / 4),
        };
        text += &format!("{place} a {said}\n");
    }
    text
}

/// What the least of some runs took, and the most memory of any.
struct Cost {
    least: Duration,
    most_memory: i64,
}

impl Cost {
    fn new() -> Self {
        Cost { least: Duration::MAX, most_memory: 0 }
    }

    // One more run with these words.
    fn run(&mut self, fence: &str, words: &[&str]) {
        let start = Instant::now();
        let child = Command::new(fence).args(words).stdout(Stdio::null()).spawn().expect("fence");
        let (mut status, mut usage) = (0, Usage::default());
        // SAFETY: both are places of their own for the answer, and the child is waited for nowhere else.
        unsafe { wait4(child.id() as i32, &mut status, 0, &mut usage) };
        assert!(status == 0, "fence {} ended with {status}", words[0]);
        self.least = self.least.min(start.elapsed());
        self.most_memory = self.most_memory.max(usage.most_memory * 1024);
    }

    // Microseconds for one of so many entries.
    fn by_entry(&self, entries: usize) -> f64 {
        self.least.as_secs_f64() * 1e6 / entries as f64
    }
}

// A replay with these words writes just the trace that is written here.
fn is_as_replayed(fence: &str, words: &[&str], room: &str) -> bool {
    let file = format!("{room}/replayed");
    let status = Command::new(fence).args(words).stdout(File::create(&file).expect("a trace")).status().expect("fence");
    status.success() && fs::read_to_string(&file).expect("the trace").starts_with(&trace(REPLAYED))
}

fn main() -> ExitCode {
    let words: Vec<String> = std::env::args().collect();
    let (fence, room) = (&words[1], &words[2]);
    let scenario = format!("{room}/scenario");
    fs::write(&scenario, SCENARIO).expect("a scenario");
    let mut replayed = vec!["replay", &scenario];
    replayed.extend(["a"; REPLAYED]);
    assert!(is_as_replayed(fence, &replayed, room), "a replay writes other entries");

    let sizes = [MOST / 4, MOST / 2, MOST];
    let traces = sizes.map(|entries| format!("{room}/{entries}.trace"));
    for (entries, file) in sizes.iter().zip(&traces) {
        fs::write(file, trace(*entries)).expect("a trace");
    }
    let mut replay = Cost::new();
    let mut audits = sizes.map(|_| Cost::new());
    // They take turns, so that a machine that is slow for a while is slow for all.
    for _ in 0..ROUNDS {
        replay.run(fence, &replayed);
        for (audit, file) in audits.iter_mut().zip(&traces) {
            audit.run(fence, &["audit", &scenario, file]);
        }
    }
    println!(
        "a replay that writes {REPLAYED} entries: {:.1} ms, {:.2} us an entry; most memory {:.1} MB",
        replay.least.as_secs_f64() * 1e3,
        replay.by_entry(REPLAYED),
        replay.most_memory as f64 / 1e6,
    );
    let mut is_met = true;
    for ((entries, file), audit) in sizes.iter().zip(&traces).zip(&audits) {
        let ratio = audit.by_entry(*entries) / replay.by_entry(REPLAYED);
        is_met &= ratio <= MOST_RATIO && audit.most_memory <= MOST_MEMORY;
        println!(
            "an audit of {entries} entries, {} bytes: {:.1} ms, {:.2} us an entry, {ratio:.2} times a replay's; most memory {:.1} MB",
            fs::metadata(file).expect("the trace").len(),
            audit.least.as_secs_f64() * 1e3,
            audit.by_entry(*entries),
            audit.most_memory as f64 / 1e6,
        );
    }
    if is_met {
        println!("no ratio above {MOST_RATIO} and no more than 64 MB: the goal is met");
        ExitCode::SUCCESS
    } else {
        println!("the goal, no ratio above {MOST_RATIO} and no more than 64 MB, is not met");
        ExitCode::FAILURE
    }
}
