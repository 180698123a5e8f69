//! Times replays of the proved program: texts of three sizes, with as many steps, and `cat` of the same output.

use std::fs;
use std::process::{Command, Stdio};
use std::time::{Duration, Instant};

const ROUNDS: u32 = 100;

#[repr(C)]
#[derive(Default)]
struct Usage {
    times: [i64; 4],
    most_memory: i64,
    others: [i64; 13],
}

unsafe extern "C" {
    fn getrusage(who: i32, usage: *mut Usage) -> i32;
}

// What the children used so far.
fn used_by_children() -> Usage {
    let mut usage = Usage::default();
    // -1 stands for the children.
    unsafe { getrusage(-1, &mut usage) };
    usage
}

// The most memory that any child had, in bytes.
fn most_memory() -> i64 {
    used_by_children().most_memory * 1024
}

// The children's time in user mode and in the system, in seconds.
fn processor_times() -> [f64; 2] {
    let [user, user_micros, system, system_micros] = used_by_children().times;
    [user as f64 + user_micros as f64 / 1e6, system as f64 + system_micros as f64 / 1e6]
}

// A scenario of just so many bytes: host a sends 4,096 times, and the other hosts' scripts fill the text.
fn scenario(bytes: usize) -> String {
    let names = ["b", "c", "d", "e"];
    let mut text = String::from("fence 1\nkeys a1\nhost a\n");
    for name in names {
        text += &format!("host {name}\n");
    }
    text += "script a budget 4096\nrepeat 64\nrepeat 64\nsend test-unit-ready\non good\ndone\ndone\ndone\nend\n";
    for (others, name) in names.iter().enumerate() {
        text += &format!("script {name} budget 4096\n");
        let rest = (names.len() - others - 1) * 32 + 16;
        for _ in 0..512 {
            if text.len() + rest + 64 > bytes {
                break;
            }
            text += "send test-unit-ready\non good\ndone\n";
        }
        text += "end\n";
    }
    while text.len() < bytes {
        let left = (bytes - text.len()).min(200);
        text += &"#".repeat(left - 1);
        text += "\n";
    }
    text
}

/// How long a run took, and how much of it a processor worked for it.
struct Cost {
    elapsed: Duration,
    user: f64,
    system: f64,
}

// What one run costs.
fn cost(run: impl FnOnce()) -> Cost {
    let [user, system] = processor_times();
    let start = Instant::now();
    run();
    let elapsed = start.elapsed();
    let [user_then, system_then] = processor_times();
    Cost { elapsed, user: user_then - user, system: system_then - system }
}

// The costs of the two runs, of each the one that took the least time. They take turns, so that a machine that is
// slow for a while is slow for both.
fn least(first: impl Fn(), second: impl Fn()) -> [Cost; 2] {
    let mut least = [cost(&first), cost(&second)];
    for _ in 1..ROUNDS {
        for (least, now) in least.iter_mut().zip([cost(&first), cost(&second)]) {
            if now.elapsed < least.elapsed {
                *least = now;
            }
        }
    }
    least
}

fn main() {
    let words: Vec<String> = std::env::args().collect();
    let (fence, room) = (&words[1], &words[2]);
    let (text, trace) = (format!("{room}/scenario"), format!("{room}/trace"));
    for (bytes, steps) in [(16_384, 1_024), (32_768, 2_048), (65_536, 4_096)] {
        fs::write(&text, scenario(bytes)).expect("a scenario");
        let steps = vec!["a"; steps];
        let replay_to = |out: Stdio| {
            let status = Command::new(fence).arg("replay").arg(&text).args(&steps).stdout(out).status();
            assert!(status.expect("fence").success());
        };
        replay_to(fs::File::create(&trace).expect("a trace").into());
        // Both write to a device that takes all, so that no disk is timed.
        let cat = || {
            let status = Command::new("cat").arg(&trace).stdout(Stdio::null()).status();
            assert!(status.expect("cat").success());
        };
        let [replay, cat] = least(|| replay_to(Stdio::null()), cat);
        println!(
            "{} bytes, {} steps, {} bytes of trace: {:.1} ms (user {:.1}, system {:.1}); cat of the trace {:.1} ms, ratio {:.1}; most memory {:.1} MB",
            fs::metadata(&text).expect("the scenario").len(),
            steps.len(),
            fs::metadata(&trace).expect("the trace").len(),
            replay.elapsed.as_secs_f64() * 1e3,
            replay.user * 1e3,
            replay.system * 1e3,
            cat.elapsed.as_secs_f64() * 1e3,
            replay.elapsed.as_secs_f64() / cat.elapsed.as_secs_f64(),
            most_memory() as f64 / 1e6,
        );
    }
}
