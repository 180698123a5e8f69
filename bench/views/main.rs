//! Times `interfere` and `outcomes` on views of three sizes, and prints each as so many commands of a unit: a call's
//! least time by the least time that a command of the workload takes.

#[allow(dead_code)]
#[path = "../unit/plain.rs"]
mod plain;
#[path = "../unit/workload.rs"]
mod workload;

use workload::Draw;

use std::process::ExitCode;
use std::time::Instant;

const COMMANDS: usize = 20_000;

/// How many views and roles are drawn, of which the call that takes most time is printed.
const DRAWN: usize = 1_000;

const SEED: u64 = 0x00f3_9ce5;

/// Each call is timed so often, over many calls, in turn with a pass over the commands; its least time counts.
const PASSES: usize = 40;

/// What the calls of a pass take together at least, in seconds.
const PASS: f64 = 0.001;

/// The most commands that a call is to cost: `interfere` where it gains nothing, where it gains, and `outcomes`.
const NOTHING_GAINED: f64 = 400.0;
const GAINED: f64 = 5_000.0;
const OUTCOMES: f64 = 2_000.0;

// In the library each slice crosses as a pointer and then a length. Whatever they hold, the library checks it.
unsafe extern "C" {
    fn views_bench_interfered(
        view: *const u64,
        words: usize,
        clauses: *const u8,
        numbers: usize,
        times: u64,
    ) -> u64;
    fn views_bench_landed(
        view: *const u64,
        words: usize,
        command: *const u8,
        command_numbers: usize,
        tests: *const u8,
        test_numbers: usize,
        times: u64,
    ) -> u64;
    fn views_bench_unchanged(view: *const u64, words: usize) -> u64;
    fn unit_bench_executed(records: *const u8, length: usize) -> u64;
}

/// The number of hosts, the registrations of each of 16, the reservations in two words, and the pending attentions.
#[derive(Clone, Copy)]
struct View([u64; 20]);

impl View {
    fn new(
        hosts: u64,
        registrations: impl Fn(u64) -> u64,
        reservations: u128,
        pending: u64,
    ) -> Self {
        let mut words = [0; 20];
        words[0] = hosts;
        for host in 0..hosts {
            words[1 + host as usize] = registrations(host);
        }
        words[17] = reservations as u64;
        words[18] = (reservations >> 64) as u64;
        words[19] = pending;
        View(words)
    }

    /// Everything is possible.
    fn full(hosts: u64) -> Self {
        View::new(hosts, |_| registered(), bits(hosts * 4 + 3), bits(16) as u64)
    }

    /// Each may be registered with its own key or not, hold with type 5, and be preempted by any other.
    fn fenced(hosts: u64) -> Self {
        let held = bits(hosts) << (1 + hosts * 2);
        // It is told of nothing, or that its registration was preempted.
        View::new(hosts, |host| 1 | own(host), 1 | held, 1 | 1 << 8)
    }

    /// Nobody is registered.
    fn fresh(hosts: u64) -> Self {
        View::new(hosts, |_| 1, 1, 1)
    }

    /// Each is registered with its own key, under any reservation, and nothing is pending.
    fn settled(hosts: u64) -> Self {
        View::new(hosts, own, bits(hosts * 4 + 3), 1)
    }

    /// Everything is possible, but that somebody is free or that nothing is reserved, and nothing is pending.
    fn busy(hosts: u64) -> Self {
        View::new(hosts, |_| registered() - 1, bits(hosts * 4 + 3) - 1, 1)
    }

    /// Some registrations for each, some reservations and some attentions, many or few, as they are drawn.
    fn drawn(hosts: u64, draw: &mut Draw) -> Self {
        let mut registrations = [0; 16];
        for words in &mut registrations {
            *words = drawn_set(draw, 13) as u64;
        }
        let reservations = drawn_set(draw, hosts * 4 + 3);
        let pending = drawn_set(draw, 16) as u64;
        View::new(
            hosts,
            |host| registrations[host as usize],
            reservations,
            pending,
        )
    }

    /// Whoever is registered, one of the others but the host 1 holds alone, with type 3, and nothing is pending.
    fn held(hosts: u64) -> Self {
        let others = bits(hosts) & !2;
        View::new(hosts, |_| registered(), others << (1 + hosts), 1)
    }
}

// A set that is not empty: all, most, half or few of so many numbers.
fn drawn_set(draw: &mut Draw, count: u64) -> u128 {
    let some = match draw.below(4) {
        0 => !0,
        1 => wide(draw) | wide(draw),
        2 => wide(draw),
        _ => wide(draw) & wide(draw) & wide(draw),
    };
    let set = some & bits(count);
    if set == 0 {
        1 << draw.below(count as usize)
    } else {
        set
    }
}

// Twice the time is allowed with more than 8 hosts, but where something is gained.
fn sizes(hosts: u64) -> f64 {
    if hosts > 8 { 2.0 } else { 1.0 }
}

fn wide(draw: &mut Draw) -> u128 {
    u128::from(draw.word()) << 64 | u128::from(draw.word())
}

fn bits(count: u64) -> u128 {
    (1 << count) - 1
}

// Free, or with any of the 12 keys.
fn registered() -> u64 {
    bits(13) as u64
}

// The registration by the key of a host's own; past the twelfth they share the first ones.
fn own(host: u64) -> u64 {
    1 << (host % 12 + 1)
}

const KINDS: [u8; 6] = [1, 3, 5, 6, 7, 8];

/// 32 clauses: all 12 keys, all 6 types, and the preempts of zero and of 8 keys.
fn whole_role() -> Vec<u8> {
    let mut clauses = Vec::new();
    for key in 1..13 {
        clauses.extend([0, key, 0, 0]);
    }
    for kind in KINDS {
        clauses.extend([1, 0, kind, 0]);
    }
    for action in [2, 3, 5, 6, 7] {
        clauses.extend([action, 0, 0, 0]);
    }
    clauses.extend([4, 0, 5, 0]);
    for key in 1..9 {
        clauses.extend([4, key, KINDS[usize::from(key) % 6], 0]);
    }
    clauses
}

/// The host 1 registers its own key, reserves, and preempts any other.
fn fencing_role(hosts: u64) -> Vec<u8> {
    let mut clauses = vec![0, 2, 0, 0, 1, 0, 5, 0, 6, 0, 0, 0, 7, 0, 0, 0];
    for host in 0..hosts {
        if host != 1 {
            clauses.extend([4, (host % 12) as u8 + 1, 5, 0]);
        }
    }
    clauses
}

/// 32 clauses as they are drawn: half of them preempts or all, half of them with a condition or none.
fn drawn_role(draw: &mut Draw) -> Vec<u8> {
    let preempts_alone = draw.one_in(3);
    let has_conditions = draw.one_in(2);
    let mut clauses = Vec::new();
    for _ in 0..32 {
        let action = if preempts_alone || draw.one_in(2) {
            4
        } else {
            draw.below(8) as u8
        };
        let condition = if has_conditions && draw.one_in(2) {
            draw.below(4) as u8
        } else {
            0
        };
        // (a key that is registered is not zero)
        let key = if action == 0 { 1 + draw.below(12) } else { draw.below(13) };
        clauses.extend([action, key as u8, draw.one_of(&KINDS), condition]);
    }
    clauses
}

/// A command with the tests of its arms.
struct Sending {
    name: &'static str,
    command: [u8; 4],
    tests: Vec<u8>,
}

fn sendings() -> Vec<Sending> {
    let plain = [0, 0, 4, 0, 5, 0, 6, 0];
    let mut keys = Vec::new();
    let mut holders = Vec::new();
    for key in 1..13 {
        keys.extend([1, key]);
        holders.extend([2, key]);
    }
    keys.extend(plain);
    holders.extend([3, 0, 2, 0, 0, 0, 5, 0]);
    let commands = [
        ("test-unit-ready", [0, 0, 0, 0]),
        ("read", [1, 0, 0, 0]),
        ("write", [2, 0, 0, 0]),
        ("register", [5, 1, 2, 0]),
        ("register-ignore", [6, 0, 2, 0]),
        ("unregister", [6, 0, 0, 0]),
        ("reserve", [7, 1, 0, 5]),
        ("release", [8, 1, 0, 5]),
        ("clear", [9, 1, 0, 0]),
        ("preempt", [10, 1, 2, 5]),
        ("preempt its own", [10, 1, 1, 5]),
        ("preempt zero", [10, 1, 0, 5]),
    ];
    let mut sendings = vec![
        Sending {
            name: "read-keys, 16 arms",
            command: [3, 0, 0, 0],
            tests: keys,
        },
        Sending {
            name: "read-reservation, 16 arms",
            command: [4, 0, 0, 0],
            tests: holders,
        },
    ];
    for (name, command) in commands {
        sendings.push(Sending {
            name,
            command,
            tests: plain.to_vec(),
        });
    }
    sendings
}

// SAFETY, of each: the pointers and the lengths are those of slices, which are borrowed for the call.

fn interfered(view: &View, clauses: &[u8], times: u64) -> u64 {
    unsafe {
        views_bench_interfered(
            view.0.as_ptr(),
            view.0.len(),
            clauses.as_ptr(),
            clauses.len(),
            times,
        )
    }
}

fn landed(view: &View, sending: &Sending, times: u64) -> u64 {
    unsafe {
        views_bench_landed(
            view.0.as_ptr(),
            view.0.len(),
            sending.command.as_ptr(),
            sending.command.len(),
            sending.tests.as_ptr(),
            sending.tests.len(),
            times,
        )
    }
}

fn unchanged(view: &View) -> u64 {
    unsafe { views_bench_unchanged(view.0.as_ptr(), view.0.len()) }
}

fn executed(records: &[u8]) -> u64 {
    unsafe { unit_bench_executed(records.as_ptr(), records.len()) }
}

fn seconds(call: impl FnOnce() -> u64) -> f64 {
    let start = Instant::now();
    let sum = call();
    let elapsed = start.elapsed().as_secs_f64();
    assert_ne!(sum, 0, "the library refused what it was given");
    elapsed
}

/// What was timed: how many hosts there are, which call, its least time, and the most commands that it is to cost.
struct Timed {
    hosts: u64,
    name: String,
    seconds: f64,
    goal: f64,
}

/// The calls that were timed, and the least time of a command beside them.
struct Bench {
    records: Vec<u8>,
    command: f64,
    calls: Vec<Timed>,
}

impl Bench {
    fn new() -> Self {
        Bench {
            records: workload::records(COMMANDS),
            command: f64::INFINITY,
            calls: Vec::new(),
        }
    }

    /// The least time of one call, while the least time of a command is kept up as well.
    fn time(&mut self, call: impl Fn(u64) -> u64) -> f64 {
        let once = seconds(|| call(2)) / 2.0;
        let times = (PASS / once).clamp(2.0, 100_000.0) as u64;
        let mut least = f64::INFINITY;
        for _ in 0..PASSES {
            least = least.min(seconds(|| call(times)) / times as f64);
            let command = seconds(|| executed(&self.records)) / COMMANDS as f64;
            self.command = self.command.min(command);
        }
        least
    }

    fn interfere(&mut self, role: &str, clauses: &[u8], states: &str, view: &View) {
        let gains = interfered(view, clauses, 1) != unchanged(view);
        let (verb, goal) = if gains {
            ("gains", GAINED)
        } else {
            ("gains nothing", NOTHING_GAINED * sizes(view.0[0]))
        };
        let seconds = self.time(|times| interfered(view, clauses, times));
        self.calls.push(Timed {
            hosts: view.0[0],
            name: format!("interfere, {role}, {states} view, {verb}"),
            seconds,
            goal,
        });
    }

    /// The call that takes most time of those on views and roles that are drawn.
    fn interfere_drawn(&mut self, hosts: u64) {
        let mut draw = Draw::new(SEED);
        let mut most: f64 = 0.0;
        for _ in 0..DRAWN {
            let view = View::drawn(hosts, &mut draw);
            let clauses = drawn_role(&mut draw);
            let mut least = f64::INFINITY;
            for _ in 0..PASSES {
                least = least.min(seconds(|| interfered(&view, &clauses, 2)) / 2.0);
            }
            most = most.max(least);
        }
        self.calls.push(Timed {
            hosts,
            name: format!("interfere, the most of {DRAWN} drawn roles and views"),
            seconds: most,
            goal: GAINED,
        });
    }

    fn outcomes(&mut self, sending: &Sending, states: &str, view: &View) {
        let seconds = self.time(|times| landed(view, sending, times));
        self.calls.push(Timed {
            hosts: view.0[0],
            name: format!("outcomes, {}, {states} view", sending.name),
            seconds,
            goal: OUTCOMES * sizes(view.0[0]),
        });
    }

    /// Prints what the calls cost, and says whether the goals are met.
    fn report(&self) -> bool {
        println!("a command took {:.1} ns", self.command * 1e9);
        let mut is_met = true;
        for call in &self.calls {
            let ratio = call.seconds / self.command;
            let mark = if ratio <= call.goal {
                ""
            } else {
                ", above its goal"
            };
            println!(
                "{} hosts, {}: {:.1} us, {ratio:.0} commands{mark}",
                call.hosts,
                call.name,
                call.seconds * 1e6
            );
            is_met &= ratio <= call.goal;
        }
        is_met
    }
}

fn measure(bench: &mut Bench, hosts: u64) {
    let views = [
        ("fenced", View::fenced(hosts)),
        ("fresh", View::fresh(hosts)),
        ("full", View::full(hosts)),
        ("settled", View::settled(hosts)),
        ("busy", View::busy(hosts)),
        ("held", View::held(hosts)),
    ];
    let fencing = fencing_role(hosts);
    let whole = whole_role();
    for (states, view) in &views[..2] {
        bench.interfere("fencing role", &fencing, states, view);
    }
    for (states, view) in &views {
        bench.interfere("32 clauses", &whole, states, view);
    }
    bench.interfere_drawn(hosts);
    for sending in &sendings() {
        for (states, view) in [&views[0], &views[2]] {
            bench.outcomes(sending, states, view);
        }
    }
}

fn main() -> ExitCode {
    let mut bench = Bench::new();
    for hosts in [2, 4, 8, 16] {
        measure(&mut bench, hosts);
    }
    if bench.report() {
        println!("the goals are met");
        ExitCode::SUCCESS
    } else {
        println!("a goal is not met");
        ExitCode::FAILURE
    }
}
