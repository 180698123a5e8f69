//! Times verdicts of the proved program beside a replay of one step of the same text, which reads the text and makes
//! the scenario: a family of clusters of 2 to 16 nodes, and scenarios at the limits of the language. Of the longest of
//! these it times verdicts with one thread beside those with a thread for each host, by a program that repeats them. With the
//! words `texts FOLDER` it only writes the texts, for `bench/check/count`.

use std::collections::HashSet;
use std::fs::{self, File};
use std::process::{Command, Stdio};
use std::thread;
use std::time::{Duration, Instant};

const ROUNDS: u32 = 5;
/// How many verdicts a run of the program that repeats them gives.
const TIMES: u32 = 20;
/// The bytes of the longest texts.
const LONGEST: usize = 65_000;
const NAMES: [&str; 16] = ["a", "b", "c", "d", "e", "f", "g", "h", "i", "j", "k", "l", "m", "n", "o", "p"];
const ARMS: &str = "on good\non conflict\non attention\ndone\n";

#[repr(C)]
#[derive(Default)]
struct Usage {
    times: [i64; 4],
    most_memory: i64,
    others: [i64; 13],
}

unsafe extern "C" {
    fn wait4(child: i32, status: *mut i32, options: i32, usage: *mut Usage) -> i32;
}

/// The first line of a text with so many hosts.
fn first_line(hosts: usize) -> &'static str {
    if hosts > 8 { "fence 2\n" } else { "fence 1\n" }
}

/// A cluster of so many nodes: each registers its own key, reserves, and writes, and may be preempted by every other one.
/// There are twelve keys at most, so past the twelfth node they share the first ones.
fn cluster(nodes: usize) -> String {
    let keys = nodes.min(12);
    let mut text = format!("{}keys", first_line(nodes));
    for node in 0..keys {
        text += &format!(" {}", key(node));
    }
    text += "\n";
    for name in &NAMES[..nodes] {
        text += &format!("host {name}\n");
    }
    for (node, name) in NAMES[..nodes].iter().enumerate() {
        text += &format!("start {name} free {}\n", key(node));
        text += &format!("role {name} register {}\nrole {name} reserve 5\nrole {name} write\n", key(node));
        for other in (0..keys).filter(|other| *other != node) {
            text += &format!("role {name} preempt {} 5\n", key(other));
        }
    }
    for (node, name) in NAMES[..nodes].iter().enumerate() {
        text += &format!("script {name} budget 3\n");
        text += &format!("send --out --register-ignore --param-sark={}\n{ARMS}", key(node));
        text += &format!("send --out --reserve --param-rk={} --prout-type=5\n{ARMS}", key(node));
        text += &format!("send write 0 8\n{ARMS}end\n");
    }
    text
}

/// The key of a node.
fn key(node: usize) -> String {
    format!("{:x}1", node % 12 + 10)
}

/// A key of the scenarios at the limits, of which there are twelve.
fn twelfth(place: usize) -> String {
    format!("{:x}", place % 12 + 1)
}

/// A scenario at the limits: 8 or 16 hosts, 12 keys, 32 clauses a role, and scripts of as many sends as the bytes hold.
fn limits(hosts: usize, bytes: usize, alternatives: bool) -> (String, usize) {
    let names = &NAMES[..hosts];
    let mut head = format!("{}keys 1 2 3 4 5 6 7 8 9 a b c\n", first_line(hosts));
    for name in names {
        head += &format!("host {name}\n");
    }
    for name in names {
        if alternatives {
            head += &format!("start {name} free 1 2 3 4 5 6 7 8 9 a b c\n");
            head += &format!("pending {name} 29/00 2a/03 2a/04 2a/05\n");
        }
        for place in 0..12 {
            head += &format!("role {name} register {}\n", twelfth(place));
        }
        for action in ["unregister", "release", "clear", "read", "write"] {
            head += &format!("role {name} {action}\n");
        }
        for kind in [1, 3, 5, 6, 7, 8] {
            head += &format!("role {name} reserve {kind}\n");
        }
        for place in 0..9 {
            head += &format!("role {name} preempt {} 5\n", twelfth(place));
        }
    }
    if alternatives {
        head += "reservation none";
        // As many as a line has room for.
        let kinds: &[u32] = if hosts > 8 { &[1, 3, 5] } else { &[1, 3, 5, 6] };
        for kind in kinds {
            for name in names {
                head += &format!(" {kind}:{name}");
            }
        }
        head += " 7 8\n";
    }
    let mut scripts: Vec<String> = names.iter().map(|name| format!("script {name} budget 4096\n")).collect();
    let (mut taken, mut sends) = (head.len() + hosts * 26, 0);
    loop {
        let (host, round) = (sends % hosts, sends / hosts);
        let send = format!("send {}\n{ARMS}", command(host, round));
        if taken + send.len() > bytes {
            break;
        }
        taken += send.len();
        scripts[host] += &send;
        sends += 1;
    }
    for script in scripts {
        head += &format!("{script}end\n");
    }
    (head, sends)
}

/// What a host sends in its turn of this number: commands of which none is ever at fault.
fn command(host: usize, round: usize) -> String {
    let (own, other) = (twelfth(host), twelfth((host + round) % 9));
    match round % 8 {
        0 => format!("--out --register-ignore --param-sark={own}"),
        1 => format!("--out --reserve --param-rk={own} --prout-type={}", [1, 3, 5, 6, 7, 8][round / 8 % 6]),
        2 => String::from("write 0 8"),
        3 => String::from("--in --read-keys"),
        4 => String::from("read 0 8"),
        5 => format!("--out --preempt --param-rk={own} --param-sark={other} --prout-type=5"),
        6 => String::from("--in --read-reservation"),
        _ => String::from("test-unit-ready"),
    }
}

/// The dearest texts that we know how to write: one host with a script, and all others guests with the largest roles.
///
/// Each guest may preempt the host's first key by five types, so that nearly all reservations are possible from the beginning. The
/// outer `repeat` registers the host's key anew, in the reverse order of the keys, so that each round lets it have one key more. A
/// guest that may preempt that key by the sixth type then makes one more reservation possible, and each send of the long arm, which
/// comes before, has to be looked at again under all of them. There the host's keys walk through as many sets of six as there are
/// sends, so that no view is met twice.
fn dearest(hosts: usize) -> (String, usize) {
    let names = &NAMES[..hosts];
    let mut text = format!("{}keys 1 2 3 4 5 6 7 8 9 a b c\nhost a\n", first_line(hosts));
    for name in &names[1..] {
        text += &format!("guest {name}\n");
    }
    for name in names {
        text += &format!("start {name} 1\n");
    }
    text += "reservation 5:a\nrole a write\n";
    for (guest, name) in names.iter().enumerate().skip(1) {
        text += &format!("role {name} preempt {} 3\n", twelfth(guest.min(11)));
        for action in ["preempt 1", "reserve"] {
            for kind in [1, 5, 6, 7, 8] {
                for condition in ["", " if registered", " if reserved"] {
                    text += &format!("role {name} {action} {kind}{condition}\n");
                }
            }
        }
    }
    text += "script a budget 4096\nrepeat 2\n";
    text += "send read 0 8\non good\non attention\non conflict\n";
    for place in [0, 1, 2, 3, 4, 5] {
        text += &format!("send --out --register-ignore --param-sark={}\non good\non attention\ndone\n", twelfth(place));
    }
    let walked = walk(490);
    for (from, to) in &walked {
        text += &reregister(*from, *to);
    }
    text += "stop told\ndone\n";
    for place in (0..11).rev() {
        text += &reregister(place, place + 1);
    }
    text += "done\nend\n";
    for name in &names[1..] {
        text += &format!("plan {name}\nend\n");
    }
    (text, 11 + 1 + 6 + walked.len())
}

/// A send by which the host's key becomes another, if it has this one.
fn reregister(from: usize, to: usize) -> String {
    let (from, to) = (twelfth(from), twelfth(to));
    format!("send --out --register --param-rk={from} --param-sark={to}\non good\non conflict\ndone\n")
}

/// Steps through sets of six of twelve keys, each of which has one key in place of another and was not met before, as long as
/// there is such a one.
fn walk(steps: usize) -> Vec<(usize, usize)> {
    let mut keys: u16 = 0b11_1111;
    let (mut met, mut walked) = (HashSet::from([keys]), Vec::new());
    while walked.len() < steps {
        let pairs = (0..144).map(|pair| ((pair * 7 + walked.len() * 5) % 12, (pair * 5 / 12 + walked.len()) % 12));
        let fitting = pairs.filter(|(from, to)| keys >> from & 1 == 1 && keys >> to & 1 == 0);
        let after = |(from, to): (usize, usize)| keys & !(1 << from) | 1 << to;
        let Some(step) = fitting.clone().find(|step| !met.contains(&after(*step))) else {
            break;
        };
        keys = after(step);
        met.insert(keys);
        walked.push(step);
    }
    walked
}

/// The texts whose instructions are counted, by name.
fn counted() -> Vec<(String, String)> {
    let mut texts: Vec<_> = (2..=16).map(|nodes| (format!("{nodes}-nodes"), cluster(nodes))).collect();
    for hosts in [8, 16] {
        texts.push((format!("{hosts}-free"), limits(hosts, LONGEST, false).0));
        texts.push((format!("{hosts}-every-alternative"), limits(hosts, LONGEST, true).0));
        texts.push((format!("{hosts}-dearest"), dearest(hosts).0));
    }
    texts
}

/// What the least of some runs took, and the most memory of any.
struct Cost {
    least: Duration,
    most_memory: i64,
}

impl Cost {
    // One more run with these words.
    fn run(&mut self, fence: &str, words: &[&str]) {
        let start = Instant::now();
        let child = Command::new(fence).args(words).stdout(Stdio::null()).stderr(Stdio::null()).spawn().expect("fence");
        let (mut status, mut usage) = (0, Usage::default());
        // SAFETY: both are places of their own for the answer, and the child is waited for nowhere else.
        unsafe { wait4(child.id() as i32, &mut status, 0, &mut usage) };
        assert!(status == 0 || status == 256, "fence {words:?} ended with {status}");
        self.least = self.least.min(start.elapsed());
        self.most_memory = self.most_memory.max(usage.most_memory * 1024);
    }
}

// Times the verdict on a text beside its replay of one step. They take turns, so that a machine that is slow for a while is
// slow for both.
fn compare(fence: &str, file: &str, what: &str, text: &str) {
    fs::write(file, text).expect("a scenario");
    let verdict = Command::new(fence).args(["check", file]).output().expect("fence").stdout;
    let mut check = Cost { least: Duration::MAX, most_memory: 0 };
    let mut replay = Cost { least: Duration::MAX, most_memory: 0 };
    for _ in 0..ROUNDS {
        check.run(fence, &["check", file]);
        replay.run(fence, &["replay", file, "a"]);
    }
    println!(
        "{what}, {} bytes: {} in {:.1} ms, {:.1} times a replay of one step ({:.1} ms); most memory {:.1} MB",
        text.len(),
        String::from_utf8_lossy(&verdict).trim_end(),
        check.least.as_secs_f64() * 1e3,
        check.least.as_secs_f64() / replay.least.as_secs_f64(),
        replay.least.as_secs_f64() * 1e3,
        check.most_memory as f64 / 1e6,
    );
}

// A run of the program that repeats verdicts: what it printed, and how long each verdict took, with its share of the
// start of the process and of its reading.
fn repeated(program: &str, file: &str, how: &str) -> (String, Duration) {
    let text = File::open(file).expect("a scenario");
    let start = Instant::now();
    let output = Command::new(program).args([how, &TIMES.to_string()]).stdin(text).output().expect("check_bench");
    assert!(output.status.success(), "check_bench {how} ended with {}", output.status);
    (String::from_utf8_lossy(&output.stdout).trim_end().to_string(), start.elapsed() / TIMES)
}

// Times verdicts with one thread and with one for each host. They take turns too, and have to say the same.
fn side_by_side(program: &str, file: &str, what: &str, text: &str) {
    fs::write(file, text).expect("a scenario");
    let (mut one, mut each) = (Duration::MAX, Duration::MAX);
    for _ in 0..ROUNDS {
        let (by_one, elapsed) = repeated(program, file, "one");
        one = one.min(elapsed);
        let (by_each, elapsed) = repeated(program, file, "each");
        each = each.min(elapsed);
        assert_eq!(by_one, by_each);
    }
    println!(
        "{what}, {} bytes, {} cores: verify {:.1} ms, verify_each {:.1} ms, {:.2} times as long",
        text.len(),
        thread::available_parallelism().map_or(1, |cores| cores.get()),
        one.as_secs_f64() * 1e3,
        each.as_secs_f64() * 1e3,
        each.as_secs_f64() / one.as_secs_f64(),
    );
}

fn main() {
    let words: Vec<String> = std::env::args().collect();
    if words[1] == "texts" {
        for (name, text) in counted() {
            fs::write(format!("{}/{name}", words[2]), text).expect("a scenario");
        }
        return;
    }
    let (fence, file, repeating) = (&words[1], format!("{}/scenario", words[2]), &words[3]);
    for nodes in 2..=16 {
        compare(fence, &file, &format!("{nodes} nodes"), &cluster(nodes));
    }
    for bytes in [16_250, 32_500, LONGEST] {
        for (alternatives, start) in [(false, "free"), (true, "with every alternative")] {
            let (text, sends) = limits(8, bytes, alternatives);
            compare(fence, &file, &format!("8 hosts that start {start}, {sends} sends"), &text);
        }
    }
    for (alternatives, start) in [(false, "free"), (true, "with every alternative")] {
        let (text, sends) = limits(16, LONGEST, alternatives);
        compare(fence, &file, &format!("16 hosts that start {start}, {sends} sends"), &text);
    }
    for hosts in [8, 16] {
        let (text, sends) = dearest(hosts);
        compare(fence, &file, &format!("the dearest of {hosts} nexuses, {sends} sends"), &text);
    }
    for (alternatives, start) in [(false, "free"), (true, "with every alternative")] {
        let (text, sends) = limits(8, LONGEST, alternatives);
        side_by_side(repeating, &file, &format!("8 hosts that start {start}, {sends} sends"), &text);
    }
}
