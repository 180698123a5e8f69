//! The plain unit's side of the two calls that are measured. Each runs the list of commands and sums up what
//! comes out; the proved side sums up the same, so that both do equal work and their behaviour is compared.

use crate::plain::{Bad, Bytes, Command, Kind, Reply, Request, Sense, Status, Unit, Wire, decode};
use crate::workload::RECORD;

/// Sums up what each command is read as.
pub fn decoded(records: &[u8]) -> u64 {
    let mut sum = 0;
    for record in records.chunks_exact(RECORD) {
        sum = match decode(cdb_of(record), params_of(record)) {
            Ok(request) => with_request(sum, request),
            Err(bad) => with_bad(sum, bad),
        };
    }
    sum
}

/// Sums up what a unit answers to each command.
pub fn executed(records: &[u8]) -> u64 {
    let mut sum = 0;
    for_each_answer(records, |answer| {
        sum = match answer {
            Ok(reply) => with_reply(sum, &reply),
            Err(bad) => with_bad(sum, bad),
        };
    });
    sum
}

/// How many of the commands end GOOD, in CHECK CONDITION and in RESERVATION CONFLICT, and how many are no
/// request.
pub fn ends(records: &[u8]) -> [usize; 4] {
    let mut ends = [0; 4];
    for_each_answer(records, |answer| {
        let end = match answer.map(|reply| reply.status) {
            Ok(Status::Good) => 0,
            Ok(Status::CheckCondition) => 1,
            Ok(Status::Conflict) => 2,
            Err(_) => 3,
        };
        ends[end] += 1;
    });
    ends
}

fn for_each_answer(records: &[u8], mut take: impl FnMut(Result<Reply, Bad>)) {
    let mut unit = Unit::powered_on();
    for record in records.chunks_exact(RECORD) {
        let host = usize::from(record[0]);
        if host >= 8 {
            continue;
        }
        let wire = Wire {
            cdb: Bytes::of(cdb_of(record)),
            params: Bytes::of(params_of(record)),
        };
        take(unit.execute(host, &wire));
    }
}

fn cdb_of(record: &[u8]) -> &[u8] {
    &record[4..4 + usize::from(record[1]).min(16)]
}

fn params_of(record: &[u8]) -> &[u8] {
    &record[20..20 + usize::from(record[2]).min(24)]
}

fn with(sum: u64, word: u64) -> u64 {
    (sum.rotate_left(5) ^ word).wrapping_mul(0x517c_c1b7_2722_0a95)
}

fn with_bad(sum: u64, bad: Bad) -> u64 {
    match bad {
        Bad::Short => with(sum, 101),
        Bad::NotModelled(opcode) => with(sum, 102 + u64::from(opcode)),
    }
}

fn with_sense(sum: u64, sense: Sense) -> u64 {
    let codes = [sense.key, sense.asc, sense.ascq];
    codes
        .iter()
        .fold(sum, |sum, code| with(sum, u64::from(*code)))
}

fn with_request(sum: u64, request: Request) -> u64 {
    match request {
        Request::Faulty(sense) => with_sense(with(sum, 50), sense),
        Request::Plain(command) => with_command(sum, command),
    }
}

fn kind_code(kind: Option<Kind>) -> u64 {
    kind.map_or(0, |kind| u64::from(kind.code()))
}

fn with_command(sum: u64, command: Command) -> u64 {
    match command {
        Command::TestUnitReady => with(sum, 1),
        Command::RequestSense => with(sum, 2),
        Command::Read { lba, blocks } => with_three(sum, 3, u64::from(lba), u64::from(blocks)),
        Command::Write { lba, blocks } => with_three(sum, 4, u64::from(lba), u64::from(blocks)),
        Command::ReadKeys { alloc } => with(with(sum, 5), u64::from(alloc)),
        Command::ReadReservation { alloc } => with(with(sum, 6), u64::from(alloc)),
        Command::ReportCapabilities { alloc } => with(with(sum, 7), u64::from(alloc)),
        Command::Register { rk, sark } => with_three(sum, 8, rk, sark),
        Command::RegisterIgnore { sark } => with(with(sum, 9), sark),
        Command::Reserve { rk, kind } => with_three(sum, 10, rk, kind_code(Some(kind))),
        Command::Release { rk, kind } => with_three(sum, 11, rk, kind_code(Some(kind))),
        Command::Clear { rk } => with(with(sum, 12), rk),
        Command::Preempt { rk, sark, kind } => with(with_three(sum, 13, rk, sark), kind_code(kind)),
        Command::PreemptAbort { rk, sark, kind } => {
            with(with_three(sum, 14, rk, sark), kind_code(kind))
        }
    }
}

fn with_three(sum: u64, first: u64, second: u64, third: u64) -> u64 {
    with(with(with(sum, first), second), third)
}

fn with_reply(sum: u64, reply: &Reply) -> u64 {
    let status = match reply.status {
        Status::Good => 1,
        Status::CheckCondition => 2,
        Status::Conflict => 3,
    };
    let mut sum = with(sum, status);
    if let Some(sense) = reply.sense {
        sum = with_sense(sum, sense);
    }
    with_bytes(sum, reply.bytes.as_slice())
}

fn with_bytes(sum: u64, bytes: &[u8]) -> u64 {
    let mut sum = with(sum, bytes.len() as u64);
    let words = bytes.chunks_exact(8);
    let rest = words.remainder();
    for word in words {
        sum = with(sum, u64::from_be_bytes(word.try_into().unwrap()));
    }
    for byte in rest {
        sum = with(sum, u64::from(*byte));
    }
    sum
}
