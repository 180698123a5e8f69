//! The commands that both units are given: of all kinds, from 8 hosts, drawn by a fixed seed.

use crate::plain::{Bytes, Unit, Wire};

/// What a command takes in the list: the host, the lengths of its two byte lists, a byte of zero, then 16
/// bytes for the command descriptor block and 24 for the parameter list.
pub const RECORD: usize = 44;

const SEED: u64 = 0x00f3_9ce5;

const KINDS: [u8; 6] = [1, 3, 5, 6, 7, 8];

/// Numbers that look random, the same at each run.
pub struct Draw(u64);

impl Draw {
    pub fn new(seed: u64) -> Self {
        Draw(seed)
    }

    pub fn word(&mut self) -> u64 {
        self.0 = self.0.wrapping_add(0x9e37_79b9_7f4a_7c15);
        let mut word = self.0;
        word = (word ^ (word >> 30)).wrapping_mul(0xbf58_476d_1ce4_e5b9);
        word = (word ^ (word >> 27)).wrapping_mul(0x94d0_49bb_1331_11eb);
        word ^ (word >> 31)
    }

    pub fn below(&mut self, end: usize) -> usize {
        (self.word() % end as u64) as usize
    }

    pub fn one_in(&mut self, count: usize) -> bool {
        self.below(count) == 0
    }

    pub fn one_of<T: Copy>(&mut self, values: &[T]) -> T {
        values[self.below(values.len())]
    }

    /// One of a few keys, so that some hosts share one.
    fn key(&mut self) -> u64 {
        0xa1a1_0000_0000_0001 + self.below(12) as u64
    }
}

/// So many commands, one record each.
///
/// A unit runs along, so that most commands name the key that their sender has at that time.
pub fn records(count: usize) -> Vec<u8> {
    let mut draw = Draw::new(SEED);
    let mut unit = Unit::powered_on();
    let mut records = Vec::with_capacity(count * RECORD);
    for _ in 0..count {
        let host = draw.below(8);
        let (cdb, params) = bytes_of_some_command(&mut draw, &unit, host);
        let wire = Wire {
            cdb: Bytes::of(&cdb),
            params: Bytes::of(&params),
        };
        let _ = unit.execute(host, &wire);
        let mut record = [0; RECORD];
        record[0] = host as u8;
        record[1] = cdb.len() as u8;
        record[2] = params.len() as u8;
        record[4..4 + cdb.len()].copy_from_slice(&cdb);
        record[20..20 + params.len()].copy_from_slice(&params);
        records.extend_from_slice(&record);
    }
    records
}

fn bytes_of_some_command(draw: &mut Draw, unit: &Unit, host: usize) -> (Vec<u8>, Vec<u8>) {
    match draw.below(100) {
        0..8 => (vec![0; 6], vec![]),
        8..16 => (vec![0x03, 0, 0, 0, 18, 0], vec![]),
        16..26 => (transfer(draw, 0x28), vec![]),
        26..36 => (transfer(draw, 0x2a), vec![]),
        36..42 => (reserve_in(draw, 0), vec![]),
        42..48 => (reserve_in(draw, 1), vec![]),
        48..51 => (reserve_in(draw, 2), vec![]),
        51..63 => register(draw, unit, host, 0),
        63..69 => register(draw, unit, host, 6),
        69..77 => reserve_out(draw, unit, host, 1),
        77..83 => reserve_out(draw, unit, host, 2),
        83..85 => reserve_out(draw, unit, host, 3),
        85..91 => reserve_out(draw, unit, host, 4),
        91..95 => reserve_out(draw, unit, host, 5),
        _ => at_fault(draw, unit, host),
    }
}

/// READ or WRITE, now and then past the last block.
fn transfer(draw: &mut Draw, opcode: u8) -> Vec<u8> {
    let lba = if draw.one_in(8) {
        draw.word() as u32
    } else {
        draw.below(1_048_576) as u32
    };
    let mut cdb = vec![opcode, 0];
    cdb.extend_from_slice(&lba.to_be_bytes());
    cdb.extend_from_slice(&[0, 0, 8, 0]);
    cdb
}

/// PERSISTENT RESERVE IN, now and then with a short allocation length.
fn reserve_in(draw: &mut Draw, action: u8) -> Vec<u8> {
    let alloc = if draw.one_in(8) {
        draw.below(80) as u16
    } else {
        8192
    };
    let mut cdb = vec![0x5e, action, 0, 0, 0, 0, 0];
    cdb.extend_from_slice(&alloc.to_be_bytes());
    cdb.push(0);
    cdb
}

/// The sender's key, and now and then another.
fn own_key(draw: &mut Draw, unit: &Unit, host: usize) -> u64 {
    if draw.one_in(8) {
        draw.key()
    } else {
        unit.key(host).unwrap_or(0)
    }
}

fn register(draw: &mut Draw, unit: &Unit, host: usize, action: u8) -> (Vec<u8>, Vec<u8>) {
    let rk = own_key(draw, unit, host);
    let sark = if draw.one_in(5) { 0 } else { draw.key() };
    out(action, 0, rk, sark)
}

/// The other service actions. A PREEMPT names some host's key, any key, or none.
fn reserve_out(draw: &mut Draw, unit: &Unit, host: usize, action: u8) -> (Vec<u8>, Vec<u8>) {
    let rk = own_key(draw, unit, host);
    let other = draw.below(8);
    let sark = match draw.below(4) {
        0 => 0,
        1 => draw.key(),
        _ => unit.key(other).unwrap_or(0),
    };
    let kind = if action >= 4 && draw.one_in(16) {
        0
    } else {
        draw.one_of(&KINDS)
    };
    out(action, kind, rk, sark)
}

fn out(action: u8, kind: u8, rk: u64, sark: u64) -> (Vec<u8>, Vec<u8>) {
    let mut params = Vec::with_capacity(24);
    params.extend_from_slice(&rk.to_be_bytes());
    params.extend_from_slice(&sark.to_be_bytes());
    params.extend_from_slice(&[0; 8]);
    (vec![0x5f, action, kind, 0, 0, 0, 0, 0, 24, 0], params)
}

/// Bytes at fault, or that are no request at all.
fn at_fault(draw: &mut Draw, unit: &Unit, host: usize) -> (Vec<u8>, Vec<u8>) {
    let action = draw.below(7) as u8;
    let (mut cdb, mut params) = reserve_out(draw, unit, host, action);
    match draw.below(12) {
        0 => cdb[0] = draw.word() as u8,
        1 => cdb[1] = draw.word() as u8,
        2 => cdb[2] = draw.word() as u8,
        3 => cdb[8] = 23,
        4 => params[20] = draw.word() as u8,
        5 => params.truncate(draw.below(24)),
        6 => cdb.truncate(draw.below(10)),
        7 => return (vec![0x12, 0, 0, 0, 36, 0], vec![]),
        8 => return (vec![0x03, 1, 0, 0, 18, 0], vec![]),
        9 => return (vec![0x03, 0, 0, 0, draw.below(18) as u8, 0], vec![]),
        10 => return (reserve_in(draw, 3), vec![]),
        _ => return (vec![0xff], vec![]),
    }
    (cdb, params)
}
