//! A logical unit in plain Rust, as one would write it with no proof in mind: the other side of the comparison.
//!
//! It reads the same bytes as the proved unit and answers them the same way, which the benchmark compares.

/// At most N bytes, which lie in the value itself.
#[derive(Clone, Copy)]
pub struct Bytes<const N: usize> {
    bytes: [u8; N],
    length: usize,
}

impl<const N: usize> Bytes<N> {
    pub fn new() -> Self {
        Bytes {
            bytes: [0; N],
            length: 0,
        }
    }

    /// The first N of these bytes.
    pub fn of(bytes: &[u8]) -> Self {
        let mut buffer = Self::new();
        buffer.extend(&bytes[..bytes.len().min(N)]);
        buffer
    }

    pub fn as_slice(&self) -> &[u8] {
        &self.bytes[..self.length]
    }

    fn extend(&mut self, bytes: &[u8]) {
        let end = self.length + bytes.len();
        self.bytes[self.length..end].copy_from_slice(bytes);
        self.length = end;
    }

    fn truncate(&mut self, length: usize) {
        self.length = self.length.min(length);
    }
}

#[derive(Clone, Copy, PartialEq, Eq)]
pub enum Kind {
    WriteExclusive = 1,
    ExclusiveAccess = 3,
    WriteExclusiveRegistrantsOnly = 5,
    ExclusiveAccessRegistrantsOnly = 6,
    WriteExclusiveAllRegistrants = 7,
    ExclusiveAccessAllRegistrants = 8,
}

impl Kind {
    pub fn code(self) -> u8 {
        self as u8
    }

    /// The type in a byte of scope and type.
    fn of_byte(byte: u8) -> Option<Kind> {
        Some(match byte {
            1 => Kind::WriteExclusive,
            3 => Kind::ExclusiveAccess,
            5 => Kind::WriteExclusiveRegistrantsOnly,
            6 => Kind::ExclusiveAccessRegistrantsOnly,
            7 => Kind::WriteExclusiveAllRegistrants,
            8 => Kind::ExclusiveAccessAllRegistrants,
            _ => return None,
        })
    }

    fn is_of_all(self) -> bool {
        self.code() >= 7
    }

    fn is_for_registrants(self) -> bool {
        self.code() >= 5
    }
}

#[derive(Clone, Copy)]
pub enum Command {
    TestUnitReady,
    RequestSense,
    Read {
        lba: u32,
        blocks: u16,
    },
    Write {
        lba: u32,
        blocks: u16,
    },
    ReadKeys {
        alloc: u16,
    },
    ReadReservation {
        alloc: u16,
    },
    ReportCapabilities {
        alloc: u16,
    },
    Register {
        rk: u64,
        sark: u64,
    },
    RegisterIgnore {
        sark: u64,
    },
    Reserve {
        rk: u64,
        kind: Kind,
    },
    Release {
        rk: u64,
        kind: Kind,
    },
    Clear {
        rk: u64,
    },
    Preempt {
        rk: u64,
        sark: u64,
        kind: Option<Kind>,
    },
    PreemptAbort {
        rk: u64,
        sark: u64,
        kind: Option<Kind>,
    },
}

#[derive(Clone, Copy)]
pub struct Sense {
    pub key: u8,
    pub asc: u8,
    pub ascq: u8,
}

#[derive(Clone, Copy)]
pub enum Request {
    Plain(Command),
    Faulty(Sense),
}

#[derive(Clone, Copy)]
pub enum Bad {
    Short,
    NotModelled(u8),
}

#[derive(Clone, Copy)]
pub enum Status {
    Good,
    CheckCondition,
    Conflict,
}

pub struct Wire {
    pub cdb: Bytes<16>,
    pub params: Bytes<24>,
}

pub struct Reply {
    pub status: Status,
    pub sense: Option<Sense>,
    pub bytes: Bytes<72>,
}

impl Reply {
    fn good(bytes: Bytes<72>) -> Self {
        Reply {
            status: Status::Good,
            sense: None,
            bytes,
        }
    }

    fn check(sense: Sense) -> Self {
        Reply {
            status: Status::CheckCondition,
            sense: Some(sense),
            bytes: Bytes::new(),
        }
    }

    fn conflict() -> Self {
        Reply {
            status: Status::Conflict,
            sense: None,
            bytes: Bytes::new(),
        }
    }
}

fn illegal(asc: u8, ascq: u8) -> Sense {
    Sense { key: 5, asc, ascq }
}

fn faulty(asc: u8) -> Result<Request, Bad> {
    Ok(Request::Faulty(illegal(asc, 0)))
}

fn plain(command: Command) -> Result<Request, Bad> {
    Ok(Request::Plain(command))
}

fn u16_at(bytes: &[u8], place: usize) -> u16 {
    u16::from_be_bytes([bytes[place], bytes[place + 1]])
}

fn u32_at(bytes: &[u8], place: usize) -> u32 {
    u32::from_be_bytes(bytes[place..place + 4].try_into().unwrap())
}

fn u64_at(bytes: &[u8], place: usize) -> u64 {
    u64::from_be_bytes(bytes[place..place + 8].try_into().unwrap())
}

/// What a command descriptor block and a parameter list ask for.
pub fn decode(cdb: &[u8], params: &[u8]) -> Result<Request, Bad> {
    let Some(&opcode) = cdb.first() else {
        return Err(Bad::Short);
    };
    let length = match opcode {
        0x12 | 0xa0 => return Err(Bad::NotModelled(opcode)),
        0x00 | 0x03 => 6,
        0x28 | 0x2a | 0x5e | 0x5f => 10,
        _ => return faulty(0x20),
    };
    if cdb.len() < length {
        return Err(Bad::Short);
    }
    match opcode {
        0x00 => plain(Command::TestUnitReady),
        0x03 if cdb[1] & 1 != 0 => faulty(0x24),
        0x03 if cdb[4] < 18 => Err(Bad::NotModelled(opcode)),
        0x03 => plain(Command::RequestSense),
        0x28 => plain(Command::Read {
            lba: u32_at(cdb, 2),
            blocks: u16_at(cdb, 7),
        }),
        0x2a => plain(Command::Write {
            lba: u32_at(cdb, 2),
            blocks: u16_at(cdb, 7),
        }),
        0x5e => decode_in(cdb),
        _ => decode_out(cdb, params),
    }
}

fn decode_in(cdb: &[u8]) -> Result<Request, Bad> {
    let alloc = u16_at(cdb, 7);
    match cdb[1] & 0x1f {
        0 => plain(Command::ReadKeys { alloc }),
        1 => plain(Command::ReadReservation { alloc }),
        2 => plain(Command::ReportCapabilities { alloc }),
        _ => faulty(0x24),
    }
}

fn decode_out(cdb: &[u8], params: &[u8]) -> Result<Request, Bad> {
    let action = cdb[1] & 0x1f;
    if action > 6 {
        return faulty(0x24);
    }
    if u32_at(cdb, 5) != 24 {
        return faulty(0x1a);
    }
    if params.len() < 24 {
        return Err(Bad::Short);
    }
    let kind = Kind::of_byte(cdb[2]);
    let rk = u64_at(params, 0);
    let sark = u64_at(params, 8);
    let command = match (action, kind) {
        (0, _) => Command::Register { rk, sark },
        (1, Some(kind)) => Command::Reserve { rk, kind },
        (2, Some(kind)) => Command::Release { rk, kind },
        (1 | 2, None) => return faulty(0x24),
        (3, _) => Command::Clear { rk },
        (4, _) => Command::Preempt { rk, sark, kind },
        (5, _) => Command::PreemptAbort { rk, sark, kind },
        _ => Command::RegisterIgnore { sark },
    };
    let refused = if action == 0 || action == 6 {
        0x0d
    } else {
        0x08
    };
    if params[20] & refused != 0 {
        return faulty(0x26);
    }
    plain(command)
}

/// A pending attention is a bit, the lowest code the lowest.
const POWER_ON: u8 = 1;
const RESERVATIONS_PREEMPTED: u8 = 2;
const RESERVATIONS_RELEASED: u8 = 4;
const REGISTRATIONS_PREEMPTED: u8 = 8;

fn attention_sense(attention: u8) -> Sense {
    let (asc, ascq) = match attention {
        POWER_ON => (0x29, 0),
        RESERVATIONS_PREEMPTED => (0x2a, 3),
        RESERVATIONS_RELEASED => (0x2a, 4),
        _ => (0x2a, 5),
    };
    Sense { key: 6, asc, ascq }
}

fn sense_bytes(sense: Sense) -> [u8; 18] {
    let mut bytes = [0; 18];
    bytes[0] = 0x70;
    bytes[2] = sense.key;
    bytes[7] = 0x0a;
    bytes[12] = sense.asc;
    bytes[13] = sense.ascq;
    bytes
}

#[derive(Clone, Copy)]
enum Held {
    One(Kind, usize),
    All(Kind),
}

impl Held {
    fn established(kind: Kind, host: usize) -> Self {
        if kind.is_of_all() {
            Held::All(kind)
        } else {
            Held::One(kind, host)
        }
    }

    fn kind(self) -> Kind {
        match self {
            Held::One(kind, _) | Held::All(kind) => kind,
        }
    }
}

/// How many blocks the unit has.
const CAPACITY: u64 = 1_048_576;

/// What REQUEST SENSE reports where nothing is pending.
const NO_SENSE: Sense = Sense {
    key: 0,
    asc: 0,
    ascq: 0,
};

/// The data of REPORT CAPABILITIES: all six types, and no other capability.
const CAPABILITIES: [u8; 8] = [0x00, 0x08, 0x00, 0x80, 0xea, 0x01, 0x00, 0x00];

/// A logical unit of 8 hosts.
pub struct Unit {
    keys: [Option<u64>; 8],
    held: Option<Held>,
    generation: u32,
    pending: [u8; 8],
}

impl Unit {
    /// Nothing is registered or reserved, and a power on is to be reported to each host.
    pub fn powered_on() -> Self {
        Unit {
            keys: [None; 8],
            held: None,
            generation: 0,
            pending: [POWER_ON; 8],
        }
    }

    pub fn key(&self, host: usize) -> Option<u64> {
        self.keys[host]
    }

    /// Executes a command of a host, and answers it. Where the bytes are no request, nothing changes.
    pub fn execute(&mut self, host: usize, wire: &Wire) -> Result<Reply, Bad> {
        let request = decode(wire.cdb.as_slice(), wire.params.as_slice())?;
        let pending = self.pending[host];
        if pending & POWER_ON != 0 {
            return Ok(self.report(host, request, POWER_ON));
        }
        if let Request::Plain(command) = request
            && self.conflicts(host, command)
        {
            return Ok(Reply::conflict());
        }
        if pending != 0 {
            return Ok(self.report(host, request, pending & pending.wrapping_neg()));
        }
        Ok(match request {
            Request::Faulty(sense) => Reply::check(sense),
            Request::Plain(command) => match self.fault(host, command) {
                Some(sense) => Reply::check(sense),
                None => Reply::good(self.perform(host, command)),
            },
        })
    }

    fn report(&mut self, host: usize, request: Request, attention: u8) -> Reply {
        self.pending[host] &= !attention;
        let sense = attention_sense(attention);
        match request {
            Request::Plain(Command::RequestSense) => Reply::good(Bytes::of(&sense_bytes(sense))),
            _ => Reply::check(sense),
        }
    }

    fn conflicts(&self, host: usize, command: Command) -> bool {
        match command {
            Command::Register { rk, .. } => rk != self.keys[host].unwrap_or(0),
            Command::Reserve { rk, kind } => {
                self.lacks_key(host, rk)
                    || self
                        .held
                        .is_some_and(|held| held.kind() != kind || !self.is_holder(host))
            }
            Command::Release { rk, .. } | Command::Clear { rk } => self.lacks_key(host, rk),
            Command::Preempt { rk, sark, .. } | Command::PreemptAbort { rk, sark, .. } => {
                self.lacks_key(host, rk) || sark != 0 && !self.keys.contains(&Some(sark))
            }
            Command::Read { .. } => self.is_denied(host, false),
            Command::Write { .. } => self.is_denied(host, true),
            _ => false,
        }
    }

    fn lacks_key(&self, host: usize, rk: u64) -> bool {
        self.keys[host] != Some(rk)
    }

    fn is_holder(&self, host: usize) -> bool {
        match self.held {
            None => false,
            Some(Held::One(_, holder)) => holder == host,
            Some(Held::All(_)) => self.keys[host].is_some(),
        }
    }

    fn is_denied(&self, host: usize, writes: bool) -> bool {
        let Some(held) = self.held else {
            return false;
        };
        match held.kind() {
            Kind::WriteExclusive => writes && !self.is_holder(host),
            Kind::ExclusiveAccess => !self.is_holder(host),
            Kind::WriteExclusiveRegistrantsOnly | Kind::WriteExclusiveAllRegistrants => {
                writes && self.keys[host].is_none()
            }
            Kind::ExclusiveAccessRegistrantsOnly | Kind::ExclusiveAccessAllRegistrants => {
                self.keys[host].is_none()
            }
        }
    }

    fn fault(&self, host: usize, command: Command) -> Option<Sense> {
        match command {
            Command::Release { kind, .. }
                if self.is_holder(host) && self.held.is_some_and(|held| held.kind() != kind) =>
            {
                Some(illegal(0x26, 0x04))
            }
            Command::Preempt { sark, kind, .. } | Command::PreemptAbort { sark, kind, .. } => {
                let replaces = self.is_replaced_by(sark);
                if sark == 0 && !replaces {
                    Some(illegal(0x26, 0))
                } else if replaces && kind.is_none() {
                    Some(illegal(0x24, 0))
                } else {
                    None
                }
            }
            Command::Read { lba, blocks } | Command::Write { lba, blocks }
                if u64::from(lba) + u64::from(blocks) > CAPACITY =>
            {
                Some(illegal(0x21, 0))
            }
            _ => None,
        }
    }

    /// Whether a PREEMPT with this key replaces the reservation.
    fn is_replaced_by(&self, sark: u64) -> bool {
        match self.held {
            None => false,
            Some(Held::One(_, holder)) => self.keys[holder] == Some(sark),
            Some(Held::All(_)) => sark == 0,
        }
    }

    /// Does what a command that ends GOOD does, and answers its data.
    fn perform(&mut self, host: usize, command: Command) -> Bytes<72> {
        let data = self.data_of(command);
        self.apply(host, command);
        data
    }

    fn data_of(&self, command: Command) -> Bytes<72> {
        match command {
            Command::RequestSense => Bytes::of(&sense_bytes(NO_SENSE)),
            Command::ReadKeys { alloc } => self.keys_data(alloc),
            Command::ReadReservation { alloc } => self.reservation_data(alloc),
            Command::ReportCapabilities { alloc } => {
                let mut data = Bytes::of(&CAPABILITIES);
                data.truncate(usize::from(alloc));
                data
            }
            _ => Bytes::new(),
        }
    }

    fn apply(&mut self, host: usize, command: Command) {
        match command {
            Command::Register { sark, .. } | Command::RegisterIgnore { sark } => {
                self.register(host, sark);
            }
            Command::Reserve { kind, .. } => {
                if self.held.is_none() {
                    self.held = Some(Held::established(kind, host));
                }
            }
            Command::Release { .. } => self.release(host),
            Command::Clear { .. } => self.clear(host),
            Command::Preempt { sark, kind, .. } | Command::PreemptAbort { sark, kind, .. } => {
                self.preempt(host, sark, kind);
            }
            _ => {}
        }
    }

    fn keys_data(&self, alloc: u16) -> Bytes<72> {
        let mut data = Bytes::new();
        let count = self.keys.iter().flatten().count() as u32;
        data.extend(&self.generation.to_be_bytes());
        data.extend(&(8 * count).to_be_bytes());
        for key in self.keys.iter().flatten() {
            data.extend(&key.to_be_bytes());
        }
        data.truncate(usize::from(alloc));
        data
    }

    fn reservation_data(&self, alloc: u16) -> Bytes<72> {
        let mut data = Bytes::new();
        data.extend(&self.generation.to_be_bytes());
        match self.held {
            None => data.extend(&[0; 4]),
            Some(held) => {
                let key = match held {
                    Held::One(_, holder) => self.keys[holder].unwrap_or(0),
                    Held::All(_) => 0,
                };
                data.extend(&16u32.to_be_bytes());
                data.extend(&key.to_be_bytes());
                data.extend(&[0, 0, 0, 0, 0, held.kind().code(), 0, 0]);
            }
        }
        data.truncate(usize::from(alloc));
        data
    }

    /// Every other registrant has the attention pending.
    fn tell_others(&mut self, host: usize, attention: u8) {
        for other in 0..8 {
            if other != host && self.keys[other].is_some() {
                self.pending[other] |= attention;
            }
        }
    }

    fn end_if_nobody_holds(&mut self) {
        if matches!(self.held, Some(Held::All(_))) && self.keys.iter().all(Option::is_none) {
            self.held = None;
        }
    }

    fn register(&mut self, host: usize, sark: u64) {
        if sark == 0 && self.keys[host].is_none() {
            return;
        }
        self.generation = self.generation.wrapping_add(1);
        if sark != 0 {
            self.keys[host] = Some(sark);
            return;
        }
        self.keys[host] = None;
        match self.held {
            Some(Held::One(kind, holder)) if holder == host => {
                self.held = None;
                if kind.is_for_registrants() {
                    self.tell_others(host, RESERVATIONS_RELEASED);
                }
            }
            _ => self.end_if_nobody_holds(),
        }
    }

    fn release(&mut self, host: usize) {
        if !self.is_holder(host) {
            return;
        }
        if self
            .held
            .take()
            .is_some_and(|held| held.kind().is_for_registrants())
        {
            self.tell_others(host, RESERVATIONS_RELEASED);
        }
    }

    fn clear(&mut self, host: usize) {
        self.tell_others(host, RESERVATIONS_PREEMPTED);
        self.keys = [None; 8];
        self.held = None;
        self.generation = self.generation.wrapping_add(1);
    }

    fn preempt(&mut self, host: usize, sark: u64, kind: Option<Kind>) {
        self.generation = self.generation.wrapping_add(1);
        let replaced = self.held.filter(|_| self.is_replaced_by(sark));
        for other in 0..8 {
            let is_removed = match self.keys[other] {
                None => false,
                Some(key) => key == sark || sark == 0,
            };
            if is_removed && (other != host || replaced.is_none()) {
                self.keys[other] = None;
                if other != host {
                    self.pending[other] |= REGISTRATIONS_PREEMPTED;
                }
            }
        }
        let (Some(old), Some(new)) = (replaced, kind) else {
            self.end_if_nobody_holds();
            return;
        };
        self.held = Some(Held::established(new, host));
        if matches!(old, Held::One(..)) && old.kind() != new {
            self.tell_others(host, RESERVATIONS_RELEASED);
        }
    }
}
