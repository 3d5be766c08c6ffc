//! Unit and slot records: document 01, "Records of 512 bytes", and document 02,
//! K4. A sound record becomes a struct and is laid out again from it; an unsound
//! one stays bytes.

use crate::engine::codes;
use crate::engine::hashes::Hashes;
use std::array;

/// Bytes of a record.
pub const RECORD: usize = 512;
/// Bytes of a record that its check is taken over; the check follows them.
pub const BODY: usize = 492;

pub const UNITS: usize = 8;
pub const SLOTS: usize = 16;
pub const UNIT_TABLE: usize = UNITS * RECORD;
pub const SLOT_TABLE: usize = SLOTS * RECORD;

/// Where a unit's record says who keeps its keys.
pub const KEEPER: usize = 432;

pub type Key = [u8; 20];
pub type Identifier = [u8; 16];
pub type Body = [u8; BODY];

/// What stands in a place of a table.
#[derive(Clone, Debug, PartialEq, Eq)]
pub enum Record<T> {
    /// Check, shape or zeros are wrong.
    Unsound,
    /// Sound, and an unused unit or a free slot.
    Empty,
    Used(T),
}

#[derive(Clone, Copy, Debug, PartialEq, Eq)]
pub enum Method {
    NoSec,
    CapKey,
}

impl Method {
    pub fn from_number(number: u32) -> Option<Method> {
        let all = [Method::NoSec, Method::CapKey];
        all.get(number as usize).copied()
    }

    pub fn number(self) -> u16 {
        self as u16
    }
}

/// An authentication and a generation master key.
#[derive(Clone, Copy, Debug, PartialEq, Eq)]
pub struct Pair {
    pub authentication: Key,
    pub generation: Key,
}

impl Pair {
    pub fn new(authentication: Key, generation: Key) -> Self {
        Pair {
            authentication,
            generation,
        }
    }
}

/// What stays a unit's own, whoever keeps its keys.
#[derive(Clone, Copy, Debug, PartialEq, Eq)]
pub struct Unit {
    pub method: Method,
    pub tag: u32,
    pub identifier: Identifier,
}

/// Keys; which of them there are tells mask and step.
#[derive(Clone, Debug, PartialEq, Eq)]
pub struct KeySet {
    pub master: Pair,
    /// The next pair, while a seed exchange is pending (step 1).
    pub next: Option<Pair>,
    /// The valid working keys by version. A valid key may itself be zero.
    pub working: [Option<Key>; 16],
}

/// Bytes 432-433 of a unit record and what goes with them.
#[derive(Clone, Debug, PartialEq, Eq)]
pub enum Keys {
    /// Zero: the record has its own.
    Own(Box<KeySet>),
    /// One more than this number: that unit keeps them, and the record has none.
    KeptBy(usize),
}

/// A used unit as its record alone tells of it.
#[derive(Clone, Debug, PartialEq, Eq)]
pub struct UnitRecord {
    pub unit: Unit,
    pub keys: Keys,
}

/// A unit with keys of its own.
#[derive(Clone, Debug, PartialEq, Eq)]
pub struct Keeper {
    pub place: usize,
    pub unit: Unit,
    pub keys: Box<KeySet>,
}

/// A used unit and the keeper of its keys: itself or, of a sharer, another.
#[derive(Clone, Debug, PartialEq, Eq)]
pub struct Member {
    pub place: usize,
    pub unit: Unit,
    pub keeper: Keeper,
}

/// An open slot.
#[derive(Clone, Debug, PartialEq, Eq)]
pub struct Slot {
    pub unit: u16,
    pub command: Vec<u8>,
    pub token: Vec<u8>,
}

impl KeySet {
    /// As a unit is built with: no working key valid, no exchange pending.
    pub fn new(master: Pair) -> Self {
        KeySet {
            master,
            next: None,
            working: [None; 16],
        }
    }

    pub fn mask(&self) -> u16 {
        let valid = (0..16).filter(|version| self.working[*version].is_some());
        valid.fold(0, |mask, version| mask | 1 << version)
    }

    /// Lays mask, step and keys into their places.
    fn encode(&self, body: &mut Body) {
        let mut put = |at: usize, bytes: &[u8]| body[at..][..bytes.len()].copy_from_slice(bytes);
        put(6, &self.mask().to_be_bytes());
        put(32, &self.master.authentication);
        put(52, &self.master.generation);
        if let Some(next) = &self.next {
            put(12, &[0, 0, 0, 1]);
            put(72, &next.authentication);
            put(92, &next.generation);
        }
        for (version, key) in self.working.iter().enumerate() {
            if let Some(key) = key {
                put(112 + 20 * version, key);
            }
        }
    }

    fn decode(body: &Body) -> Option<KeySet> {
        let pair = |at| Pair::new(bytes(body, at), bytes(body, at + 20));
        let mask = u16::from_be_bytes(bytes(body, 6));
        let working_key = |version| bytes(body, 112 + 20 * version);
        Some(KeySet {
            master: pair(32),
            next: match u32::from_be_bytes(bytes(body, 12)) {
                0 => None,
                1 => Some(pair(72)),
                _ => return None,
            },
            working: array::from_fn(|version| {
                (mask >> version & 1 == 1).then(|| working_key(version))
            }),
        })
    }
}

impl UnitRecord {
    /// The bytes before the check, for the unit of this number.
    pub fn encode(&self, place: usize) -> Body {
        let mut body = [0; BODY];
        if let Keys::Own(keys) = &self.keys {
            keys.encode(&mut body);
        }
        let mut put = |at: usize, bytes: &[u8]| body[at..][..bytes.len()].copy_from_slice(bytes);
        put(0, &[0, 1]);
        put(2, &(place as u16).to_be_bytes());
        put(4, &self.unit.method.number().to_be_bytes());
        put(8, &self.unit.tag.to_be_bytes());
        put(16, &self.unit.identifier);
        if let Keys::KeptBy(keeper) = &self.keys {
            put(KEEPER, &(*keeper as u16 + 1).to_be_bytes());
        }
        body
    }

    /// The unit that these bytes before the check are the encoding of. To
    /// compare with the encoding settles the number and every zero.
    pub fn decode(body: &Body, place: usize) -> Option<UnitRecord> {
        let record = UnitRecord {
            unit: Unit {
                method: Method::from_number(u16::from_be_bytes(bytes(body, 4)).into())?,
                tag: u32::from_be_bytes(bytes(body, 8)),
                identifier: bytes(body, 16),
            },
            keys: match usize::from(u16::from_be_bytes(bytes(body, KEEPER))) {
                0 => Keys::Own(Box::new(KeySet::decode(body)?)),
                one_more @ 1..=UNITS => Keys::KeptBy(one_more - 1),
                _ => return None,
            },
        };
        (record.encode(place) == *body).then_some(record)
    }
}

impl Keeper {
    pub fn record(self) -> UnitRecord {
        let (unit, keys) = (self.unit, Keys::Own(self.keys));
        UnitRecord { unit, keys }
    }
}

impl Member {
    pub fn is_sharer(&self) -> bool {
        self.place != self.keeper.place
    }

    /// The unit's own record, not its keeper's.
    pub fn record(self) -> UnitRecord {
        let keys = match self.is_sharer() {
            true => Keys::KeptBy(self.keeper.place),
            false => Keys::Own(self.keeper.keys),
        };
        let unit = self.unit;
        UnitRecord { unit, keys }
    }
}

impl Slot {
    pub fn new(unit: u32, command: &[u8], token: &[u8]) -> Self {
        Slot {
            unit: unit as u16,
            command: command.to_vec(),
            token: token.to_vec(),
        }
    }

    /// The bytes before the check.
    pub fn encode(&self) -> Body {
        let mut body = [0; BODY];
        let mut put = |at: usize, bytes: &[u8]| body[at..][..bytes.len()].copy_from_slice(bytes);
        put(0, &[0, 1]);
        put(2, &self.unit.to_be_bytes());
        put(4, &(self.command.len() as u16).to_be_bytes());
        put(6, &(self.token.len() as u16).to_be_bytes());
        put(8, &self.command);
        put(108, &self.token);
        body
    }

    /// The slot that these bytes before the check are the encoding of, if it
    /// is one that may be open.
    pub fn decode(body: &Body) -> Option<Slot> {
        let [unit, command, token] = [2, 4, 6].map(|at| u16::from_be_bytes(bytes(body, at)));
        let command = body[8..108].get(..command.into())?;
        let token = body[108..172].get(..token.into())?;
        let slot = Slot::new(unit.into(), command, token);
        (slot.may_be_open() && slot.encode() == *body).then_some(slot)
    }

    fn may_be_open(&self) -> bool {
        usize::from(self.unit) < UNITS
            && is_token_length(self.token.len())
            && codes::parts(&self.command).is_some()
            && codes::is_data_out(self.command[0])
    }
}

pub fn is_token_length(length: usize) -> bool {
    (16..=64).contains(&length)
}

/// The `N` bytes from `at` on.
pub fn bytes<const N: usize>(body: &[u8], at: usize) -> [u8; N] {
    array::from_fn(|i| body[at + i])
}

/// The unit's record by itself.
pub fn read_unit_record(hashes: &impl Hashes, table: &[u8], place: usize) -> Record<UnitRecord> {
    read(hashes, table, place, |body| UnitRecord::decode(body, place))
}

/// The unit, if it may keep another's keys.
pub fn read_keeper(hashes: &impl Hashes, table: &[u8], place: usize) -> Option<Keeper> {
    match read_unit_record(hashes, table, place) {
        Record::Used(UnitRecord {
            unit,
            keys: Keys::Own(keys),
        }) => Some(Keeper { place, unit, keys }),
        _ => None,
    }
}

/// The unit with its keeper. A sharer that has none is unsound, and so is one
/// that names itself.
pub fn read_unit(hashes: &impl Hashes, table: &[u8], place: usize) -> Record<Member> {
    let UnitRecord { unit, keys } = match read_unit_record(hashes, table, place) {
        Record::Used(record) => record,
        Record::Unsound => return Record::Unsound,
        Record::Empty => return Record::Empty,
    };
    let keeper = match keys {
        Keys::Own(keys) => Some(Keeper { place, unit, keys }),
        Keys::KeptBy(keeper) => read_keeper(hashes, table, keeper),
    };
    let member = |keeper| {
        Record::Used(Member {
            place,
            unit,
            keeper,
        })
    };
    keeper.map_or(Record::Unsound, member)
}

pub fn read_slot(hashes: &impl Hashes, table: &[u8], place: usize) -> Record<Slot> {
    read(hashes, table, place, Slot::decode)
}

/// Makes an unused unit or a free slot.
pub fn write_empty(hashes: &impl Hashes, table: &mut [u8], place: usize) {
    write(hashes, table, place, &[0; BODY]);
}

/// A table of so many unused units or free slots.
pub fn empty_table(hashes: &impl Hashes, places: usize) -> Vec<u8> {
    let mut table = vec![0; places * RECORD];
    (0..places).for_each(|place| write_empty(hashes, &mut table, place));
    table
}

fn read<T>(
    hashes: &impl Hashes,
    table: &[u8],
    place: usize,
    decode: impl Fn(&Body) -> Option<T>,
) -> Record<T> {
    let (body, check) = table[place * RECORD..][..RECORD].split_at(BODY);
    let body: &Body = body.try_into().expect("cut to that length");
    if hashes.sha1(body) != *check {
        Record::Unsound
    } else if *body == [0; BODY] {
        Record::Empty
    } else if body[..2] == [0, 1] {
        decode(body).map_or(Record::Unsound, Record::Used)
    } else {
        Record::Unsound
    }
}

/// Lays the bytes into the record and makes its check right.
pub fn write(hashes: &impl Hashes, table: &mut [u8], place: usize, body: &Body) {
    let record = &mut table[place * RECORD..][..RECORD];
    record[..BODY].copy_from_slice(body);
    record[BODY..].copy_from_slice(&hashes.sha1(body));
}
