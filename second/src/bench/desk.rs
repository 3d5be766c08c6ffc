//! The calls that the engine's bench times, and the SHA-1 blocks that they
//! can't do without.

use crate::compare::lines::Line;
use crate::engine::answer::{Answer, DONE};
use crate::engine::codes::{page_cdb, DATA_READ, DATA_WRITE, OUT, SEC_MGMT, SET_KEY};
use crate::engine::descriptor::{Descriptor, DESCRIPTOR, EXPIRATION, TAG};
use crate::engine::hmac::hmac_sha1;
use crate::engine::records::{Key, Pair, BODY};
use crate::engine::sha1::BLOCK;
use crate::engine::Build;
use crate::generate::lists;
use crate::generate::rng::Rng;

const UNIT: u32 = 2;
const SHARER: u32 = 5;
const VERSION: u8 = 3;
const TOKEN: usize = 16;
const CLOCK: u64 = 1000;

// A message of n bytes is followed by a byte 80h and eight bytes of length, so
// it has (n + 9) / 64 blocks, rounded up. HMAC hashes a block of key and the
// message, then a block of key and a digest. A record is hashed to check it and
// to seal it, save an unused one, whose 512 bytes are known: to find a free slot
// and to free one takes no hash. A credential is two HMACs: of the descriptor,
// and of the token.
const DIGEST: usize = 20;
const RECORD_BLOCKS: usize = blocks(BODY);
const CREDENTIAL_BLOCKS: usize = mac_blocks(DESCRIPTOR) + mac_blocks(TOKEN);
const JUDGED: usize = RECORD_BLOCKS + CREDENTIAL_BLOCKS;
/// Judged and the slot sealed; the slot checked and judged again.
const PARKED_AND_CLOSED: usize = 2 * (RECORD_BLOCKS + JUDGED);
/// Also the key made of its seed, and the record that holds it sealed.
const KEY_SET: usize = PARKED_AND_CLOSED + mac_blocks(DIGEST) + RECORD_BLOCKS;
/// A sharer is judged by its keeper's record too: once by an open alone, twice
/// by an open and a close.
const JUDGED_AT_SHARER: usize = JUDGED + RECORD_BLOCKS;
const KEY_SET_AT_SHARER: usize = KEY_SET + 2 * RECORD_BLOCKS;

pub const fn blocks(length: usize) -> usize {
    (length + 9).div_ceil(BLOCK)
}

const fn mac_blocks(length: usize) -> usize {
    blocks(BLOCK + length) + blocks(BLOCK + DIGEST)
}

/// What is timed: a row of the table each.
#[derive(Clone)]
pub struct Row {
    pub label: &'static str,
    /// Calls that make the tables that the timed ones find.
    pub before: Vec<Line>,
    pub calls: Vec<Line>,
    pub answers: Vec<Answer>,
    pub blocks: usize,
}

/// All rows, made from this seed.
pub fn rows(seed: u64) -> Vec<Row> {
    let desk = Desk::new(seed);
    [desk.rows(), desk.of_sharer().rows_at_sharer()].concat()
}

/// The answers to Set Key, open and close.
fn key_set() -> Vec<Answer> {
    vec![Answer::A1 { slot: 0 }, DONE]
}

/// What the requests are made of: a CAPKEY unit, the unit that keeps its keys
/// if it is a sharer, a seed for its working key and the token of the path.
struct Desk {
    asked: Build,
    keeper: Option<Build>,
    seed: Key,
    token: [u8; TOKEN],
}

impl Desk {
    fn new(seed: u64) -> Desk {
        let mut rng = Rng::new(seed);
        let (identifier, master) = (rng.array(), Pair::new(rng.array(), rng.array()));
        Desk {
            asked: Build::new(UNIT, 1, 7, identifier, master),
            keeper: None,
            seed: rng.array(),
            token: rng.array(),
        }
    }

    /// The same for a unit whose keys the desk's keeps.
    fn of_sharer(&self) -> Desk {
        let identifier = self.asked.identifier.map(|byte| !byte);
        let asked = Build::new(SHARER, 1, 8, identifier, self.asked.master);
        Desk {
            asked: asked.with_keeper(UNIT + 1),
            keeper: Some(self.asked),
            ..*self
        }
    }

    /// What passes, and what is refused.
    fn rows(&self) -> Vec<Row> {
        let closed = |slot| vec![Answer::A1 { slot }, Answer::A2];
        let inquiry = vec![self.open(vec![0x12, 0, 0, 0, 36, 0])];
        let unknown = vec![self.open([vec![0x7f], vec![0; 9]].concat())];
        let mut altered = self.read(CLOCK);
        *altered.last_mut().expect("it has a value") ^= 1;
        let altered = vec![self.open(altered)];
        let [read, expired] = [CLOCK, CLOCK - 1].map(|until| vec![self.open(self.read(until))]);
        let (good, refused) = (vec![Answer::A2], |reason| vec![Answer::A3(reason)]);
        let labels = [
            "INQUIRY bare, open",
            "READ(10) wrapped, open",
            "WRITE(10) wrapped, open and close, no slot taken",
            "WRITE(10) wrapped, open and close, fifteen slots taken",
            "Set Key, open and close",
            "refused, reason 2 (code 7Fh), open",
            "refused, reason 10 (READ(10) wrapped, expired), open",
            "refused, reason 15 (READ(10) wrapped, value altered), open",
        ];
        let mut full = self.row(labels[3], self.write(15), closed(15), PARKED_AND_CLOSED);
        full.before.extend((0..15).map(|_| self.write(0).remove(0)));
        vec![
            self.row(labels[0], inquiry, good.clone(), RECORD_BLOCKS),
            self.row(labels[1], read, good, JUDGED),
            self.row(labels[2], self.write(0), closed(0), PARKED_AND_CLOSED),
            full,
            self.row(labels[4], self.set_key(), key_set(), KEY_SET),
            self.row(labels[5], unknown, refused(2), RECORD_BLOCKS),
            self.row(labels[6], expired, refused(10), RECORD_BLOCKS),
            self.row(labels[7], altered, refused(15), JUDGED),
        ]
    }

    fn rows_at_sharer(&self) -> Vec<Row> {
        let read = vec![self.open(self.read(CLOCK))];
        let labels = [
            "READ(10) wrapped, open, at a sharer",
            "Set Key, open and close, at a sharer",
        ];
        vec![
            self.row(labels[0], read, vec![Answer::A2], JUDGED_AT_SHARER),
            self.row(labels[1], self.set_key(), key_set(), KEY_SET_AT_SHARER),
        ]
    }

    /// A row on the unit with its working key set.
    fn row(
        &self,
        label: &'static str,
        calls: Vec<Line>,
        answers: Vec<Answer>,
        blocks: usize,
    ) -> Row {
        let builds = self.keeper.into_iter().chain([self.asked]);
        Row {
            label,
            before: builds.map(Line::Build).chain(self.set_key()).collect(),
            calls,
            answers,
            blocks,
        }
    }

    fn open(&self, command: Vec<u8>) -> Line {
        Line::open(self.asked.unit, CLOCK, command, self.token)
    }

    fn read(&self, expiration: u64) -> Vec<u8> {
        let cdb = [0x28, 0, 0, 0, 0, 9, 0, 0, 8, 0];
        self.wrapped(&cdb, VERSION, &self.working_key(), DATA_READ, expiration)
    }

    fn write(&self, slot: u32) -> Vec<Line> {
        let cdb = [0x2a, 0, 0, 0, 0, 9, 0, 0, 8, 0];
        let command = self.wrapped(&cdb, VERSION, &self.working_key(), DATA_WRITE, CLOCK);
        vec![self.open(command), Line::close(slot, CLOCK, vec![])]
    }

    /// The same seed for the same version, so that a second time changes
    /// nothing. It is parked in slot 0, as no slot is taken.
    fn set_key(&self) -> Vec<Line> {
        let list = lists::key(VERSION, &self.seed);
        let cdb = page_cdb(OUT, SET_KEY, list.len());
        let key = self.asked.master.authentication;
        let command = self.wrapped(&cdb, 0, &key, SEC_MGMT, CLOCK);
        vec![self.open(command), Line::close(0, CLOCK, list)]
    }

    fn working_key(&self) -> Key {
        hmac_sha1(&self.asked.master.generation, &self.seed)
    }

    /// The CDB with a capability of these permission bits, for the unit.
    fn wrapped(&self, cdb: &[u8], version: u8, key: &Key, bits: u8, expiration: u64) -> Vec<u8> {
        let mut descriptor = Descriptor::new(version, bits, &self.asked.identifier);
        descriptor.set(EXPIRATION, expiration);
        descriptor.set(TAG, self.asked.tag);
        descriptor.wrap(cdb, key, &self.token)
    }
}
