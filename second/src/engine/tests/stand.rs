//! What the tests share: tables with a few units, and commands made for them.

use super::*;

pub const TOKEN: [u8; 16] = [0x77; 16];
pub const ID: [u8; 16] = *b"unit identifier!";
pub const AUTH: [u8; 20] = [0xa1; 20];
pub const GEN: [u8; 20] = [0x6e; 20];
pub const SEED: [u8; 20] = [0x5e; 20];

/// A NOSEC and a CAPKEY unit of tag 7; the second has working key 3.
pub const NOSEC: u32 = 0;
pub const CAPKEY: u32 = 1;
/// A unit that was never built.
pub const UNUSED: u32 = 5;

pub const WRITE: [u8; 10] = [0x2a, 0, 0, 0, 0, 0, 0, 0, 1, 0];
pub const READ: [u8; 10] = [0x28, 0, 0, 0, 0, 0, 0, 0, 1, 0];

pub struct Stand {
    pub tables: Tables,
}

impl Stand {
    pub fn new() -> Self {
        let mut stand = Stand {
            tables: Tables::default(),
        };
        stand.build(NOSEC, 0, 7);
        stand.build(CAPKEY, 1, 7);
        stand.set_key(CAPKEY, 3);
        stand
    }

    pub fn run(&mut self, line: Line) -> Answer {
        let answer = self.tables.run(&Engine::new(Own), &line);
        answer.expect("a call has an answer")
    }

    pub fn ask(&mut self, asked: Build) -> Answer {
        self.run(Line::Build(asked))
    }

    pub fn build(&mut self, unit: u32, method: u32, tag: u32) -> Answer {
        self.ask(Build::new(unit, method, tag, ID, Pair::new(AUTH, GEN)))
    }

    pub fn open_at(&mut self, unit: u32, clock: u64, command: &[u8]) -> Answer {
        self.run(Line::open(unit, clock, command, TOKEN))
    }

    pub fn open(&mut self, unit: u32, command: &[u8]) -> Answer {
        self.open_at(unit, 0, command)
    }

    /// Opens a command that is to be refused, which changes nothing.
    pub fn refuses(&mut self, unit: u32, clock: u64, command: &[u8], reason: Reason) {
        self.tables.reply.fill(0xee);
        let before = self.tables.clone();
        assert_eq!(self.open_at(unit, clock, command), Answer::A3(reason));
        assert_eq!(self.tables, before);
    }

    pub fn close(&mut self, slot: u32, data: &[u8]) -> Answer {
        self.close_at(slot, 0, data)
    }

    pub fn close_at(&mut self, slot: u32, clock: u64, data: &[u8]) -> Answer {
        self.run(Line::close(slot, clock, data))
    }

    /// Parks a command that is to pass.
    pub fn park(&mut self, unit: u32, command: &[u8]) -> u32 {
        match self.open(unit, command) {
            Answer::A1 { slot } => slot as u32,
            other => panic!("{other:?}"),
        }
    }

    /// Carries out a page of OUT that is to be GOOD.
    pub fn out(&mut self, unit: u32, page: u16, key: &[u8], data: &[u8]) {
        let slot = self.park(unit, &wrap(&out_cdb(page, data.len()), 0, key));
        assert_eq!(self.close(slot, data), DONE);
    }

    /// Sets the working key of this version: HMAC under GEN over SEED.
    pub fn set_key(&mut self, unit: u32, version: u8) {
        self.out(unit, 0x14, &AUTH, &set_key_page(version));
    }

    pub fn set_attributes(&mut self, unit: u32, method: u16, tag: u32) {
        self.out(unit, 0x11, &AUTH, &lists::attributes(method, tag));
    }

    /// Overwrites bytes of a record and makes its check right.
    pub fn damage(&mut self, buffer: Buffer, place: u32, at: usize, bytes: &[u8]) {
        let record = &mut self.tables.buffer(buffer)[512 * place as usize..][..512];
        record[at..][..bytes.len()].copy_from_slice(bytes);
        let check = sha1(&record[..492]);
        record[492..].copy_from_slice(&check);
    }

    pub fn unit_record(&self, unit: u32) -> Vec<u8> {
        self.tables.units[512 * unit as usize..][..512].to_vec()
    }

    /// The next authentication key, after an exchange.
    pub fn next_key(&self, unit: u32) -> Vec<u8> {
        self.unit_record(unit)[72..92].to_vec()
    }
}

/// Places and bytes, as `16:ff 17:00`: the places in decimal, the bytes in hex.
pub fn bytes_at(text: &str) -> Vec<(usize, u8)> {
    let pairs = text.split_whitespace().map(|pair| {
        let (at, byte) = pair.split_once(':')?;
        Some((at.parse().ok()?, u8::from_str_radix(byte, 16).ok()?))
    });
    pairs
        .map(|pair| pair.expect("a place and a byte"))
        .collect()
}

/// The record whose bytes 0-491 are zero but for these.
pub fn record(parts: &[(usize, &[u8])]) -> Vec<u8> {
    let mut bytes = vec![0; 492];
    for (at, part) in parts {
        bytes[*at..][..part.len()].copy_from_slice(part);
    }
    let check = sha1(&bytes);
    [&bytes[..], &check].concat()
}

/// The record of a unit with the stand's identifier and these master keys,
/// which has other bytes besides. The head goes up to the mask.
pub fn keeper_record(
    head: [u8; 8],
    tag: u8,
    pair: (&[u8], &[u8]),
    more: &[(usize, &[u8])],
) -> Vec<u8> {
    let tag = [0, 0, 0, tag];
    let parts: [(usize, &[u8]); 5] = [(0, &head), (8, &tag), (16, &ID), (32, pair.0), (52, pair.1)];
    record(&[&parts[..], more].concat())
}

/// The same under the stand's master keys after this exchange, with its working
/// key at this place.
pub fn pending_record(head: [u8; 8], tag: u8, agreed: u8, key_at: usize) -> Vec<u8> {
    let (next, key) = (next_keys(&GEN, agreed), working_key());
    let step = [0, 0, 0, 1];
    let more: [(usize, &[u8]); 4] = [(12, &step), (72, &next.0), (92, &next.1), (key_at, &key)];
    keeper_record(head, tag, (&AUTH, &GEN), &more)
}

/// The next authentication and generation key after this exchange, by hand.
pub fn next_keys(generation: &[u8], agreed: u8) -> ([u8; 20], [u8; 20]) {
    let mut seed = [vec![agreed; 256], ID.to_vec()].concat();
    let next_generation = hmac_sha1(generation, &seed);
    seed[271] ^= 0x01;
    (hmac_sha1(generation, &seed), next_generation)
}

/// The working key that `set_key` sets.
pub fn working_key() -> [u8; 20] {
    hmac_sha1(&GEN, &SEED)
}

pub fn set_key_page(version: u8) -> Vec<u8> {
    lists::key(version, &SEED)
}

pub fn exchange_page(agreed: u8) -> Vec<u8> {
    lists::exchange(&[agreed; 256])
}

pub fn out_cdb(page: u16, total: usize) -> Vec<u8> {
    page_cdb(codes::OUT, page, total)
}

pub fn in_cdb(page: u16, allocation: usize) -> Vec<u8> {
    page_cdb(codes::IN, page, allocation)
}

/// A descriptor that allows everything on every unit of the stand for good.
pub fn descriptor(version: u8) -> Descriptor {
    Descriptor::new(version, 0xf8, &ID)
}

/// The command under that descriptor, with the value that TOKEN calls for.
pub fn wrap(cdb: &[u8], version: u8, key: &[u8]) -> Vec<u8> {
    descriptor(version).wrap(cdb, key, &TOKEN)
}

/// The command under version 3 with changed bytes of the descriptor, by its
/// right key.
pub fn changed(cdb: &[u8], at: usize, bytes: &[u8]) -> Vec<u8> {
    descriptor(3)
        .with(at, bytes)
        .wrap(cdb, &working_key(), &TOKEN)
}

/// A WRITE(10) for the CAPKEY unit.
pub fn good_write() -> Vec<u8> {
    wrap(&WRITE, 3, &working_key())
}
