//! Drafts of commands that are to pass: document 01, "Descriptor".

use super::*;

/// Allocation lengths on both sides of every page's size, and far beyond.
pub const ALLOCATIONS: [u32; 19] = [
    0, 1, 4, 5, 11, 12, 13, 15, 16, 17, 19, 20, 21, 189, 190, 191, 512, 65536, 0xffffffff,
];

/// Token lengths at the edges: of H2, of the place in the slot, and of the
/// last block that HMAC's hash takes.
pub const TOKENS: [usize; 7] = [16, 17, 20, 55, 56, 63, 64];

#[derive(Clone, Debug)]
pub struct Draft {
    pub unit: u32,
    pub clock: u64,
    pub cdb: Vec<u8>,
    pub wrapping: Option<Wrapping>,
    pub token: Vec<u8>,
}

#[derive(Clone, Copy, Debug)]
pub struct Wrapping {
    pub descriptor: Descriptor,
    pub value: [u8; 20],
}

impl Draft {
    /// A command that passes, unless the case itself is against it.
    pub fn good(case: &Case, clock: u64, rng: &mut Rng) -> Draft {
        let wrapped = case.is_strict() || rng.one_in(2);
        let mut draft = Draft {
            unit: case.place(),
            clock,
            cdb: cdb(&case.row, rng),
            wrapping: wrapped.then(|| Wrapping::good(case, clock, rng)),
            token: token(rng),
        };
        draft.sign(case);
        draft
    }

    /// Wrapped, where it might have been bare.
    pub fn wrapped(case: &Case, clock: u64, rng: &mut Rng) -> Draft {
        let mut draft = Draft::good(case, clock, rng);
        if draft.wrapping.is_none() {
            draft.wrapping = Some(Wrapping::good(case, clock, rng));
        }
        draft.sign(case);
        draft
    }

    /// Gives the wrapping its right value where that is judged. Where the
    /// version's key is not there, the zeros in its place are taken for one.
    pub fn sign(&mut self, case: &Case) {
        if let Some(wrapping) = self.wrapping.as_mut().filter(|_| case.is_strict()) {
            let descriptor = &wrapping.descriptor;
            let key = case.key(descriptor.version()).unwrap_or(&[0; 20]);
            wrapping.value = descriptor.value(&Own, key, &self.token);
        }
    }

    /// Changes the descriptor, if there is one, and gives it its right value.
    pub fn rewrite(&mut self, case: &Case, change: impl FnOnce(&mut Descriptor)) {
        if let Some(wrapping) = &mut self.wrapping {
            change(&mut wrapping.descriptor);
        }
        self.sign(case);
    }

    pub fn command(&self) -> Vec<u8> {
        let mut bytes = self.cdb.clone();
        if let Some(wrapping) = &self.wrapping {
            bytes.extend(wrapping.descriptor.0);
            bytes.extend(wrapping.value);
        }
        bytes
    }

    pub fn line(&self) -> Line {
        Line::open(self.unit, self.clock, self.command(), &self.token[..])
    }
}

impl Wrapping {
    /// A descriptor that passes, with what is not judged left to chance. It is
    /// not signed yet. An open row has only chance in it.
    fn good(case: &Case, clock: u64, rng: &mut Rng) -> Wrapping {
        let (mut descriptor, value) = (Descriptor(rng.array()), rng.array());
        if !case.is_open() {
            descriptor.set_format(1);
            descriptor.set_version(version(case, rng));
            descriptor.set(METHOD, rng.pick(&[0u8, 1]));
            if case.is_strict() {
                descriptor.set(METHOD, 1u8);
                descriptor.set(ALGORITHM, 1u8);
            }
            descriptor.set(EXPIRATION, expiration(clock, rng));
            let any = descriptor.get(PERMISSIONS) as u8;
            descriptor.set(PERMISSIONS, case.bits() | rng.pick(&[0x00, 0xff, any]));
            descriptor.set(TAG, rng.pick(&[0, case.member.unit.tag]));
            descriptor.set_name(&case.member.unit.identifier);
        }
        Wrapping { descriptor, value }
    }
}

/// A version whose key there is; any, where none is judged or there is none.
fn version(case: &Case, rng: &mut Rng) -> u8 {
    let versions = case.versions();
    if case.is_strict() && !versions.is_empty() {
        rng.pick(&versions)
    } else if case.is_master() {
        0
    } else {
        rng.below(16) as u8
    }
}

/// None, or one that the clock has not passed.
fn expiration(clock: u64, rng: &mut Rng) -> u64 {
    if clock > LATEST || rng.one_in(3) {
        return 0;
    }
    let later = clock.saturating_add(rng.below(300)).min(LATEST);
    rng.pick(&[clock, clock, (clock + 1).min(LATEST), later, LATEST])
}

pub fn token(rng: &mut Rng) -> Vec<u8> {
    let any = 16 + rng.length(48);
    let edge = rng.pick(&TOKENS);
    // Mostly short, for the listing's sake.
    let length = rng.pick(&[16, 16, 16, 20, any, edge]);
    rng.bytes(length)
}

/// A CDB of this row with the bytes that are not judged left to chance.
pub fn cdb(row: &Row, rng: &mut Rng) -> Vec<u8> {
    let length = cdb_length(row.code).expect("a row's code has a length");
    let mut bytes = rng.bytes(length);
    bytes[0] = row.code;
    if let Some(page) = row.page {
        bytes[1] = codes::PROTOCOL;
        bytes[2..4].copy_from_slice(&page.to_be_bytes());
        bytes[4] &= 0x7f;
        let count = match row.code {
            codes::OUT => pages_out::total(page) as u32,
            _ => rng.pick(&ALLOCATIONS),
        };
        bytes[6..10].copy_from_slice(&count.to_be_bytes());
    }
    bytes
}
