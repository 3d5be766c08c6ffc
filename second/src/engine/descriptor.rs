//! The 58 bytes of a capability's descriptor, and the integrity check value
//! that follows them in a wrapped command: document 01, "Descriptor".

use super::hashes::{Hashes, Own};
use super::records::Identifier;
use super::sha1::Digest;
use std::ops::Range;

/// Bytes of a descriptor.
pub const DESCRIPTOR: usize = 58;
/// What a wrapped command has beyond its CDB.
pub const WRAPPING: usize = DESCRIPTOR + 20;

/// The largest expiration: it has 48 bits.
pub const LATEST: u64 = 0xffff_ffff_ffff;

// Where the fields stand. Byte 0 has the format in its high nibble and the key
// version in its low; the low nibble of byte 40 is the type.
pub const METHOD: Range<usize> = 1..2;
pub const ALGORITHM: Range<usize> = 2..6;
pub const EXPIRATION: Range<usize> = 6..12;
pub const PERMISSIONS: Range<usize> = 32..33;
pub const TAG: Range<usize> = 36..40;
pub const TYPE: usize = 40;
pub const LENGTH: usize = 41;
pub const IDENTIFIER: Range<usize> = 42..58;

#[derive(Clone, Copy, Debug, PartialEq, Eq)]
pub struct Descriptor(pub [u8; DESCRIPTOR]);

impl Descriptor {
    /// For a unit of this identifier under CAPKEY: it never expires and has no
    /// tag.
    pub fn new(version: u8, permissions: u8, identifier: &Identifier) -> Self {
        let mut new = Descriptor([0; DESCRIPTOR]);
        new.set_format(1);
        new.set_version(version);
        new.set(METHOD, 1u8);
        new.set(ALGORITHM, 1u8);
        new.set(PERMISSIONS, permissions);
        new.set_name(identifier);
        new
    }

    /// The same with these bytes from `at` on.
    pub fn with(mut self, at: usize, bytes: &[u8]) -> Self {
        self.0[at..][..bytes.len()].copy_from_slice(bytes);
        self
    }

    pub fn format(&self) -> u8 {
        self.0[0] >> 4
    }

    pub fn set_format(&mut self, format: u8) {
        self.0[0] = format << 4 | self.version();
    }

    pub fn version(&self) -> u8 {
        self.0[0] & 0x0f
    }

    pub fn set_version(&mut self, version: u8) {
        self.0[0] = self.0[0] & 0xf0 | version;
    }

    /// A field of whole bytes, as a big-endian number.
    pub fn get(&self, field: Range<usize>) -> u64 {
        let bytes = self.0[field].iter();
        bytes.fold(0, |number, byte| number << 8 | u64::from(*byte))
    }

    pub fn set(&mut self, field: Range<usize>, number: impl Into<u64>) {
        let length = field.len();
        let bytes = number.into().to_be_bytes();
        self.0[field].copy_from_slice(&bytes[8 - length..]);
    }

    /// Whether type, length and identifier are those of a unit.
    pub fn names(&self, identifier: &Identifier) -> bool {
        let is_whole = self.0[TYPE] & 0x0f == 1 && self.0[LENGTH] == 16;
        is_whole && self.0[IDENTIFIER] == *identifier
    }

    pub fn set_name(&mut self, identifier: &Identifier) {
        self.0[TYPE] = self.0[TYPE] & 0xf0 | 1;
        self.0[LENGTH] = 16;
        self.0[IDENTIFIER].copy_from_slice(identifier);
    }

    /// The integrity check value: HMAC over the token under the capability key,
    /// which is HMAC over the descriptor under the chosen key.
    pub fn value(&self, hashes: &impl Hashes, key: &[u8], token: &[u8]) -> Digest {
        let capability_key = hashes.hmac_sha1(key, &self.0);
        hashes.hmac_sha1(&capability_key, token)
    }

    /// The command wrapped, with its right value.
    pub fn wrap(&self, cdb: &[u8], key: &[u8], token: &[u8]) -> Vec<u8> {
        [cdb, &self.0, &self.value(&Own, key, token)].concat()
    }
}
