//! The pages of SECURITY PROTOCOL OUT, their form and what they do to the unit
//! or its keeper: document 01, "Pages", and document 02, K4.

use super::codes::{CHANGE, SEED_EXCHANGE, SET_ATTRIBUTES, SET_KEY};
use super::hashes::Hashes;
use super::records::{Keeper, Key, Member, Method, Pair, UnitRecord};

/// A parameter list of the right form.
#[derive(Clone, Debug, PartialEq, Eq)]
pub enum Page {
    SetAttributes { method: Method, tag: u32 },
    SetKey { version: usize, seed: [u8; 20] },
    SeedExchange { agreed: Box<[u8; 256]> },
    Change,
}

/// The bytes of a page's parameter list.
pub fn total(page: u16) -> usize {
    match page {
        SET_ATTRIBUTES => 12,
        SEED_EXCHANGE => 264,
        SET_KEY => 28,
        CHANGE => 4,
        other => unreachable!("page {other:04x}h is not listed"),
    }
}

/// The parameter list of this page, whose length is the page's total; nothing
/// where a code, a length, a field or a named zero is wrong (reason 19).
pub fn parse(page: u16, data: &[u8]) -> Option<Page> {
    let length = (total(page) - 4) as u16;
    let header = [page.to_be_bytes(), length.to_be_bytes()].concat();
    let fields = data.strip_prefix(&header[..])?;
    match (page, fields) {
        (SET_ATTRIBUTES, [m0, m1, t0, t1, t2, t3, 0, 0]) => Some(Page::SetAttributes {
            method: Method::from_number(u16::from_be_bytes([*m0, *m1]).into())?,
            tag: u32::from_be_bytes([*t0, *t1, *t2, *t3]),
        }),
        (SET_KEY, [version @ 0..=15, 0, 0, 0, seed @ ..]) => Some(Page::SetKey {
            version: usize::from(*version),
            seed: seed.try_into().ok()?,
        }),
        (SEED_EXCHANGE, [0x00, 0x0e, 0, 0, agreed @ ..]) => Some(Page::SeedExchange {
            agreed: Box::new(agreed.try_into().ok()?),
        }),
        (CHANGE, []) => Some(Page::Change),
        _ => None,
    }
}

impl Page {
    /// The one record that the page makes anew, and its place: the unit's own
    /// for attributes, the keeper's for keys.
    pub fn carry_out(&self, hashes: &impl Hashes, mut member: Member) -> (usize, UnitRecord) {
        let keeper = &mut member.keeper;
        match self {
            Page::SetAttributes { method, tag } => {
                member.unit.method = *method;
                member.unit.tag = *tag;
                return (member.place, member.record());
            }
            Page::SetKey { version, seed } => {
                let key = hashes.hmac_sha1(&keeper.keys.master.generation, seed);
                keeper.keys.working[*version] = Some(key);
            }
            Page::SeedExchange { agreed } => {
                keeper.keys.next = Some(next_pair(hashes, keeper, &agreed[..]));
            }
            Page::Change => {
                // The command was judged with the next key, so there is one.
                let next = keeper.keys.next.take();
                keeper.keys.master = next.expect("reason 14 covers its lack");
                keeper.keys.working = [None; 16];
            }
        }
        (member.keeper.place, member.keeper.record())
    }
}

/// Both next keys come from the current generation master key, and from the
/// keeper's identifier, whichever unit the command came to.
fn next_pair(hashes: &impl Hashes, keeper: &Keeper, agreed: &[u8]) -> Pair {
    let key: &Key = &keeper.keys.master.generation;
    let mut seed = [agreed, &keeper.unit.identifier].concat();
    let generation = hashes.hmac_sha1(key, &seed);
    if let Some(last) = seed.last_mut() {
        *last ^= 1;
    }
    Pair::new(hashes.hmac_sha1(key, &seed), generation)
}
