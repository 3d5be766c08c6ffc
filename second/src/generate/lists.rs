//! The parameter lists that pages of SECURITY PROTOCOL OUT are closed with,
//! right and wrong: document 01, "Pages".

use super::*;

pub fn attributes(method: u16, tag: u32) -> Vec<u8> {
    let (head, method, tag) = (
        [0x00, 0x11, 0x00, 0x08],
        method.to_be_bytes(),
        tag.to_be_bytes(),
    );
    [&head[..], &method, &tag, &[0; 2]].concat()
}

pub fn key(version: u8, seed: &[u8; 20]) -> Vec<u8> {
    [&[0x00, 0x14, 0x00, 0x18, version, 0, 0, 0], &seed[..]].concat()
}

pub fn exchange(agreed: &[u8; 256]) -> Vec<u8> {
    [&[0x00, 0x12, 0x01, 0x04, 0x00, 0x0e, 0, 0], &agreed[..]].concat()
}

pub fn change() -> Vec<u8> {
    vec![0x00, 0x15, 0x00, 0x00]
}

/// A right list with what may vary left to chance.
pub fn right(page: u16, rng: &mut Rng) -> Vec<u8> {
    match page {
        SET_ATTRIBUTES => {
            let any = rng.next_u64() as u32;
            let (method, tag) = (rng.pick(&[0, 1]), rng.pick(&[0, 7, 8, u32::MAX, any]));
            attributes(method, tag)
        }
        SET_KEY => key(rng.below(16) as u8, &rng.array()),
        SEED_EXCHANGE => exchange(&rng.array()),
        _ => change(),
    }
}

/// The bytes of a list that can be only what they are.
pub fn given(page: u16) -> &'static [usize] {
    match page {
        SET_ATTRIBUTES => &[0, 1, 2, 3, 4, 10, 11],
        SET_KEY => &[0, 1, 2, 3, 5, 6, 7],
        SEED_EXCHANGE => &[0, 1, 2, 3, 4, 5, 6, 7],
        _ => &[0, 1, 2, 3],
    }
}

/// A list of the right length that reason 19 applies to: one bit of a byte
/// that is given differs, or a field is too large.
pub fn wrong(page: u16, rng: &mut Rng) -> Vec<u8> {
    let mut list = right(page, rng);
    match (page, rng.below(4)) {
        (SET_ATTRIBUTES, 0 | 1) => list[5] = rng.pick(&[2, 2, 3, 0x81, 0xff]),
        (SET_KEY, 0 | 1) => list[4] = rng.pick(&[16, 16, 17, 31, 0x80, 0xff]),
        _ => {
            let at = rng.pick(given(page));
            list[at] ^= 1 << rng.below(8);
        }
    }
    list
}

/// A list that is not as long as the page's total.
pub fn misfit(page: u16, rng: &mut Rng) -> Vec<u8> {
    let mut list = right(page, rng);
    let total = list.len();
    let any = rng.length(300);
    let edge = rng.pick(&[0, 1, 4, 11, 12, 13, 27, 28, 29, 263, 264, 265, 256 + total]);
    let length = rng.pick(&[total - 1, total + 1, edge, any]);
    list.resize(if length == total { total + 1 } else { length }, 0);
    list
}
