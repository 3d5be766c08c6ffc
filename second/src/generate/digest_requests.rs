//! The requests that the listing of digests holds, and how its lines are read.
//! They are the same at every run.

use crate::compare::lines::{without_return, words};
use crate::engine::hashes::{Hashes, Own};
use crate::engine::hex::{self, decode_field, field};
use crate::engine::sha1::{Digest, BLOCK};
use crate::generate::{published, rng::Rng};
use std::ops::RangeInclusive;

const SEED: u64 = 2104;

/// Distances from a multiple of the block length at which something changes:
/// the padding takes one more block from 56 bytes on, and a block ends at 64.
const EDGES: [isize; 6] = [-9, -8, -7, -1, 0, 1];

/// The longest line that is read, not counting its newline.
pub const LONGEST: usize = 16_384;

pub enum Request {
    Hash(Vec<u8>),
    Mac { key: Vec<u8>, message: Vec<u8> },
}

impl Request {
    /// The request as a line of the listing, without its end.
    pub fn line(&self) -> String {
        match self {
            Request::Hash(message) => format!("hash {}", field(message)),
            Request::Mac { key, message } => format!("mac {} {}", field(key), field(message)),
        }
    }

    /// The answer by these functions.
    pub fn answer(&self, hashes: &impl Hashes) -> Digest {
        match self {
            Request::Hash(message) => hashes.sha1(message),
            Request::Mac { key, message } => hashes.hmac_sha1(key, message),
        }
    }
}

/// The request that a line is, if it is one.
fn parse(line: &[u8]) -> Option<Request> {
    let words: Vec<&[u8]> = words(without_return(line)).collect();
    match words[..] {
        [b"hash", message] => Some(Request::Hash(decode_field(message)?)),
        [b"mac", key, message] => Some(Request::Mac {
            key: decode_field(key)?,
            message: decode_field(message)?,
        }),
        _ => None,
    }
}

/// What a line of the listing is answered with.
pub fn answer(line: &[u8]) -> String {
    if line.len() > LONGEST {
        return "line too long".to_string();
    }
    let digest = parse(line).map(|request| hex::encode(&request.answer(&Own)));
    digest.unwrap_or("not a request".to_string())
}

/// Lines of other forms, right and wrong: words parted by tabs and spaces,
/// carriage returns, digits and the bytes beside them, lengths at the bound. The
/// last needs no newline.
pub fn odd_lines() -> Vec<String> {
    let mut lines: Vec<String> = ODD.split('|').map(str::to_string).collect();
    for byte in '!'..='~' {
        lines.push(format!("hash {byte}0"));
        lines.push(format!("hash 0{byte}"));
        lines.push(format!("mac 0{byte} -"));
    }
    let digits = "a5".repeat(LONGEST / 2 - 3);
    for form in "hash  DIGITS|hash DIGITS\r|hash  DIGITS\r|hash \t DIGITS|hash DIGITS \r".split('|')
    {
        lines.push(form.replace("DIGITS", &digits));
    }
    lines.push("\tmac\t0B  48692054\t\r".to_string());
    lines
}

const ODD: &str = "hash\t616263|hash  616263|hash \t 616263| hash 616263|\thash 616263|\
    hash 616263 |hash 616263\t|\t hash\t\t616263 \t|mac\t4a656665\t00|  mac  -  -  |\
    mac 4A \t 4a|mac\t-\t4a|mac 4a\t-\t|hash\t-|hash -\r|hash 616263\r|hash 616263 \r|\
    hash 616263\t\r|\thash -\r|mac 4a 4b\r|mac - -\r|hash aBcDeF\r|| |\t|\r| \r|\r\r|hash|\
    hash\t|hash\r|mac|mac 4a|mac 4a\r|hash 61 62|hash - -|mac 4a 4b 4c|mac - - -|\
    hash 616263\r\r|hash -\r\r|mac 4a 4b\r\r|hash \r616263|hash\r616263|hash 61\r62|\rhash 61|\
    hash 61\r |hash 61\r\t|hash 6|hash 616|mac 4 4a|mac 4a 4|hash --|hash -0|hash 0-|mac - --|\
    Hash 61|HASH 61|hashes 61|has 61|macs 4a 4b|Mac 4a 4b|hash 61 # a|# hash 61|hash\u{b}61";

/// All requests in the order of the listing: the hashes, then the macs.
pub fn requests() -> Vec<Request> {
    let mut rng = Rng::new(SEED);
    let mut all = Vec::new();
    published(&mut all);
    patterned_hashes(&mut all);
    short_hashes(&mut all, &mut rng);
    long_hashes(&mut all, &mut rng);
    patterned_macs(&mut all);
    random_macs(&mut all, &mut rng);
    // Stable, so that it only brings the hashes before the macs.
    all.sort_by_key(|request| matches!(request, Request::Mac { .. }));
    all
}

/// The published test vectors.
fn published(all: &mut Vec<Request>) {
    for (message, _) in published::hashes() {
        all.push(Request::Hash(message));
    }
    for (key, message, _) in published::macs() {
        all.push(Request::Mac { key, message });
    }
}

/// Bytes of one value, among them the padding's 80 and 00, and bytes that
/// count up, at the edges of the first blocks.
fn patterned_hashes(all: &mut Vec<Request>) {
    for length in edge_lengths(1..=4) {
        for value in [0x00, 0x55, 0x80, 0xff] {
            all.push(Request::Hash(vec![value; length]));
        }
        all.push(Request::Hash((0..length).map(|i| i as u8).collect()));
    }
}

/// Every length from 0 to 200, then lengths up to 600.
fn short_hashes(all: &mut Vec<Request>, rng: &mut Rng) {
    for length in 0..=200 {
        all.push(Request::Hash(rng.bytes(length)));
    }
    for _ in 0..180 {
        let length = 201 + rng.length(399);
        all.push(Request::Hash(rng.bytes(length)));
    }
}

/// Edges of blocks up to a length of 5,000. Beyond 16 blocks one edge of every
/// second block must do, as the listing is to stay below a million bytes.
fn long_hashes(all: &mut Vec<Request>, rng: &mut Rng) {
    let lower = edge_lengths(4..=16);
    let even = (18..=78).step_by(2);
    let upper = even.flat_map(|n| edge_lengths(n..=n).nth(n / 2 % EDGES.len()));
    for length in lower.chain(upper).chain([4_999, 5_000]) {
        all.push(Request::Hash(rng.bytes(length)));
    }
}

/// Keys of one value, among them those that cancel ipad (36) and opad (5c).
fn patterned_macs(all: &mut Vec<Request>) {
    for value in [0x00, 0x36, 0x5c, 0xff] {
        for key_length in [20, 63, 64, 65] {
            for message_length in [0, 20, 58] {
                all.push(Request::Mac {
                    key: vec![value; key_length],
                    message: vec![value; message_length],
                });
            }
        }
    }
}

/// Every key length from 0 to 200 with a short and with a longer message, and
/// the product's own key length, 20, with every message length from 0 to 64.
fn random_macs(all: &mut Vec<Request>, rng: &mut Rng) {
    let mut push = |key_length, message_length| {
        all.push(Request::Mac {
            key: rng.bytes(key_length),
            message: rng.bytes(message_length),
        });
    };
    for key_length in 0..=200 {
        // 7 and 201, 62 and 131 have no common divisor, so these go through
        // all multiples of 5 up to 1,000 and all lengths up to 130.
        push(key_length, 62 * key_length % 131);
        push(key_length, 7 * key_length % 201 * 5);
    }
    for message_length in 0..=64 {
        push(20, message_length);
    }
}

/// The lengths at the edges of blocks, given by the blocks' numbers from 1 on.
fn edge_lengths(blocks: RangeInclusive<usize>) -> impl Iterator<Item = usize> {
    let length = |n: usize| move |edge| (n * BLOCK).checked_add_signed(edge);
    blocks.flat_map(move |n| EDGES.into_iter().filter_map(length(n)))
}

#[cfg(test)]
mod tests {
    use super::*;
    use std::collections::BTreeSet;

    #[test]
    fn lines_and_answers() {
        let mac = |key: &[u8], message: &[u8]| {
            let (key, message) = (key.to_vec(), message.to_vec());
            Request::Mac { key, message }.line()
        };
        assert_eq!(Request::Hash(vec![]).line(), "hash -");
        assert_eq!(Request::Hash(b"abc".to_vec()).line(), "hash 616263");
        assert_eq!(mac(b"", b"\n"), "mac - 0a");
        let abc = "a9993e364706816aba3e25717850c26c9cd0d89d";
        for line in "hash 616263|\thash\t 616263\r|hash  616263 \t".split('|') {
            assert_eq!(answer(line.as_bytes()), abc, "{line:?}");
        }
        for line in "||hash|hash 61 62|mac 61|hash 6|hash 61\r\r|Hash 61|hash 61 # a".split('|') {
            assert_eq!(answer(line.as_bytes()), "not a request", "{line:?}");
        }
        let long = |length| answer("hash ".repeat(length).as_bytes()[..length].as_ref());
        assert_eq!(long(LONGEST), "not a request");
        assert_eq!(long(LONGEST + 1), "line too long");
    }

    #[test]
    fn the_requests_cover_the_lengths_in_order() {
        let all = requests();
        let size: usize = all.iter().map(|request| request.line().len() + 1).sum();
        assert!(size < 1_000_000, "{size} bytes");
        assert!(all.is_sorted_by_key(|request| matches!(request, Request::Mac { .. })));
        let (mut hashes, mut macs) = (Vec::new(), Vec::new());
        for request in &all {
            match request {
                Request::Hash(message) => hashes.push(message.len()),
                Request::Mac { key, message } => macs.push((key.len(), message.len())),
            }
        }
        assert!(hashes.len() >= 600 && macs.len() >= 400);
        assert!((0..=200).all(|length| hashes.contains(&length)));
        assert_eq!(hashes.iter().max(), Some(&5_000));
        let keys: BTreeSet<_> = macs.iter().map(|pair| pair.0).collect();
        assert!((0..=200).eq(keys));
        assert_eq!(macs.iter().map(|pair| pair.1).max(), Some(1_000));
        assert!((0..=64).all(|message| macs.contains(&(20, message))));
    }
}
