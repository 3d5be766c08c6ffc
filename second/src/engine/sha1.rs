//! SHA-1 as FIPS 180-4 defines it. The sections cited are that standard's.

/// Bytes in a message block: 512 bits (figure 1).
pub const BLOCK: usize = 64;

/// The 160-bit message digest.
pub type Digest = [u8; 20];

/// The initial hash value H(0), section 5.3.1.
const INITIAL: [u32; 5] = [
    0x6745_2301,
    0xefcd_ab89,
    0x98ba_dcfe,
    0x1032_5476,
    0xc3d2_e1f0,
];

/// A digest in progress over a message given in pieces.
pub struct Sha1 {
    state: [u32; 5],
    /// The start of a block that is not yet full; `filled` bytes of it count.
    pending: [u8; BLOCK],
    filled: usize,
    /// Bytes taken so far. The standard's messages have fewer than 2^64 bits.
    length: u64,
}

/// The digest of the empty message so far.
impl Default for Sha1 {
    fn default() -> Self {
        Sha1 {
            state: INITIAL,
            pending: [0; BLOCK],
            filled: 0,
            length: 0,
        }
    }
}

impl Sha1 {
    /// Appends `data` to the message.
    pub fn update(&mut self, mut data: &[u8]) {
        self.length += data.len() as u64;
        if self.filled > 0 {
            let (head, rest) = data.split_at(data.len().min(BLOCK - self.filled));
            self.keep(head);
            data = rest;
            if self.filled < BLOCK {
                return;
            }
            compress(&mut self.state, &self.pending);
            self.filled = 0;
        }
        let blocks = data.chunks_exact(BLOCK);
        let tail = blocks.remainder();
        for block in blocks {
            compress(&mut self.state, block);
        }
        self.keep(tail);
    }

    /// Adds bytes that fit in the pending block.
    fn keep(&mut self, bytes: &[u8]) {
        self.pending[self.filled..][..bytes.len()].copy_from_slice(bytes);
        self.filled += bytes.len();
    }

    /// Pads the message (section 5.1.1) and gives its digest.
    pub fn finish(mut self) -> Digest {
        const LENGTH_AT: usize = BLOCK - 8;
        self.pending[self.filled] = 0x80;
        self.pending[self.filled + 1..].fill(0);
        if self.filled >= LENGTH_AT {
            // No room left for the length: it ends a block of its own.
            compress(&mut self.state, &self.pending);
            self.pending.fill(0);
        }
        let bits = self.length * 8;
        self.pending[LENGTH_AT..].copy_from_slice(&bits.to_be_bytes());
        compress(&mut self.state, &self.pending);

        let mut digest = [0; 20];
        for (bytes, word) in digest.chunks_exact_mut(4).zip(self.state) {
            bytes.copy_from_slice(&word.to_be_bytes());
        }
        digest
    }
}

/// The digest of a whole message.
pub fn sha1(message: &[u8]) -> Digest {
    let mut hash = Sha1::default();
    hash.update(message);
    hash.finish()
}

/// One step of the hash computation: section 6.1.2, for one block.
fn compress(state: &mut [u32; 5], block: &[u8]) {
    let w = schedule(block);
    let mut working = *state;
    // The functions f_t are those of section 4.1.1, the constants K_t of 4.2.1.
    rounds(&mut working, &w[..20], 0x5a82_7999, |x, y, z| {
        (x & y) ^ (!x & z)
    });
    rounds(&mut working, &w[20..40], 0x6ed9_eba1, |x, y, z| x ^ y ^ z);
    rounds(&mut working, &w[40..60], 0x8f1b_bcdc, |x, y, z| {
        (x & y) ^ (x & z) ^ (y & z)
    });
    rounds(&mut working, &w[60..], 0xca62_c1d6, |x, y, z| x ^ y ^ z);
    for (word, change) in state.iter_mut().zip(working) {
        *word = word.wrapping_add(change);
    }
}

/// The message schedule W: section 6.1.2, step 1.
fn schedule(block: &[u8]) -> [u32; 80] {
    let mut w = [0; 80];
    for (word, bytes) in w.iter_mut().zip(block.chunks_exact(4)) {
        *word = u32::from_be_bytes([bytes[0], bytes[1], bytes[2], bytes[3]]);
    }
    for t in 16..80 {
        w[t] = (w[t - 3] ^ w[t - 8] ^ w[t - 14] ^ w[t - 16]).rotate_left(1);
    }
    w
}

/// The rounds that share one function and one constant: section 6.1.2, step 3.
fn rounds(working: &mut [u32; 5], w: &[u32], k: u32, f: impl Fn(u32, u32, u32) -> u32) {
    let [mut a, mut b, mut c, mut d, mut e] = *working;
    for word in w {
        let sum = a
            .rotate_left(5)
            .wrapping_add(f(b, c, d))
            .wrapping_add(e)
            .wrapping_add(k)
            .wrapping_add(*word);
        (e, d, c, b, a) = (d, c, b.rotate_left(30), a, sum);
    }
    *working = [a, b, c, d, e];
}

#[cfg(test)]
mod tests {
    use super::{sha1, Sha1};
    use crate::generate::rng::Rng;

    #[test]
    fn a_message_in_two_pieces() {
        let message = Rng::new(1).bytes(200);
        for length in 0..=message.len() {
            let whole = sha1(&message[..length]);
            for cut in 0..=length {
                let mut hash = Sha1::default();
                hash.update(&message[..cut]);
                hash.update(&message[cut..length]);
                assert_eq!(hash.finish(), whole, "length {length}, cut at {cut}");
            }
        }
    }

    #[test]
    fn a_message_in_equal_pieces() {
        let message = Rng::new(2).bytes(1000);
        for size in 1..=130 {
            let mut hash = Sha1::default();
            message.chunks(size).for_each(|piece| hash.update(piece));
            assert_eq!(hash.finish(), sha1(&message), "pieces of {size}");
        }
    }
}
