//! HMAC as RFC 2104 defines it, with SHA-1 for the hash function H.

use crate::engine::sha1::{sha1, Digest, Sha1, BLOCK};

/// H(K xor opad, H(K xor ipad, message)): RFC 2104, section 2.
pub fn hmac_sha1(key: &[u8], message: &[u8]) -> Digest {
    let key = block_key(key);
    let inner = sha1_of_two(&key.map(|byte| byte ^ 0x36), message);
    sha1_of_two(&key.map(|byte| byte ^ 0x5c), &inner)
}

/// The key at block length: one longer than a block is hashed first, and what
/// is shorter is followed by zeros.
fn block_key(key: &[u8]) -> [u8; BLOCK] {
    let mut block = [0; BLOCK];
    if key.len() > BLOCK {
        let digest = sha1(key);
        block[..digest.len()].copy_from_slice(&digest);
    } else {
        block[..key.len()].copy_from_slice(key);
    }
    block
}

fn sha1_of_two(first: &[u8], second: &[u8]) -> Digest {
    let mut hash = Sha1::default();
    hash.update(first);
    hash.update(second);
    hash.finish()
}

#[cfg(test)]
mod tests {
    use super::hmac_sha1;
    use crate::engine::sha1::sha1;

    #[test]
    fn only_a_key_over_a_block_is_hashed() {
        let key = [0x0b; 65];
        assert_eq!(hmac_sha1(&key, b"m"), hmac_sha1(&sha1(&key), b"m"));
        assert_ne!(
            hmac_sha1(&key[1..], b"m"),
            hmac_sha1(&sha1(&key[1..]), b"m")
        );
    }
}
