//! The published test vectors.

use crate::engine::hashes::Hashes;
use crate::engine::hex;

/// Whether the functions give what is published, the million letters too.
pub fn hold(functions: &impl Hashes) -> bool {
    let mut hashes = hashes().into_iter().chain([million()]);
    let mut macs = macs().into_iter();
    hashes.all(|(message, digest)| hex::encode(&functions.sha1(&message)) == digest)
        && macs.all(|(key, m, digest)| hex::encode(&functions.hmac_sha1(&key, &m)) == digest)
}

/// Messages and their SHA-1 digests: the empty message and the example
/// messages that NIST publishes for FIPS 180-4.
pub fn hashes() -> Vec<(Vec<u8>, &'static str)> {
    vec![
        (b"".to_vec(), "da39a3ee5e6b4b0d3255bfef95601890afd80709"),
        (b"abc".to_vec(), "a9993e364706816aba3e25717850c26c9cd0d89d"),
        (
            b"abcdbcdecdefdefgefghfghighijhijkijkljklmklmnlmnomnopnopq".to_vec(),
            "84983e441c3bd26ebaae4aa1f95129e5e54670f1",
        ),
    ]
}

/// One million times the letter a, and its digest. Too long for the listings.
fn million() -> (Vec<u8>, &'static str) {
    (
        vec![b'a'; 1_000_000],
        "34aa973cd4c4daa4f61eeb2bdbad27316534016f",
    )
}

/// Keys, messages and their HMAC-SHA1: the seven cases of RFC 2202, section 3.
pub fn macs() -> Vec<(Vec<u8>, Vec<u8>, &'static str)> {
    vec![
        (
            vec![0x0b; 20],
            b"Hi There".to_vec(),
            "b617318655057264e28bc0b6fb378c8ef146be00",
        ),
        (
            b"Jefe".to_vec(),
            b"what do ya want for nothing?".to_vec(),
            "effcdf6ae5eb2fa2d27416d5f184df9c259a7c79",
        ),
        (
            vec![0xaa; 20],
            vec![0xdd; 50],
            "125d7342b9ac11cd91a39af48aa17b4f63f175d3",
        ),
        (
            (0x01..=0x19).collect(),
            vec![0xcd; 50],
            "4c9007f4026250c6bc8414f9bf50c86c2d7235da",
        ),
        (
            vec![0x0c; 20],
            b"Test With Truncation".to_vec(),
            "4c1a03424b55e07fe7f27be1d58bb9324a9a5a04",
        ),
        (
            vec![0xaa; 80],
            b"Test Using Larger Than Block-Size Key - Hash Key First".to_vec(),
            "aa4ae5e15272d00e95705637ce8a3b55ed402112",
        ),
        (
            vec![0xaa; 80],
            b"Test Using Larger Than Block-Size Key and Larger Than One Block-Size Data".to_vec(),
            "e8e99d0f45237d786d6bbaa7965c7808bbff1a91",
        ),
    ]
}
