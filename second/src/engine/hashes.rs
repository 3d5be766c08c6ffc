//! The two functions that the engine is built over, SHA-1 and HMAC-SHA1. They
//! are a parameter, so that a bench can run the same engine over OpenSSL's.

use crate::engine::hmac;
use crate::engine::sha1::{self, Digest};

pub trait Hashes {
    fn sha1(&self, message: &[u8]) -> Digest;
    fn hmac_sha1(&self, key: &[u8], message: &[u8]) -> Digest;
}

/// This crate's own functions.
#[derive(Clone, Copy, Debug, Default)]
pub struct Own;

impl Hashes for Own {
    fn sha1(&self, message: &[u8]) -> Digest {
        sha1::sha1(message)
    }

    fn hmac_sha1(&self, key: &[u8], message: &[u8]) -> Digest {
        hmac::hmac_sha1(key, message)
    }
}

#[cfg(test)]
mod tests {
    use super::Own;
    use crate::engine::openssl::OpenSsl;
    use crate::generate::published;

    #[test]
    fn published_vectors() {
        assert!(published::hold(&Own));
        assert!(OpenSsl::load().is_none_or(|openssl| published::hold(&openssl)));
    }
}
