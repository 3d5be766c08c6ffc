//! OpenSSL's libcrypto, opened at run time, so that this program also builds
//! and runs where it is not installed.

use super::hashes::Hashes;
use super::sha1::Digest;
use std::ffi::{c_char, c_int, c_uint, c_void, CStr};
use std::{mem, ptr};

extern "C" {
    fn dlopen(name: *const c_char, flags: c_int) -> *mut c_void;
    fn dlsym(library: *mut c_void, name: *const c_char) -> *mut c_void;
}

const RTLD_NOW: c_int = 2;

const NAMES: [&CStr; 3] = [c"libcrypto.so.3", c"libcrypto.so.1.1", c"libcrypto.so"];

// The functions as openssl/sha.h, evp.h, hmac.h and crypto.h declare them.
type Sha1Fn = unsafe extern "C" fn(*const u8, usize, *mut u8) -> *mut u8;
type EvpSha1Fn = unsafe extern "C" fn() -> *const c_void;
type HmacFn = unsafe extern "C" fn(
    *const c_void,
    *const c_void,
    c_int,
    *const u8,
    usize,
    *mut u8,
    *mut c_uint,
) -> *mut u8;
type VersionFn = unsafe extern "C" fn(c_int) -> *const c_char;

#[derive(Clone, Copy)]
pub struct OpenSsl {
    sha1: Sha1Fn,
    evp_sha1: EvpSha1Fn,
    hmac: HmacFn,
    version: VersionFn,
}

impl OpenSsl {
    /// The first libcrypto found, or nothing where none is installed.
    pub fn load() -> Option<OpenSsl> {
        NAMES.iter().find_map(|name| {
            // SAFETY: the name is a C string; a library stays open for good.
            let library = unsafe { dlopen(name.as_ptr(), RTLD_NOW) };
            if library.is_null() {
                return None;
            }
            // SAFETY: the library is open, and each field has the type that
            // OpenSSL's headers give the function of that name.
            unsafe {
                Some(OpenSsl {
                    sha1: symbol(library, c"SHA1")?,
                    evp_sha1: symbol(library, c"EVP_sha1")?,
                    hmac: symbol(library, c"HMAC")?,
                    version: symbol(library, c"OpenSSL_version")?,
                })
            }
        })
    }

    /// The library's name, version and date.
    pub fn version(&self) -> String {
        // SAFETY: OpenSSL_version(0) gives a C string that is never freed.
        let text = unsafe { CStr::from_ptr((self.version)(0)) };
        text.to_string_lossy().into_owned()
    }
}

impl Hashes for OpenSsl {
    fn sha1(&self, message: &[u8]) -> Digest {
        let mut digest = [0; 20];
        // SAFETY: SHA1 reads the message and writes 20 bytes.
        let written = unsafe { (self.sha1)(message.as_ptr(), message.len(), digest.as_mut_ptr()) };
        assert!(!written.is_null(), "libcrypto refuses SHA1");
        digest
    }

    fn hmac_sha1(&self, key: &[u8], message: &[u8]) -> Digest {
        let key_length = c_int::try_from(key.len()).expect("a key that long is not used here");
        let mut digest = [0; 20];
        // SAFETY: HMAC reads the key and the message and writes as many bytes
        // as the hash function gives: 20. It need not tell their number.
        let written = unsafe {
            (self.hmac)(
                (self.evp_sha1)(),
                key.as_ptr().cast(),
                key_length,
                message.as_ptr(),
                message.len(),
                digest.as_mut_ptr(),
                ptr::null_mut(),
            )
        };
        assert!(!written.is_null(), "libcrypto refuses HMAC");
        digest
    }
}

/// The function `name` of an open library.
///
/// # Safety
/// `F` must be the function pointer type of the function's C declaration.
unsafe fn symbol<F: Copy>(library: *mut c_void, name: &CStr) -> Option<F> {
    let address = dlsym(library, name.as_ptr());
    if address.is_null() {
        None
    } else {
        Some(mem::transmute_copy(&address))
    }
}
