//! Times the proved code, this crate's, plain C, unrolled C and OpenSSL side by
//! side and prints a table in Markdown. bench.sh builds and runs it.

use second::bench::timing::{best_times, cell, time};
use second::engine::hashes::{Hashes, Own};
use second::engine::openssl::OpenSsl;
use second::engine::sha1::Digest;
use second::generate::digest_requests::Request;
use second::generate::{published, rng::Rng};
use std::hint::black_box;
use std::{env, fs, process};

// The C functions' types.
type CHash = unsafe extern "C" fn(*const u8, usize, *mut u8);
type CMac = unsafe extern "C" fn(*const u8, usize, *const u8, usize, *mut u8);

extern "C" {
    fn nn_sha1(m: *const u8, n: usize, out: *mut u8);
    fn nn_hmac_sha1(key: *const u8, k: usize, m: *const u8, n: usize, out: *mut u8);
    fn plain_sha1(m: *const u8, n: usize, out: *mut u8);
    fn plain_hmac_sha1(key: *const u8, k: usize, m: *const u8, n: usize, out: *mut u8);
    fn unrolled_sha1(m: *const u8, n: usize, out: *mut u8);
    fn unrolled_hmac_sha1(key: *const u8, k: usize, m: *const u8, n: usize, out: *mut u8);
}

const SEED: u64 = 1804;
/// Random inputs on which the implementations are compared.
const CHECKS: usize = 300;

const HASHED_LENGTHS: [usize; 4] = [64, 512, 4_096, 65_536];
const KEY_LENGTH: usize = 20;
const MAC_LENGTHS: [usize; 2] = [20, 58];

type Implementation = (&'static str, Functions);

/// Whose functions are called.
enum Functions {
    C(CHash, CMac),
    Second,
    OpenSsl(OpenSsl),
}

impl Hashes for Functions {
    fn sha1(&self, message: &[u8]) -> Digest {
        match self {
            Functions::C(hash, _) => {
                let mut out = [0; 20];
                // SAFETY: the function reads the message and writes 20 bytes.
                unsafe { hash(message.as_ptr(), message.len(), out.as_mut_ptr()) };
                out
            }
            Functions::Second => Own.sha1(message),
            Functions::OpenSsl(openssl) => openssl.sha1(message),
        }
    }

    fn hmac_sha1(&self, key: &[u8], message: &[u8]) -> Digest {
        match self {
            Functions::C(_, mac) => {
                let mut out = [0; 20];
                let ((k, k_len), (m, m_len)) = (parts(key), parts(message));
                // SAFETY: the function reads key and message and writes 20 bytes.
                unsafe { mac(k, k_len, m, m_len, out.as_mut_ptr()) };
                out
            }
            Functions::Second => Own.hmac_sha1(key, message),
            Functions::OpenSsl(openssl) => openssl.hmac_sha1(key, message),
        }
    }
}

fn parts(bytes: &[u8]) -> (*const u8, usize) {
    (bytes.as_ptr(), bytes.len())
}

fn main() {
    let openssl = OpenSsl::load();
    let implementations = implementations(openssl);
    if let Err(message) = check(&implementations) {
        eprintln!("bench: {message}");
        process::exit(1);
    }
    println!(
        "Processor: {}; C compiler: {}; OpenSSL: {}",
        processor(),
        env::var("PLAIN_CC_VERSION").unwrap_or("not named".to_string()),
        // Named, as a look-up of the algorithm at each call is part of their time.
        openssl.map_or("not installed".to_string(), |openssl| {
            openssl.version() + ", its one-shot SHA1 and HMAC"
        }),
    );
    println!();
    let requests = requests();
    let times = best_times(requests.len(), implementations.len(), |row, column| {
        let (_, hashes) = &implementations[column];
        time(|| black_box(&requests[row]).answer(hashes))
    });
    print_table(&requests, &times);
}

/// In the order of the table's columns. OpenSSL is the last, where installed.
fn implementations(openssl: Option<OpenSsl>) -> Vec<Implementation> {
    let all = [
        ("nectarnook", Functions::C(nn_sha1, nn_hmac_sha1)),
        ("second", Functions::Second),
        ("plain C", Functions::C(plain_sha1, plain_hmac_sha1)),
        (
            "unrolled C",
            Functions::C(unrolled_sha1, unrolled_hmac_sha1),
        ),
    ];
    let openssl = openssl.map(|openssl| ("OpenSSL", Functions::OpenSsl(openssl)));
    all.into_iter().chain(openssl).collect()
}

/// Speed means nothing where the answers differ, so they are compared first:
/// with the published vectors, and with each other on random inputs.
fn check(implementations: &[Implementation]) -> Result<(), String> {
    for (name, hashes) in implementations {
        if !published::hold(hashes) {
            return Err(format!("{name} differs from the published vectors"));
        }
    }
    let mut rng = Rng::new(SEED);
    for _ in 0..CHECKS {
        let (key_length, length) = (rng.length(200), rng.length(5_000));
        let (key, message) = (rng.bytes(key_length), rng.bytes(length));
        let (digest, mac) = (Own.sha1(&message), Own.hmac_sha1(&key, &message));
        for (name, hashes) in implementations {
            if hashes.sha1(&message) != digest || hashes.hmac_sha1(&key, &message) != mac {
                return Err(format!("{name} and second differ on {length} bytes"));
            }
        }
    }
    Ok(())
}

fn processor() -> String {
    let text = fs::read_to_string("/proc/cpuinfo").unwrap_or_default();
    let line = text.lines().find(|line| line.starts_with("model name"));
    let name = line.and_then(|line| line.split_once(": "));
    name.map_or("not named", |(_, name)| name).to_string()
}

/// What is timed: a row of the table each.
fn requests() -> Vec<Request> {
    let mut rng = Rng::new(SEED);
    let mut all = Vec::new();
    for length in HASHED_LENGTHS {
        all.push(Request::Hash(rng.bytes(length)));
    }
    for length in MAC_LENGTHS {
        let (key, message) = (rng.bytes(KEY_LENGTH), rng.bytes(length));
        all.push(Request::Mac { key, message });
    }
    all
}

fn print_table(requests: &[Request], times: &[Vec<f64>]) {
    println!(
        "| | nectarnook | second | plain C | unrolled C | OpenSSL \
         | against second | against plain C | against unrolled C | against OpenSSL |"
    );
    println!("|---|--:|--:|--:|--:|--:|--:|--:|--:|--:|");
    for (request, times) in requests.iter().zip(times) {
        match request {
            Request::Hash(message) => {
                let length = message.len();
                // Bytes in a nanosecond, times 1,000, are 10^6 bytes in a second.
                let speed = |time: &f64| 1e3 * length as f64 / time;
                let speeds: Vec<f64> = times.iter().map(speed).collect();
                print_row(&format!("SHA-1, {length} bytes, MB/s"), &speeds, times);
            }
            Request::Mac { message, .. } => {
                let length = message.len();
                print_row(&format!("HMAC-SHA1, {length} bytes, ns"), times, times);
            }
        }
    }
}

/// A row with the numbers to show and, from the times, how many times as fast
/// as each of the others the first implementation is.
fn print_row(label: &str, shown: &[f64], times: &[f64]) {
    let number = |column| cell(shown.get(column).copied(), 0);
    let ratio = |column| cell(times.get(column).map(|time| time / times[0]), 2);
    let cells: Vec<String> = (0..5).map(number).chain((1..5).map(ratio)).collect();
    println!("| {label} | {} |", cells.join(" | "));
}
