//! Times the engine of the proved code, by its C calls, against this crate's
//! over its own hashes and over OpenSSL's, and against the time of the SHA-1
//! blocks alone; prints a table in Markdown, the library's size and the stack
//! that its calls take. bench.sh builds and runs it.

use second::bench::desk::{self, blocks, Row};
use second::bench::stack;
use second::bench::timing::{best_times, cell, time};
use second::compare::lines::Line;
use second::compare::{engines, proved};
use second::engine::answer::Answer;
use second::engine::hashes::{Hashes, Own};
use second::engine::openssl::OpenSsl;
use second::engine::sha1::Digest;
use second::engine::tables::Tables;
use second::engine::Engine;
use second::generate::rng::Rng;
use std::hint::black_box;
use std::{env, process};

extern "C" {
    fn nn_sha1(m: *const u8, n: usize, out: *mut u8);
}

const SEED: u64 = 1805;
/// Calls whose stack is measured.
const MEASURED: usize = 20_000;
/// The message whose hashing tells the time of a block.
const HASHED: usize = 65_536;

type Call = Box<dyn Fn(&mut Tables, &Line) -> Option<u64>>;
type Implementation = (&'static str, Call);

fn main() {
    let implementations = implementations();
    let rows = desk::rows(SEED);
    let checked = rows.iter().map(|row| check(row, &implementations));
    let checked: Result<Vec<_>, _> = checked.collect();
    let mut tables = checked.unwrap_or_else(|message| {
        eprintln!("engine_bench: {message}");
        process::exit(1);
    });
    // The time of a block is taken between those of the rows, as one more.
    let message = Rng::new(SEED).bytes(HASHED);
    let times = best_times(rows.len() + 1, implementations.len(), |row, column| {
        let Some(timed) = rows.get(row) else {
            return time(|| hash(black_box(&message)));
        };
        let (call, tables) = (&implementations[column].1, &mut tables[row][column]);
        time(|| {
            for line in &timed.calls {
                black_box(call(tables, black_box(line)));
            }
        })
    });
    let hashed = times[rows.len()].iter().copied();
    let block = hashed.fold(f64::INFINITY, f64::min) / blocks(HASHED) as f64;
    print_table(&rows, &times, block);
    println!();
    println!("A block: {block:.1} ns.");
    let size = env::var("LIBRARY_SIZE").unwrap_or("not measured".to_string());
    println!("The library's size: {size}.");
    let deepest = stack::deepest(SEED, MEASURED).by_call.into_iter();
    let deepest: Vec<String> = deepest.map(|(name, n)| format!("nn_{name} {n}")).collect();
    println!("The most stack taken, in bytes: {}.", deepest.join(", "));
}

/// In the order of the table's columns. OpenSSL is the last, where installed.
fn implementations() -> Vec<Implementation> {
    let openssl = OpenSsl::load().map(|openssl| ("second over OpenSSL", over(openssl)));
    let all: [Implementation; 2] = [("nectarnook", Box::new(proved::run)), ("second", over(Own))];
    all.into_iter().chain(openssl).collect()
}

fn over(hashes: impl Hashes + 'static) -> Call {
    let engine = Engine::new(hashes);
    Box::new(move |tables, line| engines::over(&engine, tables, line))
}

/// Speed means nothing where answers or buffers differ, so they are compared
/// first, after every call. The timed calls must also leave what they found,
/// as they are made over and over. Gives each implementation's tables.
fn check(row: &Row, implementations: &[Implementation]) -> Result<Vec<Tables>, String> {
    let mut all = vec![Tables::default(); implementations.len()];
    make(&row.before, implementations, &mut all)?;
    let found = all[0].clone();
    let answers = make(&row.calls, implementations, &mut all)?;
    let awaited: Vec<u64> = row.answers.iter().map(Answer::packed).collect();
    if answers != awaited {
        return Err(format!("{}: not the answers awaited", row.label));
    }
    if all[0] != found {
        return Err(format!("{}: cannot be made again", row.label));
    }
    Ok(all)
}

/// Makes the calls by every implementation on tables of its own; the answers,
/// if they are the same and leave the same.
fn make(
    lines: &[Line],
    implementations: &[Implementation],
    all: &mut [Tables],
) -> Result<Vec<u64>, String> {
    let mut answers = Vec::new();
    for line in lines {
        let pairs = implementations.iter().zip(all.iter_mut());
        let given = pairs.map(|((_, call), tables)| call(tables, line));
        let given: Vec<_> = given.collect();
        for (index, (name, _)) in implementations.iter().enumerate() {
            if given[index] != given[0] || all[index] != all[0] {
                return Err(format!("{name} differs on {line}"));
            }
        }
        answers.extend(given[0]);
    }
    Ok(answers)
}

fn hash(message: &[u8]) -> Digest {
    let mut out = [0; 20];
    // SAFETY: the function reads the message and writes 20 bytes.
    unsafe { nn_sha1(message.as_ptr(), message.len(), out.as_mut_ptr()) };
    out
}

/// The floor is the time of the row's blocks alone, at the proved code's speed.
fn print_table(rows: &[Row], times: &[Vec<f64>], block: f64) {
    println!(
        "| ns | nectarnook | second | second over OpenSSL | blocks | floor \
         | nectarnook / floor | over OpenSSL / nectarnook | second / nectarnook |"
    );
    println!("|---|--:|--:|--:|--:|--:|--:|--:|--:|");
    for (row, times) in rows.iter().zip(times) {
        let floor = row.blocks as f64 * block;
        let [first, second, openssl] = [0, 1, 2].map(|column| times.get(column).copied());
        let ratio = |time: Option<f64>, to: f64| cell(time.map(|time| time / to), 2);
        let cells = [
            cell(first, 0),
            cell(second, 0),
            cell(openssl, 0),
            row.blocks.to_string(),
            cell(Some(floor), 0),
            ratio(first, floor),
            ratio(openssl, times[0]),
            ratio(second, times[0]),
        ];
        println!("| {} | {} |", row.label, cells.join(" | "));
    }
}
