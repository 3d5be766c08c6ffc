//! Tells where two outputs of a listing of calls differ first: `differences
//! STDIN EXPECTED GOT` prints the listing's line and what it printed in each.

use second::compare::outputs::first_differing;
use std::{env, fs, process};

fn main() {
    let arguments: Vec<String> = env::args().skip(1).collect();
    let [listing, expected, got] = &arguments[..] else {
        eprintln!("usage: differences STDIN EXPECTED GOT");
        process::exit(2);
    };
    let read = |path: &String| {
        fs::read(path).unwrap_or_else(|error| {
            eprintln!("differences: {path}: {error}");
            process::exit(2);
        })
    };
    let text = |path| String::from_utf8_lossy(&read(path)).into_owned();
    let (calls, expected, got) = (text(listing), text(expected), text(got));
    let found = first_differing(&read(listing), [&expected, &got]);
    let Some((number, [expected, got])) = found else {
        println!("no difference");
        return;
    };
    match calls.split('\n').nth(number.wrapping_sub(1)) {
        Some(call) => println!("line {number}: {call}"),
        None => println!("behind the last line"),
    }
    print!("expected:\n{expected}got:\n{got}");
    process::exit(1);
}
