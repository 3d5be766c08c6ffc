//! Holds Nectarnook's engine to this crate's on calls made from a seed:
//! `engine_fuzz CALLS SEED` makes at least so many calls, and compares answer
//! and buffers after each. A difference is told, and written as a listing.
//! fuzz.sh builds and runs it.

use second::compare::engines::{second, Run};
use second::compare::fuzz::Comparison;
use second::compare::proved;
use second::generate::World;
use std::path::Path;
use std::{env, fs, process};

/// Where the listing of a difference is written, from this crate's folder.
const FOLDER: &str = "target/fuzz";

fn main() {
    let arguments: Vec<String> = env::args().skip(1).collect();
    let numbers: Option<Vec<u64>> = arguments.iter().map(|word| word.parse().ok()).collect();
    let Some([calls, seed]) = numbers.as_deref() else {
        eprintln!("usage: engine_fuzz CALLS SEED");
        process::exit(2);
    };
    println!("seed {seed}");
    let engines: [Run; 2] = [&second, &proved::run];
    let mut world = World::new(*seed, Comparison::new(engines, *seed));
    world.run_only_examples();
    world.lettered_examples();
    world.go_on(*calls as usize);
    if let Some(found) = &world.watch.found {
        println!("difference at seed {seed}, call {}:", found.call);
        let (told, listing) = world.watch.tell(found);
        println!("{}", told.join("\n"));
        write(&listing);
        process::exit(1);
    }
    for line in world.tally.lines() {
        println!("{line}");
    }
    let misfits = world.watch.misfits;
    println!("and {misfits} with buffers of wrong lengths; no difference");
}

fn write(listing: &str) {
    let path = Path::new(FOLDER).join("difference.txt");
    let written = fs::create_dir_all(FOLDER).and_then(|()| fs::write(&path, listing));
    match written.and_then(|()| fs::canonicalize(&path)) {
        Ok(path) => println!("shortened, as a listing: {}", path.display()),
        Err(error) => println!("{}: {error}", path.display()),
    }
}
