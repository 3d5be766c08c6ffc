//! Writes the listing of calls that Nectarnook's engine is compared with:
//! `engine_listings DIR` writes DIR/stdin, a call a line, and DIR/stdout, the
//! answers; `engine_listings --check DIR` compares those files with what it
//! would write.

use second::compare::engines::over;
use second::compare::files;
use second::compare::lines::Line;
use second::compare::replay::replay;
use second::engine::openssl::OpenSsl;
use second::engine::tables::Tables;
use second::engine::Engine;
use second::generate::stored::{make, Listing};

fn main() {
    files::program("engine_listings", || {
        let made = make();
        let compared = compared(&made)?;
        let (calls, size) = (made.tally.calls(), made.stdin.len());
        let summary = format!("{calls} calls in {size} bytes; {compared}");
        Ok([made.stdin, made.stdout, summary])
    });
}

/// The same engine over libcrypto's functions must give the same answers.
fn compared(made: &Listing) -> Result<String, String> {
    let Some(openssl) = OpenSsl::load() else {
        return Ok("libcrypto not installed, not compared".to_string());
    };
    let engine = Engine::new(openssl);
    let run = |tables: &mut Tables, line: &Line| over(&engine, tables, line);
    let theirs = replay(&run, made.stdin.as_bytes());
    match files::differing_line(theirs.as_bytes(), made.stdout.as_bytes()) {
        None => Ok("libcrypto agrees on all".to_string()),
        Some(line) => Err(format!("libcrypto differs on answer {line}")),
    }
}
