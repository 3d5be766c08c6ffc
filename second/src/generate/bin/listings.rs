//! Writes the listings that Nectarnook's proved code is compared with:
//! `listings DIR` writes DIR/stdin, a request a line, and DIR/stdout, an answer
//! a line; `listings --check DIR` compares those files with what it would write.

use second::compare::files;
use second::engine::hashes::Own;
use second::engine::{hex, openssl::OpenSsl};
use second::generate::digest_requests::{answer, odd_lines, requests, Request};

fn main() {
    files::program("listings", listing);
}

/// Answers every request, and compares each answer with libcrypto's; then the
/// lines of other forms.
fn listing() -> Result<[String; 3], String> {
    let openssl = OpenSsl::load();
    let (mut stdin, mut stdout) = (String::new(), String::new());
    let (mut hashes, mut macs) = (0, 0);
    for (index, request) in requests().iter().enumerate() {
        let answer = request.answer(&Own);
        let theirs = openssl.map(|openssl| request.answer(&openssl));
        if theirs.is_some_and(|theirs| theirs != answer) {
            return Err(format!("libcrypto differs on request {}", index + 1));
        }
        match request {
            Request::Hash(_) => hashes += 1,
            Request::Mac { .. } => macs += 1,
        }
        stdin += &(request.line() + "\n");
        stdout += &(hex::encode(&answer) + "\n");
    }
    let odd = odd_lines();
    for line in &odd {
        stdout += &(answer(line.as_bytes()) + "\n");
    }
    // The last line has no newline.
    stdin += &odd.join("\n");
    let compared = match openssl {
        Some(_) => "libcrypto agrees on all",
        None => "libcrypto not installed, not compared",
    };
    let odd = odd.len();
    let summary = format!("{hashes} hashes, {macs} macs, {odd} lines of other forms; {compared}");
    Ok([stdin, stdout, summary])
}
