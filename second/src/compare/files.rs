//! A listing's two files, stdin and stdout: writes them, or compares them with
//! what they should hold.

use std::path::Path;
use std::{env, fs, process};

/// A program that writes the two files, stdin and stdout, that it makes to DIR,
/// or with `--check DIR` compares those that are there; it prints a summary.
pub fn program(name: &str, make: impl Fn() -> Result<[String; 3], String>) {
    let arguments: Vec<String> = env::args().skip(1).collect();
    let arguments: Vec<&str> = arguments.iter().map(String::as_str).collect();
    let (files, directory): (fn(&Path, &str, &str) -> _, _) = match arguments[..] {
        ["--check", directory] => (check, directory),
        [directory] if !directory.starts_with('-') => (write, directory),
        _ => {
            eprintln!("usage: {name} [--check] DIR");
            process::exit(2);
        }
    };
    let result = make().and_then(|[stdin, stdout, summary]| {
        files(Path::new(directory), &stdin, &stdout)?;
        Ok(summary)
    });
    match result {
        Ok(summary) => println!("{summary}"),
        Err(message) => {
            eprintln!("{name}: {message}");
            process::exit(1);
        }
    }
}

/// Writes both files, and their directory if there is none.
fn write(directory: &Path, stdin: &str, stdout: &str) -> Result<(), String> {
    fs::create_dir_all(directory).map_err(|error| format!("{}: {error}", directory.display()))?;
    for (name, text) in [("stdin", stdin), ("stdout", stdout)] {
        let path = directory.join(name);
        fs::write(&path, text).map_err(|error| format!("{}: {error}", path.display()))?;
    }
    Ok(())
}

/// Tells where a file differs, if one does.
fn check(directory: &Path, stdin: &str, stdout: &str) -> Result<(), String> {
    for (name, text) in [("stdin", stdin), ("stdout", stdout)] {
        let path = directory.join(name);
        let found = fs::read(&path).map_err(|error| format!("{}: {error}", path.display()))?;
        if let Some(line) = differing_line(&found, text.as_bytes()) {
            return Err(format!("{} differs first at line {line}", path.display()));
        }
    }
    Ok(())
}

/// The number, from 1, of the first line that is not the same in both.
pub fn differing_line(found: &[u8], expected: &[u8]) -> Option<usize> {
    if found == expected {
        return None;
    }
    let pairs = found.iter().zip(expected);
    let same = pairs.take_while(|(a, b)| a == b).count();
    let ends = found[..same].iter().filter(|byte| **byte == b'\n').count();
    Some(ends + 1)
}

#[cfg(test)]
mod tests {
    use super::differing_line;

    #[test]
    fn first_differing_line() {
        assert_eq!(differing_line(b"a\nb\n", b"a\nb\n"), None);
        assert_eq!(differing_line(b"x\nb\n", b"a\nb\n"), Some(1));
        assert_eq!(differing_line(b"a\nb", b"a\nb\n"), Some(2));
        assert_eq!(differing_line(b"a\nb\n", b"a\n"), Some(2));
        assert_eq!(differing_line(b"", b"a\n"), Some(1));
    }
}
