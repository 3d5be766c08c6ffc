//! Two outputs of the same listing, line by line, with the calls that print
//! them.

use super::*;

/// The number of the listing's first line whose outputs differ, and what it
/// printed in each; number 0 stands for what follows the last line's.
pub fn first_differing(listing: &[u8], outputs: [&str; 2]) -> Option<(usize, [String; 2])> {
    let outputs = outputs.map(blocks);
    let printed = |from: usize, end: usize| {
        let outputs = outputs.each_ref();
        outputs.map(|all| all[from.min(all.len())..end.min(all.len())].concat())
    };
    let mut from = 0;
    for (index, text) in listing.split(|byte| *byte == b'\n').enumerate() {
        let end = from + heads(text);
        let [expected, got] = printed(from, end);
        if expected != got {
            return Some((index + 1, [expected, got]));
        }
        from = end;
    }
    let [expected, got] = printed(from, usize::MAX);
    (expected != got).then_some((0, [expected, got]))
}

/// The lines that are not a record's fields, each with the fields behind it.
fn blocks(output: &str) -> Vec<String> {
    let mut blocks: Vec<String> = Vec::new();
    for line in output.lines().map(|line| format!("{line}\n")) {
        match blocks.last_mut() {
            Some(block) if line.starts_with("  ") => *block += &line,
            _ => blocks.push(line),
        }
    }
    blocks
}

/// How many lines that are not a record's fields the line prints.
fn heads(text: &[u8]) -> usize {
    match parse(text) {
        Ok(None | Some(Line::Poke { .. } | Line::Explain(_))) => 0,
        Ok(Some(Line::Show(Shown::All))) => UNITS + SLOTS,
        Ok(Some(_)) | Err(_) => 1,
    }
}

#[cfg(test)]
mod tests {
    use super::*;
    use crate::compare::{engines::second, replay::replay};

    #[test]
    fn the_call_of_a_differing_line_is_found() {
        let (id, key) = ("11".repeat(16), "22".repeat(20));
        let build = format!("build 1 0 7 {id} {key} {key}");
        let listing =
            format!("# a unit\n{build}\npoke reply 0 ff\nshow all\nabort 0\nnonsense\r\nreset");
        let right = replay(&second, listing.as_bytes());
        let differing = |got: &str| first_differing(listing.as_bytes(), [&right, got]);
        assert_eq!(differing(&right), None);
        for (old, new, number) in [
            ("A0 00 0 -\nunit", "H5\nunit", 2),
            ("method: NOSEC", "method: 0", 4),
            ("slot 15: free", "slot 15: open", 4),
            ("H3", "H4", 5),
            ("unknown", "surplus", 6),
            ("word\nA0 00 0 -\n", "word\n", 7),
            ("word\nA0 00 0 -\n", "word\nA0 00 0 -\nH1\n", 0),
        ] {
            let (found, _) = differing(&right.replace(old, new)).expect(old);
            assert_eq!(found, number, "{old}");
        }
    }
}
