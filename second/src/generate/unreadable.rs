//! Lines as text, in every form that a reader of listings is to judge: those
//! that can't be read, and beside them some that can.

use crate::compare::lines::LONGEST;
use crate::engine::hex;

/// What the listing ends with: a call, a carriage return and no newline.
pub const LAST: &str = "reset\r";

/// Lines that print `line`, the number and what is wrong, and between them
/// some that are right.
pub fn first() -> Vec<String> {
    let (id, key) = ("0f".repeat(16), "F0".repeat(20));
    let mut lines = parted(&UNREADABLE.replace("KEY", &key).replace("ID", &id));
    lines.extend(long(""));
    lines.push("state".to_string());
    lines
}

const UNREADABLE: &str =
    "state|nonsense|openn 0 0 - -|poke table 0 00|build|build 0 0|open|open 0|\
    open 0 0 000000000000|close 0|close 0 0|close 0 0 # 00|abort|poke|poke reply|poke reply 0|\
    reset 0|state -|abort 0 0|close 0 0 - -|abort x|abort -1|abort -|open 1x|open 0 0x10 - -|\
    abort 4294967296|close 0 18446744073709551616 -|poke reply 4294967296 -|open 0 0 abc -|\
    close 0 0 0g|poke reply 0 xx|poke units 4096 00|poke slots 8191 0000|poke reply 512 00|\
    poke reply 4294967295 00|poke reply 512 -|build 0 0 0 ID00 KEY KEY|build 0 0 0 ID ID KEY|\
    build 0 0 0 ID KEY -|build 0 0 0 ID KEY KEY 0|build 0 0 4294967296 ID KEY KEY|\
    build 7 1 4294967295 ID  KEY KEY   # all right|build 6 0 7 ID KEY KEY keeper|\
    build 6 0 7 ID KEY KEY keeper # 7|build 6 0 7 ID KEY KEY keeper x|\
    build 6 0 7 ID KEY KEY keeper -1|build 6 0 7 ID KEY KEY keeper 7 7|\
    build 6 0 7 ID KEY KEY keepers 7|build 6 0 7 ID KEY KEY Keeper 7|\
    build 6 0 7 ID KEY KEY keeper 4294967295|build 6 0 7 ID KEY KEY keeper 4294967296|\
    build 6 0 7 ID KEY KEY keeper 4294967294|build 6 0 7 ID KEY KEY keeper  007 # all right|\
    build 6 0 7 ID KEY KEY keeper 6|\
    abort 999999999999999999999999999999999999999999999999999999999999";

/// A row to each thing that a reader is to make of lines: it passes over them,
/// reads them or tells of a word. ID and KEY stand for bytes of their length.
const SEPARATORS: &str = "\
blank|| |\t| \t \t|    |\t# reset|#\treset|#|  # reset|#reset
read|\treset|reset\t| \treset\t |abort\t99|abort \t 99|\tabort\t\t99\t#\tslot|abort\t99#|abort 99\t
read|state\t|poke\treply\t510 \tff00|close\t99\t0\t-|close  99 \t 0   -\t\t|open\t9\t0\t-\t-
read|show\tunit\t5|show  slot \t 3|explain\toff|build\t5\t1 7\tID KEY\tKEY
read|\tbuild 4 0\t7 ID\t\tKEY KEY \tkeeper\t5\t
word 1: unknown word|reset\"|reset$|reset!|\u{1f}reset|reset\u{8}|reset\u{b}|abort\u{c}99|ab ort 99
word 1: unknown word|a\tbort 99|\u{e9}|open\u{a0}0|Reset|rest|0|open!|\"|$
word 2: not a number|abort \u{a0}99|abort \u{663}
word 3: surplus word|show\tall\t1
word 2: surplus word|reset\treset
word 2: missing word|abort\t
word 5: missing word|open\t9\t0\t\t-";

const RETURNS: &str = "\
blank|\r| \r|\t\r| \t\r|#\r|# two\r\r|# a\rremark
read|reset\r|reset \r|reset\t\r|reset # now\r|abort 99\r|close 99 0 -\r|open 9 0 - -\r|state\r
read|show slot 15\r|explain off\r|poke reply 0 0d\r|build 5 1 7 ID KEY KEY\r
read|build 4 1 7 ID KEY KEY keeper 5\r
word 1: unknown word|nonsense\r|\r\r|reset\r\r|reset\r |reset\r\t|reset\r#|reset\r# x|\rreset|\r reset
word 1: unknown word|re\rset|abort\r99|poke\r reply 0 -
word 2: surplus word|reset 0\r|reset \r\r|reset \r #
word 2: missing word|abort\r
word 2: not a number|abort x\r|abort 99\r\r|abort 9\r9|abort \r99|abort 1\r5
word 2: unknown word|show all\r\r|show \rall|explain o\rn
word 3: number too large|show unit 8\r
word 4: not hex|close 99 0 0g\r|close 99 0 -\r\r|open 9 0 00\r00 -
word 7: not hex|build 5 1 7 ID KEY KEY\r\r
word 9: not a number|build 4 1 7 ID KEY KEY keeper 5\r\r";

const FAULTS: &str = "\
word 2: unknown word|poke unit 0 00|poke Units x x|show table|show 0|explain On|explain 1
word 2: missing word|open|build|close|abort|poke|show|explain
word 3: missing word|open 0|poke units|show unit|show slot # 0
word 4: missing word|open 0 0|close 0 0 # 00|poke reply 0|build 0 0
word 5: missing word|open 0 0 00|build 0 0 0
word 7: missing word|build 0 0 0 ID KEY
word 9: missing word|build 0 0 0 ID KEY KEY keeper|build 0 0 0 ID KEY KEY keeper # 3
word 2: surplus word|reset 0|state -
word 3: surplus word|abort 0 0|show all 1|explain on off
word 4: surplus word|show unit 1 2
word 5: surplus word|poke reply 511 00 00|close 0 0 00 00
word 6: surplus word|open 0 0 00 00 00|open 0 0 00 00 00 00
word 8: surplus word|build 0 0 0 ID KEY KEY 3|build 0 0 0 ID KEY KEY Keeper 3
word 8: surplus word|build 0 0 0 ID KEY KEY keepers 3
word 10: surplus word|build 0 0 0 ID KEY KEY keeper 3 3|build 0 0 0 ID KEY KEY keeper 3 keeper 3
word 2: not a number|abort -1|abort +1|abort 0x1|abort 1a|abort a|abort 1.0|abort -
word 2: not a number|abort 99999999999999999999999x|open x
word 9: not a number|build 0 0 0 ID KEY KEY keeper -1|build 0 0 0 ID KEY KEY keeper keeper
word 2: number too large|abort 4294967296|abort 99999999999999999999999999
word 3: number too large|close 0 18446744073709551616 -|poke reply 4294967296 -|show unit 8
word 3: number too large|show slot 16|open 0 99999999999999999999999999999999999999999 - -
word 4: number too large|build 0 0 4294967296
word 9: number too large|build 0 0 0 ID KEY KEY keeper 4294967295
word 9: number too large|build 0 0 0 ID KEY KEY keeper 4294967296
word 4: not hex|close 0 0 0|close 0 0 0g|close 0 0 --|open 0 0 x
word 5: identifier of the wrong length|build 0 0 0 -|build 0 0 0 KEY
word 6: key of the wrong length|build 0 0 0 ID ID|build 0 0 0 ID -
word 7: key of the wrong length|build 0 0 0 ID KEY KEY00
word 4: past the table's end|poke units 4096 00|poke units 4097 -|poke slots 8191 0000
word 4: past the table's end|poke reply 512 00|poke reply 4294967295 00|poke reply 513 - x";

/// The text with ID and KEY spelled out.
pub fn spelled(text: &str) -> String {
    let (id, key) = ("1e".repeat(16), "e1".repeat(20));
    text.replace("KEY", &key).replace("ID", &id)
}

/// The lines of such rows.
fn forms(rows: &str) -> Vec<String> {
    let rows = spelled(rows);
    let rows = rows.split('\n');
    rows.flat_map(|row| parted(row).split_off(1)).collect()
}

/// Lines at the longest length and above it, their end counted.
fn long(end: &str) -> [String; 2] {
    let call = "abort 99 #";
    let comment = |length| "x".repeat(length - call.len() - end.len());
    [LONGEST, LONGEST + 1].map(|length| format!("{call}{}{end}", comment(length)))
}

/// The lines of such a text.
fn parted(text: &str) -> Vec<String> {
    text.split('|').map(str::to_string).collect()
}

/// More of them, with a remark to each section.
pub fn sections() -> [(&'static str, Vec<String>); 7] {
    [
        ("Words parted by tabs and spaces.", forms(SEPARATORS)),
        ("Carriage returns.", forms(RETURNS)),
        ("Lines of the longest length.", long("\r").to_vec()),
        ("Words missing, wrong or surplus.", forms(FAULTS)),
        ("Digits and the bytes beside them.", digits()),
        ("Numbers at their bounds.", bounds()),
        ("Every word of every call spoiled.", spoiled_words()),
    ]
}

/// Every byte that can be seen, but for `#`, as a digit of a hex word, high and
/// low, and of a number, last and first.
fn digits() -> Vec<String> {
    let mut lines = Vec::new();
    for byte in ('!'..='~').filter(|byte| *byte != '#') {
        lines.push(format!("close 99 0 {byte}0"));
        lines.push(format!("close 99 0 0{byte}"));
        lines.push(format!("abort 9{byte}"));
        lines.push(format!("abort {byte}9"));
    }
    for word in parted("09afAF|90faFA|-|--|-0|0-|-00|00-|0|000|00000") {
        lines.push(format!("close 99 0 {word}"));
        lines.push(format!("open 9 0 00 {word}"));
        lines.push(format!("poke reply 500 {word}"));
    }
    lines
}

/// The calls by the forms of their words: N, C, P, U and S are numbers, H is
/// bytes, I and K are an identifier and a key.
const CALLS: &str =
    "build N N N I K K|build N N N I K K keeper P|open N C H H|close N C H|abort N|\
    reset|poke reply N H|poke units N H|poke slots N H|state|show unit U|show slot S|show all|\
    explain on|explain off";

/// A word that a call can have, and others that are wrong in its place.
struct Word {
    right: String,
    wrong: Vec<String>,
    /// The largest number, where it is to be one.
    bound: Option<u128>,
}

fn word(form: &str) -> Word {
    let bound = match form {
        "N" => Some(u32::MAX.into()),
        "C" => Some(u64::MAX.into()),
        "P" => Some(u128::from(u32::MAX) - 1),
        "U" => Some(7),
        "S" => Some(15),
        _ => None,
    };
    let (right, wrong) = match (form, bound) {
        (_, Some(bound)) => (bound.min(99).to_string(), no_numbers(bound)),
        ("H", _) => ("3c".to_string(), parted(NOT_HEX)),
        ("I", _) => ("3c".repeat(16), not_so_long(16)),
        ("K", _) => ("3c".repeat(20), not_so_long(20)),
        (name, _) => {
            let wrong = [&name.to_uppercase(), &format!("{name}s"), &name[1..], "0"];
            (name.to_string(), wrong.map(str::to_string).to_vec())
        }
    };
    Word {
        right,
        wrong,
        bound,
    }
}

/// Words that are no number, or one above the bound.
fn no_numbers(bound: u128) -> Vec<String> {
    let above = [bound + 1, 10 * bound].map(|number| number.to_string());
    let long = ["9".repeat(40), "9".repeat(40) + "x"];
    let other = parted("x|-|-1|+1|1a|A|0x1|1.0|1/|1:");
    [&other[..], &above, &long].concat()
}

const NOT_HEX: &str = "0|0g|g0|--|-0|0-|000|xx|0x00";

/// Words that are no bytes, or not so many.
fn not_so_long(length: usize) -> Vec<String> {
    let lengths = [0, length - 1, length + 1, 36 - length, 2 * length];
    let others = lengths.map(|length| hex::field(&vec![0xc3; length]));
    [&parted(NOT_HEX)[..], &others].concat()
}

/// They are carried out where they are right.
fn calls() -> Vec<Vec<Word>> {
    let calls = CALLS.split('|');
    calls
        .map(|call| call.split(' ').map(word).collect())
        .collect()
}

fn right(call: &[Word]) -> Vec<&str> {
    call.iter().map(|word| &word.right[..]).collect()
}

fn bounds() -> Vec<String> {
    let mut lines = Vec::new();
    for call in calls() {
        for (index, word) in call.iter().enumerate() {
            let Some(bound) = word.bound else {
                continue;
            };
            for number in [0, bound - 1, bound, bound + 1, bound + 2, 2 * bound + 2] {
                for zeros in [0, 1, 30] {
                    let (mut words, number) = (right(&call), number.to_string());
                    let padded = "0".repeat(zeros) + &number;
                    words[index] = &padded;
                    lines.push(words.join(" "));
                }
            }
        }
    }
    for (table, end) in [("units", 4096), ("slots", 8192), ("reply", 512)] {
        for at in [end - 2, end - 1, end, end + 1] {
            for word in ["-", "5a", "5a5a", "5a5a5a", "5"] {
                lines.push(format!("poke {table} {at} {word}"));
            }
        }
    }
    lines
}

fn spoiled_words() -> Vec<String> {
    let mut lines = Vec::new();
    for call in calls() {
        let right = right(&call);
        // What follows a word that is missing or wrong is not looked at.
        for (index, word) in call.iter().enumerate() {
            lines.push(right[..index].join(" "));
            for wrong in &word.wrong {
                let mut words = right.clone();
                words[index] = wrong;
                lines.push(words.join(" "));
                lines.push(words[..=index].join(" "));
            }
            let mut words = right.clone();
            for (place, word) in call.iter().enumerate().skip(index) {
                words[place] = &word.wrong[0];
            }
            lines.push(words.join(" "));
        }
        for surplus in ["x", "0", "-", "keeper", "x y", "\t\u{e9}"] {
            lines.push(format!("{} {surplus}", right.join(" ")));
        }
    }
    lines.push("explain off".to_string());
    lines
}

#[cfg(test)]
mod tests {
    use super::*;
    use crate::compare::lines::{parse, Unreadable};

    #[test]
    fn lines_are_read_as_their_rows_say() {
        let rows = [SEPARATORS, RETURNS, FAULTS].map(spelled).join("\n");
        for row in rows.split('\n') {
            let texts = parted(row);
            for text in &texts[1..] {
                let read = match parse(text.as_bytes()) {
                    Ok(None) => "blank".to_string(),
                    Ok(Some(_)) => "read".to_string(),
                    Err(fault) => fault.to_string(),
                };
                assert_eq!(read, texts[0], "{text:?}");
            }
        }
        let [right, long] = long("\r");
        assert!(parse(right.as_bytes()).is_ok());
        assert_eq!(parse(long.as_bytes()).err(), Some(Unreadable::TooLong));
    }
}
