//! Records in plain lines, sound or not, and the part by which one is unsound.
//! The parts are judged one after another from a record's bytes, not by the
//! engine's reading of it.

use super::*;

/// The lines for what is to be shown.
pub fn show(tables: &Tables, shown: Shown) -> Vec<String> {
    match shown {
        Shown::Unit(place) => unit(&tables.units, place),
        Shown::Slot(place) => slot(&tables.slots, place),
        Shown::All => {
            let units = (0..UNITS).flat_map(|place| unit(&tables.units, place));
            let slots = (0..SLOTS).flat_map(|place| slot(&tables.slots, place));
            units.chain(slots).collect()
        }
    }
}

fn record(table: &[u8], place: usize) -> &[u8] {
    &table[place * RECORD..][..RECORD]
}

fn number16(record: &[u8], at: usize) -> usize {
    u16::from_be_bytes(bytes(record, at)).into()
}

fn number32(record: &[u8], at: usize) -> u32 {
    u32::from_be_bytes(bytes(record, at))
}

fn is_zero(bytes: &[u8]) -> bool {
    bytes.iter().all(|byte| *byte == 0)
}

fn check_is_right(record: &[u8]) -> bool {
    sha1(&record[..BODY]) == record[BODY..]
}

/// An unused unit or a free slot.
fn is_empty(record: &[u8]) -> bool {
    check_is_right(record) && is_zero(&record[..BODY])
}

fn working_key(record: &[u8], version: usize) -> &[u8] {
    &record[112 + 20 * version..][..20]
}

/// Versions in ascending order, or `none`.
fn versions(fits: impl Fn(usize) -> bool) -> String {
    let fitting = (0..16).filter(|version| fits(*version));
    let all: Vec<String> = fitting.map(|version| version.to_string()).collect();
    match all.len() {
        0 => "none".to_string(),
        _ => all.join(" "),
    }
}

/// The first line and, unless the record is empty, its fields. The two words are
/// those for an empty and for a sound record.
fn told(
    name: String,
    record: &[u8],
    words: [&str; 2],
    part: Option<String>,
    fields: Vec<(&str, String)>,
) -> Vec<String> {
    if is_empty(record) {
        return vec![format!("{name}: {}", words[0])];
    }
    let standing = part.map_or(words[1].to_string(), |part| format!("unsound: {part}"));
    let fields = fields.into_iter();
    let fields = fields.map(|(name, value)| format!("  {name}: {value}"));
    [format!("{name}: {standing}")]
        .into_iter()
        .chain(fields)
        .collect()
}

fn unit(units: &[u8], place: usize) -> Vec<String> {
    let (name, record) = (format!("unit {place}"), record(units, place));
    let (part, fields) = (unit_part(units, place), unit_fields(record));
    told(name, record, ["unused", "used"], part, fields)
}

/// The lines of the named fields up to the unnamed bytes; those of the working
/// keys are one.
fn unit_fields(record: &[u8]) -> Vec<(&'static str, String)> {
    let (mask, field) = (number16(record, 6), number16(record, KEEPER));
    let named = UNIT.iter().take_while(|(at, _)| *at <= KEEPER);
    let value = |at: usize| match at {
        4 if number16(record, 4) == 0 => "NOSEC".to_string(),
        4 if number16(record, 4) == 1 => "CAPKEY".to_string(),
        0..6 => number16(record, at).to_string(),
        6 => versions(|version| mask >> version & 1 == 1),
        8 | 12 => number32(record, at).to_string(),
        16 => hex::encode(&record[16..32]),
        112 => versions(|version| !is_zero(working_key(record, version))),
        KEEPER if field == 0 => "its own".to_string(),
        KEEPER if field <= UNITS => format!("unit {}", field - 1),
        KEEPER => field.to_string(),
        key if is_zero(&record[key..][..20]) => "zero".to_string(),
        _ => "not zero".to_string(),
    };
    named.map(|(at, name)| (*name, value(*at))).collect()
}

/// The first part by which a record that is not empty is unsound.
fn unit_part(units: &[u8], place: usize) -> Option<String> {
    let record = record(units, place);
    let (step, mask) = (number32(record, 12), number16(record, 6));
    let stray =
        (0..16).find(|version| mask >> version & 1 == 0 && !is_zero(working_key(record, *version)));
    let parts = [
        (!check_is_right(record), "check"),
        (number16(record, 0) != 1, "layout"),
        (number16(record, 2) != place, "place"),
        (number16(record, 4) > 1, "method"),
        (step > 1, "step"),
        (step == 0 && !is_zero(&record[72..112]), "next pair"),
        (stray.is_some(), "key"),
        (!is_zero(&record[434..BODY]), "unnamed bytes"),
        (!keeper_is_right(units, record), "keeper"),
    ];
    let (_, part) = parts.into_iter().find(|(applies, _)| *applies)?;
    Some(match (part, stray) {
        ("key", Some(version)) => format!("key {version}"),
        _ => part.to_string(),
    })
}

/// Of a sharer: its own mask, step and keys are zero, and the unit named is
/// sound, used and has keys of its own.
fn keeper_is_right(units: &[u8], record: &[u8]) -> bool {
    match number16(record, KEEPER) {
        0 => true,
        one_more @ 1..=UNITS => {
            let has_none = [6..8, 12..16, 32..432].map(|range| is_zero(&record[range]));
            let keeper = self::record(units, one_more - 1);
            let keeps = number16(keeper, KEEPER) == 0 && !is_empty(keeper);
            has_none == [true; 3] && keeps && unit_part(units, one_more - 1).is_none()
        }
        _ => false,
    }
}

fn slot(slots: &[u8], place: usize) -> Vec<String> {
    let (name, record) = (format!("slot {place}"), record(slots, place));
    let part = slot_part(record).map(str::to_string);
    let fields = vec![
        ("state", number16(record, 0).to_string()),
        ("unit", number16(record, 2).to_string()),
        ("command", command(record)),
        ("token", format!("{} bytes", number16(record, 6))),
    ];
    told(name, record, ["free", "open"], part, fields)
}

/// The command's name, its length and what form that is.
fn command(record: &[u8]) -> String {
    let (code, length) = (record[8], number16(record, 4));
    let name = match code {
        0x0a => "WRITE(6)".to_string(),
        0x15 => "MODE SELECT(6)".to_string(),
        0x2a => "WRITE(10)".to_string(),
        0x2e => "WRITE AND VERIFY(10)".to_string(),
        0x55 => "MODE SELECT(10)".to_string(),
        0x8a => "WRITE(16)".to_string(),
        0xaa => "WRITE(12)".to_string(),
        OUT => format!("SECURITY PROTOCOL OUT page {}", page(number16(record, 10))),
        other => format!("code {other:02X}h"),
    };
    let form = match cdb_length(code) {
        Some(bare) if length == bare => "bare",
        Some(bare) if length == bare + WRAPPING => "wrapped",
        _ => "of no legal length",
    };
    format!("{name}, {length} bytes, {form}")
}

fn page(code: usize) -> String {
    let name = match code {
        0x0011 => " Set Attributes",
        0x0012 => " Seed Exchange",
        0x0014 => " Set Key",
        0x0015 => " Change Master Key",
        _ => "",
    };
    format!("{code:04X}h{name}")
}

/// The first part by which a record that is not empty is unsound.
fn slot_part(record: &[u8]) -> Option<&'static str> {
    let [command, token] = [4, 6].map(|at| number16(record, at));
    let code = record[8];
    let is_legal = cdb_length(code).is_some_and(|bare| [bare, bare + WRAPPING].contains(&command));
    let past = |from: usize, end: usize| !is_zero(&record[from.min(end)..end]);
    let parts = [
        (!check_is_right(record), "check"),
        (number16(record, 0) != 1, "state"),
        (number16(record, 2) >= UNITS, "unit"),
        (!(16..=64).contains(&token), "token length"),
        (!(is_data_out(code) && is_legal), "command"),
        (past(8 + command, 108), "bytes past the command"),
        (past(108 + token, 172), "bytes past the token"),
        (past(172, BODY), "unnamed bytes"),
    ];
    let first = parts.into_iter().find(|(applies, _)| *applies);
    first.map(|(_, part)| part)
}
