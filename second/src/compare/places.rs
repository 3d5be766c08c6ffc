//! The fields of records by name and place: document 01, "Records of 512
//! bytes", and document 02, K4.

use super::*;

/// Where each field of a unit's record begins; 20 bytes are a working key.
pub const UNIT: [(usize, &str); 15] = [
    (0, "layout"),
    (2, "unit number"),
    (4, "method"),
    (6, "valid versions"),
    (8, "policy access tag"),
    (12, "step"),
    (16, "identifier"),
    (32, "authentication master key"),
    (52, "generation master key"),
    (72, "next authentication master key"),
    (92, "next generation master key"),
    (112, "working keys that are not zero"),
    (432, "keys"),
    (434, "unnamed bytes"),
    (492, "check"),
];

const SLOT: [(usize, &str); 8] = [
    (0, "state"),
    (2, "unit"),
    (4, "command length"),
    (6, "token length"),
    (8, "command"),
    (108, "token"),
    (172, "unnamed bytes"),
    (492, "check"),
];

/// What lies at this byte of a buffer.
pub fn name(buffer: Buffer, at: usize) -> String {
    let (record, byte) = (at / RECORD, at % RECORD);
    let (kind, fields) = match buffer {
        Buffer::Units => ("unit", &UNIT[..]),
        Buffer::Slots => ("slot", &SLOT[..]),
        Buffer::Reply => return format!("byte {at} of the reply"),
    };
    let field = fields.iter().rfind(|(from, _)| *from <= byte);
    let (from, name) = field.expect("a field begins at byte 0");
    match (buffer, from) {
        (Buffer::Units, 112) => format!("unit {record}, working key {}", (byte - from) / 20),
        _ => format!("{kind} {record}, {name}"),
    }
}

#[cfg(test)]
mod tests {
    use super::*;

    #[test]
    fn names() {
        for (buffer, at, expected) in [
            (Buffer::Units, 0, "unit 0, layout"),
            (Buffer::Units, 512 + 7, "unit 1, valid versions"),
            (Buffer::Units, 7 * 512 + 131, "unit 7, working key 0"),
            (Buffer::Units, 431, "unit 0, working key 15"),
            (Buffer::Units, 511, "unit 0, check"),
            (Buffer::Slots, 3 * 512 + 107, "slot 3, command"),
            (Buffer::Slots, 172, "slot 0, unnamed bytes"),
            (Buffer::Reply, 10, "byte 10 of the reply"),
        ] {
            assert_eq!(name(buffer, at), expected);
        }
    }
}
