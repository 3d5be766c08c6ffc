//! The answers of document 01, "What a call gets and gives", with the sense of
//! each reason, and their two forms: a line of text and a number of 64 bits.

use crate::engine::hex;

/// A reason's number; 1b is written 1Bh, which no other reason has.
pub type Reason = u8;

/// Reason 1b: the unit's record is unsound.
pub const UNSOUND: Reason = 0x1b;

/// All reasons in the order of judgement. There is no reason 5.
pub const REASONS: [Reason; 19] = [
    1, UNSOUND, 2, 3, 4, 6, 7, 8, 9, 10, 11, 12, 13, 14, 15, 16, 17, 18, 19,
];

#[derive(Clone, Copy, Debug, PartialEq, Eq)]
pub enum Answer {
    /// GOOD, handled here; so many bytes of the reply were written.
    A0 {
        count: usize,
    },
    /// Parked in this slot.
    A1 {
        slot: usize,
    },
    /// GOOD, to be run by the medium or the crypto block.
    A2,
    /// CHECK CONDITION for this reason.
    A3(Reason),
    /// TASK SET FULL.
    A4,
    H1,
    H2,
    H3,
    H4,
    H5,
}

/// GOOD with nothing replied.
pub const DONE: Answer = Answer::A0 { count: 0 };

/// The sense key and additional code that "Order of judgement" gives a reason;
/// the qualifier is 00h.
fn sense(reason: Reason) -> (u8, u8) {
    match reason {
        1 => (5, 0x25),
        UNSOUND => (4, 0x44),
        2 => (5, 0x20),
        3 | 4 | 6..=15 | 17 => (5, 0x24),
        16 | 18 => (5, 0x1a),
        19 => (5, 0x26),
        other => panic!("no reason {other}"),
    }
}

impl Answer {
    /// The answer's two characters.
    pub fn name(&self) -> String {
        format!("{self:?}")[..2].to_string()
    }

    /// The answer as a line; for A0, with the bytes it wrote to the reply.
    pub fn text(&self, reply: &[u8]) -> String {
        let name = self.name();
        match self {
            Answer::A0 { count } => format!(
                "{name} 00 {count} {}",
                hex::field(reply.get(..*count).unwrap_or(reply))
            ),
            Answer::A1 { slot } => format!("{name} {slot}"),
            Answer::A2 => format!("{name} 00"),
            Answer::A3(reason) => {
                let (key, code) = sense(*reason);
                format!("{name} 02 {key:X}/{code:02X}/00 {}", reason_text(*reason))
            }
            Answer::A4 => format!("{name} 28"),
            _ => name,
        }
    }

    /// The answer in 64 bits: from the lowest byte on the answer, status, sense
    /// key, additional code, qualifier and reason, then count or slot. What an
    /// answer does not have is zero.
    pub fn packed(&self) -> u64 {
        match self {
            Answer::A0 { count } => (*count as u64) << 48,
            Answer::A1 { slot } => 0x01 | (*slot as u64) << 48,
            Answer::A2 => 0x02,
            Answer::A3(reason) => {
                let (key, code) = sense(*reason);
                u64::from_le_bytes([0x03, 0x02, key, code, 0x00, *reason, 0, 0])
            }
            Answer::A4 => 0x2804,
            Answer::H1 => 0x11,
            Answer::H2 => 0x12,
            Answer::H3 => 0x13,
            Answer::H4 => 0x14,
            Answer::H5 => 0x15,
        }
    }

    /// The answer of this number, if it is one's.
    pub fn unpacked(number: u64) -> Option<Answer> {
        let (count, slot) = ((number >> 48) as usize, (number >> 48) as usize);
        let carrying = [Answer::A0 { count }, Answer::A1 { slot }];
        let plain = [Answer::A2, Answer::A4];
        let errors = [Answer::H1, Answer::H2, Answer::H3, Answer::H4, Answer::H5];
        let refusals = REASONS.map(Answer::A3);
        let all = carrying.into_iter().chain(plain).chain(errors);
        all.chain(refusals).find(|answer| answer.packed() == number)
    }
}

/// A reason as a listing writes it: in decimal, or `1b`.
pub fn reason_text(reason: Reason) -> String {
    match reason {
        UNSOUND => "1b".to_string(),
        number => number.to_string(),
    }
}

/// A reason in words, as a listing that explains has them.
pub fn reason_words(reason: Reason) -> &'static str {
    match reason {
        1 => "the unit is above 7, or its record sound and unused",
        UNSOUND => {
            "the unit's record is unsound: damaged; or it shares keys, and its keeper's record \
             is unsound, unused or itself a sharer's"
        }
        2 => "the command is empty or its code unknown",
        3 => "its length is neither the CDB's nor 78 bytes more",
        4 => {
            "A2h, B5h: protocol byte 1 not 07h, page in bytes 2-3 unlisted, or bit 7 of byte 4 set"
        }
        6 => "no capability, and the unit is CAPKEY or the command wants a master key",
        7 => "capability: format not 1h",
        8 => "capability: method not CAPKEY where CAPKEY rules, else above 1",
        9 => "capability: algorithm not 1, where CAPKEY rules",
        10 => "capability: expiration not zero and below the clock",
        11 => "capability: a needed permission bit of byte 32 is missing",
        12 => "capability: policy tag not zero and not the unit's",
        13 => "capability: type not 1h, length not 16, or identifier not the unit's",
        14 => {
            "no such key: the version has no valid key, a master command names another version \
             than 0, or Change comes with no seed exchange pending"
        }
        15 => "the integrity check value differs",
        16 => "B5h: bytes 6-9 are not the page's total",
        17 => "IN page 0012h with no seed exchange pending in the unit's key set",
        18 => "B5h: the data are not as long as bytes 6-9 say",
        19 => "B5h: page code, page length, a field or a named zero of the data is wrong",
        other => panic!("no reason {other}"),
    }
}

#[cfg(test)]
mod tests {
    use super::*;

    /// Each answer's text and number. The third column of reasons is that of
    /// the table's codes.
    #[test]
    fn texts_and_numbers() {
        for (answer, text, number) in [
            (DONE, "A0 00 0 -", 0x00),
            (
                Answer::A0 { count: 3 },
                "A0 00 3 000cab",
                0x0003_0000_0000_0000,
            ),
            (Answer::A1 { slot: 15 }, "A1 15", 0x000f_0000_0000_0001),
            (Answer::A2, "A2 00", 0x02),
            (Answer::A3(1), "A3 02 5/25/00 1", 0x0100_2505_0203),
            (Answer::A3(UNSOUND), "A3 02 4/44/00 1b", 0x1b00_4404_0203),
            (Answer::A3(2), "A3 02 5/20/00 2", 0x0200_2005_0203),
            (Answer::A3(12), "A3 02 5/24/00 12", 0x0c00_2405_0203),
            (Answer::A3(16), "A3 02 5/1A/00 16", 0x1000_1a05_0203),
            (Answer::A3(18), "A3 02 5/1A/00 18", 0x1200_1a05_0203),
            (Answer::A3(19), "A3 02 5/26/00 19", 0x1300_2605_0203),
            (Answer::A4, "A4 28", 0x2804),
            (Answer::H1, "H1", 0x11),
            (Answer::H5, "H5", 0x15),
        ] {
            assert_eq!(answer.text(&[0x00, 0x0c, 0xab]), text);
            assert_eq!(answer.packed(), number, "{text}");
            assert_eq!(Answer::unpacked(number), Some(answer));
        }
        assert_eq!(Answer::A0 { count: 190 }.packed(), 0x00be_0000_0000_0000);
        for reason in [3, 4, 6, 7, 8, 9, 10, 11, 12, 13, 14, 15, 17] {
            assert_eq!(sense(reason), (5, 0x24));
        }
        for number in [0x05, 0x0203, 0x0102, 0x0001_0000_0000_0002, 1 << 47] {
            assert_eq!(Answer::unpacked(number), None, "{number:x}");
        }
    }
}
