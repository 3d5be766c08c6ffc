//! The three buffers that the calls are lent.

use super::hashes::Own;
use super::records::{self, SLOTS, SLOT_TABLE, UNITS, UNIT_TABLE};

/// Bytes of the reply.
pub const REPLY: usize = 512;

#[derive(Clone, Debug, PartialEq, Eq)]
pub struct Tables {
    pub units: Vec<u8>,
    pub slots: Vec<u8>,
    pub reply: Vec<u8>,
}

/// Eight unused units, sixteen free slots and a reply of zeros.
impl Default for Tables {
    fn default() -> Self {
        Tables {
            units: records::empty_table(&Own, UNITS),
            slots: records::empty_table(&Own, SLOTS),
            reply: vec![0; REPLY],
        }
    }
}

impl Tables {
    pub fn has_right_lengths(&self) -> bool {
        let lengths = [&self.units, &self.slots, &self.reply].map(Vec::len);
        lengths == [UNIT_TABLE, SLOT_TABLE, REPLY]
    }
}
