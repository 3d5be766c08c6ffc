//! The five calls of document 01, "What a call gets and gives", with document
//! 02's K4, over lent buffers of any lengths.

pub mod answer;
pub mod codes;
pub mod descriptor;
pub mod hashes;
pub mod hex;
pub mod hmac;
pub mod judge;
pub mod openssl;
pub mod pages_in;
pub mod pages_out;
pub mod records;
pub mod sha1;
pub mod tables;
#[cfg(test)]
mod tests;

use answer::{Answer, DONE};
use hashes::{Hashes, Own};
use judge::{Passed, Request};
use records::{Identifier, KeySet, Keys, Method, Pair, Record, Slot, Unit};
use records::{UnitRecord, SLOTS, SLOT_TABLE, UNITS, UNIT_TABLE};
use tables::Tables;

#[derive(Clone, Copy, Debug, Default)]
pub struct Engine<H = Own> {
    hashes: H,
}

/// What a build call asks for.
#[derive(Clone, Copy, Debug)]
pub struct Build {
    pub unit: u32,
    pub method: u32,
    pub tag: u32,
    pub identifier: Identifier,
    /// Ignored where another unit keeps the keys.
    pub master: Pair,
    /// What bytes 432-433 are to hold: 0 for own keys, or one more than the
    /// number of the unit that keeps them.
    pub keeper: u32,
}

impl Build {
    /// A unit with keys of its own.
    pub fn new(unit: u32, method: u32, tag: u32, identifier: Identifier, master: Pair) -> Self {
        Build {
            unit,
            method,
            tag,
            identifier,
            master,
            keeper: 0,
        }
    }

    /// The same with this value for bytes 432-433.
    pub fn with_keeper(self, keeper: u32) -> Self {
        Build { keeper, ..self }
    }
}

impl<H: Hashes> Engine<H> {
    pub fn new(hashes: H) -> Self {
        Engine { hashes }
    }

    pub fn build(&self, units: &mut [u8], asked: &Build) -> Answer {
        if units.len() != UNIT_TABLE {
            return Answer::H1;
        }
        let Some(record) = self.record_asked(units, asked) else {
            return Answer::H5;
        };
        let place = asked.unit as usize;
        records::write(&self.hashes, units, place, &record.encode(place));
        DONE
    }

    /// Nothing where unit, method or keeper is wrong (H5).
    fn record_asked(&self, units: &[u8], asked: &Build) -> Option<UnitRecord> {
        if asked.unit as usize >= UNITS {
            return None;
        }
        let unit = Unit {
            method: Method::from_number(asked.method)?,
            tag: asked.tag,
            identifier: asked.identifier,
        };
        let keys = self.keys_asked(units, asked)?;
        Some(UnitRecord { unit, keys })
    }

    /// Nothing where the keeper's number is above 7 or the unit's own, or its
    /// record not sound, used and with keys of its own.
    fn keys_asked(&self, units: &[u8], asked: &Build) -> Option<Keys> {
        let Some(keeper) = asked.keeper.checked_sub(1) else {
            return Some(Keys::Own(Box::new(KeySet::new(asked.master))));
        };
        let place = keeper as usize;
        if place >= UNITS || keeper == asked.unit {
            return None;
        }
        records::read_keeper(&self.hashes, units, place)?;
        Some(Keys::KeptBy(place))
    }

    pub fn open(&self, lent: &mut Tables, request: &Request) -> Answer {
        if !lent.has_right_lengths() {
            return Answer::H1;
        }
        if !records::is_token_length(request.token.len()) {
            return Answer::H2;
        }
        match judge::judge(&self.hashes, &lent.units, request) {
            Err(reason) => Answer::A3(reason),
            Ok(passed) if codes::is_data_out(passed.cdb[0]) => {
                self.park(&mut lent.slots, request, passed.member.place)
            }
            Ok(passed) => answer_in(&mut lent.reply, &passed),
        }
    }

    /// Takes the lowest sound free slot.
    fn park(&self, slots: &mut [u8], request: &Request, unit: usize) -> Answer {
        let free = |place: &usize| records::read_slot(&self.hashes, slots, *place) == Record::Empty;
        let Some(place) = (0..SLOTS).find(free) else {
            return Answer::A4;
        };
        let slot = Slot::new(unit as u32, &request.command, &request.token);
        records::write(&self.hashes, slots, place, &slot.encode());
        Answer::A1 { slot: place }
    }

    pub fn close(&self, lent: &mut Tables, slot: u32, data: &[u8], clock: u64) -> Answer {
        if !lent.has_right_lengths() {
            return Answer::H1;
        }
        let Some((place, held)) = self.open_slot(&lent.slots, slot) else {
            return Answer::H3;
        };
        // H4 cannot come: a slot whose command takes no data is unsound.
        let request = Request {
            unit: held.unit.into(),
            command: held.command,
            token: held.token,
            clock,
        };
        let answer = match judge::judge(&self.hashes, &lent.units, &request) {
            Err(reason) => Answer::A3(reason),
            Ok(passed) if passed.cdb[0] == codes::OUT => {
                self.finish_out(&mut lent.units, passed, data)
            }
            Ok(_) => Answer::A2,
        };
        records::write_empty(&self.hashes, &mut lent.slots, place);
        answer
    }

    /// Reasons 18 and 19, and the page's effect.
    fn finish_out(&self, units: &mut [u8], passed: Passed, data: &[u8]) -> Answer {
        if data.len() != judge::cdb_bytes(passed.cdb) as usize {
            return Answer::A3(18);
        }
        let Some(page) = pages_out::parse(judge::page_code(passed.cdb), data) else {
            return Answer::A3(19);
        };
        let (place, record) = page.carry_out(&self.hashes, passed.member);
        records::write(&self.hashes, units, place, &record.encode(place));
        DONE
    }

    pub fn abort(&self, slots: &mut [u8], slot: u32) -> Answer {
        if slots.len() != SLOT_TABLE {
            return Answer::H1;
        }
        let Some((place, _)) = self.open_slot(slots, slot) else {
            return Answer::H3;
        };
        records::write_empty(&self.hashes, slots, place);
        DONE
    }

    pub fn reset(&self, slots: &mut [u8]) -> Answer {
        if slots.len() != SLOT_TABLE {
            return Answer::H1;
        }
        (0..SLOTS).for_each(|place| records::write_empty(&self.hashes, slots, place));
        DONE
    }

    /// The slot of this number, if it is a sound open one.
    fn open_slot(&self, slots: &[u8], slot: u32) -> Option<(usize, Slot)> {
        let place = slot as usize;
        if place >= SLOTS {
            return None;
        }
        match records::read_slot(&self.hashes, slots, place) {
            Record::Used(held) => Some((place, held)),
            Record::Unsound | Record::Empty => None,
        }
    }
}

/// The answer to a command that takes no data. A page answered here is cut to
/// the allocation length.
fn answer_in(reply: &mut [u8], passed: &Passed) -> Answer {
    let cdb = passed.cdb;
    if cdb[0] != codes::IN || judge::page_code(cdb) == codes::IN_SEED {
        return Answer::A2;
    }
    let page = pages_in::page(judge::page_code(cdb), &passed.member);
    let count = page.len().min(judge::cdb_bytes(cdb) as usize);
    reply[..count].copy_from_slice(&page[..count]);
    Answer::A0 { count }
}
