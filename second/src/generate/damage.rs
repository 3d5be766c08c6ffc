//! Damage to records, with the check left wrong or made right again: document
//! 01, "Records of 512 bytes". Some of it a sound record can take. A sharer's
//! own record is to be zero where a keeper's has its keys.

use super::*;

/// Bytes of a unit record that have a field of their own or are to be zero,
/// at the edges of the fields.
const UNIT_PLACES: [usize; 39] = [
    0, 1, 2, 3, 4, 5, 6, 7, 8, 11, 12, 13, 14, 15, 16, 31, 32, 51, 52, 71, 72, 91, 92, 111, 112,
    131, 132, 151, 200, 251, 252, 411, 412, 431, 432, 450, 489, 490, 491,
];

const SLOT_PLACES: [usize; 32] = [
    0, 1, 2, 3, 4, 5, 6, 7, 8, 9, 10, 11, 12, 13, 14, 17, 18, 19, 24, 95, 101, 102, 106, 107, 108,
    123, 124, 170, 171, 172, 300, 491,
];

impl<W: Watch> World<W> {
    /// Makes a used unit unsound, by its check or by its shape.
    pub fn spoil_unit(&mut self, unit: u32) {
        for _ in 0..1000 {
            if self.rng.one_in(4) {
                let at =
                    unit as usize * RECORD + self.rng.pick(&[0, 3, 8, 100, 491, 492, 500, 511]);
                let byte = self.tables.units[at] ^ 1 << self.rng.below(8);
                self.poke(Buffer::Units, at, vec![byte]);
            } else {
                let body = self.body(Buffer::Units, unit);
                let body = changed(&body, &UNIT_PLACES, &mut self.rng);
                if UnitRecord::decode(&body, unit as usize).is_some() {
                    continue;
                }
                self.rewrite(Buffer::Units, unit, &body, Check::MadeRight);
            }
            if self.unit(unit) == Record::Unsound {
                return;
            }
        }
        unreachable!("some damage makes a record unsound");
    }

    /// Units with one changed byte, opened and then put right again.
    pub fn damaged_units(&mut self, rounds: usize) {
        for _ in 0..rounds {
            let unit = self.rng.any(8);
            let before = self.tables.units[unit as usize * RECORD..][..RECORD].to_vec();
            self.change_unit_byte(unit);
            self.ask_unit(unit);
            self.put_back(Buffer::Units, unit, &before);
        }
    }

    /// Changes one byte of the unit's record, which may stay sound.
    pub fn change_unit_byte(&mut self, unit: u32) {
        let body = self.body(Buffer::Units, unit);
        let body = changed(&body, &UNIT_PLACES, &mut self.rng);
        let check = self.any_check();
        self.rewrite(Buffer::Units, unit, &body, check);
    }

    /// Made right more often.
    fn any_check(&mut self) -> Check {
        let right = Check::MadeRight;
        self.rng.pick(&[right, right, Check::Left])
    }

    /// A command or two on the unit, which tell how its record is taken.
    pub fn ask_unit(&mut self, unit: u32) {
        let record = self.unit(unit);
        let line = match self.pick_case(|case| case.place() == unit) {
            Some(case) => self.spoiled_line(&case, &[]),
            None => self.any_line(unit),
        };
        let answer = self.call(line.clone());
        match record {
            Record::Unsound => assert_eq!(answer, Answer::A3(UNSOUND), "{line}"),
            Record::Empty => assert_eq!(answer, Answer::A3(1), "{line}"),
            Record::Used(_) => {}
        }
        self.abort_parked(answer);
        // Method, tag and mask as the record now has them.
        if let Some(case) = self.pick_case(|case| {
            case.place() == unit && case.row.page == Some(0x0011) && !case.is_master()
        }) {
            let line = self.spoiled_line(&case, &[]);
            self.call(line);
        }
    }

    /// A bare command of a listed row.
    fn any_line(&mut self, unit: u32) -> Line {
        let row = self.rng.pick(&ROWS);
        let command = draft::cdb(&row, &mut self.rng);
        let token = self.rng.bytes(16);
        let clock = self.tick();
        Line::open(unit, clock, command, token)
    }

    /// Slots, open or free, with one changed byte, closed, aborted or opened.
    pub fn damaged_slots(&mut self, rounds: usize) {
        for round in 0..rounds {
            if round.is_multiple_of(20) {
                self.reset();
            }
            let parked = self.park(|_| true).map(|(_, _, slot)| slot);
            let any = self.rng.any(16);
            let mostly = parked.unwrap_or(any);
            let slot = self.rng.pick(&[mostly, mostly, any]);
            let body = self.body(Buffer::Slots, slot);
            let body = changed(&body, &SLOT_PLACES, &mut self.rng);
            let check = self.any_check();
            self.rewrite(Buffer::Slots, slot, &body, check);
            self.ask_slot(slot);
        }
        self.reset();
    }

    /// A call that tells how the slot's record is taken.
    pub fn ask_slot(&mut self, slot: u32) {
        let record = self.slot(slot);
        let answer = match self.rng.below(4) {
            0 => self.abort(slot),
            _ => self.close_anyhow(slot),
        };
        match record {
            Record::Used(held) => {
                assert!(is_data_out(held.command[0]) && parts(&held.command).is_some());
                assert_ne!(answer, Answer::H3);
            }
            _ => assert_eq!(answer, Answer::H3),
        }
        // Whether it is taken as free shows at the next open.
        if self.rng.one_in(3) {
            self.park(|case| !case.is_strict());
        }
    }

    /// Pokes a whole record back to what it was, where it differs.
    pub fn put_back(&mut self, buffer: Buffer, place: u32, before: &[u8]) {
        let body: Body = before[..BODY].try_into().expect("cut to that length");
        self.rewrite(buffer, place, &body, Check::Left);
        let from = place as usize * RECORD + BODY;
        if self.tables.buffer(buffer)[from..][..20] != before[BODY..] {
            self.poke(buffer, from, before[BODY..].to_vec());
        }
    }

    /// Sharers with one of these bytes not zero and their check made right, so
    /// that nothing else makes them unsound.
    pub fn damaged_sharers(&mut self, places: &[usize]) {
        for at in places {
            let Some(unit) = self.any_sharer() else {
                return;
            };
            self.while_unsound(unit, |world| {
                let mut body = world.body(Buffer::Units, unit);
                body[*at] = world.rng.pick(&[1, 2, 0x80, 0xff]);
                world.rewrite(Buffer::Units, unit, &body, Check::MadeRight);
                true
            });
        }
    }

    /// Some of the bytes that are zero in every sharer.
    pub fn some_damaged_sharers(&mut self, rounds: usize) {
        let all = zero_places();
        let places: Vec<usize> = (0..rounds).map(|_| self.rng.pick(&all)).collect();
        self.damaged_sharers(&places);
    }

    /// Keepers with one changed byte, asked at a sharer and put back.
    pub fn damaged_keepers(&mut self, rounds: usize) {
        for _ in 0..rounds {
            let Some(unit) = self.any_sharer() else {
                return;
            };
            let keeper = self.keeper_of(unit).expect("the sharer is sound");
            let before = self.tables.units.clone();
            self.change_unit_byte(keeper);
            self.ask_unit(unit);
            self.put_units_back(&before);
        }
    }
}

/// Bytes that are zero in every sharer: mask, step, the first and the last byte
/// of each key, and all after the field.
pub fn zero_places() -> Vec<usize> {
    let masks_and_steps = [6, 7, 12, 13, 14, 15];
    // Two pairs of master keys and sixteen working keys of 20 bytes, from 32 on.
    let keys = (0..20).flat_map(|key| [32 + 20 * key, 51 + 20 * key]);
    let unnamed = 434..492;
    let places = masks_and_steps.into_iter().chain(keys).chain(unnamed);
    places.collect()
}

/// The bytes with one changed, at an edge or anywhere.
fn changed(body: &Body, places: &[usize], rng: &mut Rng) -> Body {
    let mut new = *body;
    let any = rng.length(BODY - 1);
    let edge = rng.pick(places);
    let at = rng.pick(&[edge, edge, edge, any]);
    let flipped = new[at] ^ 1 << rng.below(8);
    // The numbers at a record's start have edges among the small ones.
    let small = rng.pick(&[0, 1, 2, 3, 7, 8, 9, 15, 16, 17, 64, 65]);
    new[at] = match at {
        0..16 => rng.pick(&[flipped, small]),
        _ => flipped,
    };
    if new[at] == body[at] {
        new[at] = flipped;
    }
    new
}
