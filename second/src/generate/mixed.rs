//! Everything in turn by chance: the tables are left as the calls leave them.

use super::*;

impl<W: Watch> World<W> {
    pub fn mixed(&mut self, rounds: usize) {
        for _ in 0..rounds {
            match self.rng.below(100) {
                0..=37 => self.open_some(false),
                38..=49 => self.open_some(true),
                50..=76 => self.close_some(),
                77..=80 => {
                    let slot = self.rng.below(17) as u32;
                    self.abort(slot);
                }
                81..=86 => self.some_key_command(),
                87..=90 => self.some_damage(),
                91..=94 => self.some_repair(),
                95..=97 => self.noise(1),
                98 => self.stain_reply_in_part(),
                _ => {
                    self.reset();
                }
            }
        }
    }

    /// Opens a command that passes or one with up to three faults.
    fn open_some(&mut self, with_faults: bool) {
        let count = match with_faults {
            true => 1 + self.rng.below(3),
            false => 0,
        };
        let reasons = self.some_reasons(count, &SPOILABLE);
        self.open_spoiled(&reasons, |case| faults::are_possible(&reasons, case));
    }

    /// Closes an open slot, seldom any.
    fn close_some(&mut self) {
        let open = self.slots_that(|record| matches!(record, Record::Used(_)));
        let any = self.rng.below(18) as u32;
        let slot = match self.rng.below(15) {
            _ if open.is_empty() => any,
            0 => any,
            1 => self.rng.pick(&open) + self.rng.pick(&[16, 256, 65536, 1 << 31]),
            _ => self.rng.pick(&open),
        };
        self.close_anyhow(slot);
    }

    fn some_key_command(&mut self) {
        let unit = self.rng.any(8);
        let version = self.rng.any(16);
        match self.rng.below(10) {
            0..=4 => self.set_key(unit, version),
            5 | 6 => self.exchange(unit),
            7 => self.exchange(unit) && self.change(unit),
            8 => self.change(unit),
            _ => {
                let (method, tag) = (self.rng.pick(&[0, 1]), self.rng.pick(&[0, 7, 8]));
                self.set_attributes(unit, method, tag)
            }
        };
    }

    fn some_damage(&mut self) {
        match self.rng.below(3) {
            0 => self.damaged_units(1),
            1 => {
                let used = self.units_that(|record| matches!(record, Record::Used(_)));
                if used.len() > 4 {
                    let unit = self.rng.pick(&used);
                    self.spoil_unit(unit);
                }
            }
            _ => {
                let at = self.rng.length(self.tables.slots.len() - 1);
                let byte = self.tables.slots[at] ^ 1 << self.rng.below(8);
                self.poke(Buffer::Slots, at, vec![byte]);
            }
        }
    }

    /// Builds a unit anew; one that is unsound, if there is one.
    fn some_repair(&mut self) {
        let unsound = self.units_that(|record| *record == Record::Unsound);
        let any = self.rng.any(8);
        let unit = unsound.first().copied().unwrap_or(any);
        match self.rng.below(8) {
            0 => return self.make_unused(unit),
            1 => return self.odd_build(unit),
            _ => {}
        }
        let (method, tag) = (self.rng.pick(&[0, 1]), self.rng.pick(&[0, 7, 8]));
        let keeper = self.some_keeper(unit);
        self.fresh_with(unit, method, tag, keeper);
        let version = self.rng.any(16);
        self.set_key(unit, version);
    }

    /// 0 or, among sharers, mostly what names a unit that can keep the unit's
    /// keys, if there is one.
    fn some_keeper(&mut self, unit: u32) -> u32 {
        if !self.sharing {
            return 0;
        }
        let right = self.fields_that(unit, |fault| fault.is_none());
        self.rng.pick(&right)
    }

    /// A build of which a part of the unit or the method alone would be right;
    /// among sharers, one with any fault.
    fn odd_build(&mut self, unit: u32) {
        if self.sharing {
            return self.any_faulty_builds(1);
        }
        let more = self.rng.pick(&[8, 1 << 8, 1 << 16, 1 << 31]);
        let method = self.rng.pick(&[2, 3, 1 << 8, 1 << 16, u32::MAX]);
        let (unit, method) = self.rng.pick(&[(unit + more, 1), (unit, method)]);
        assert_eq!(self.fresh(unit, method, 7), Answer::H5);
    }

    fn stain_reply_in_part(&mut self) {
        let at = self.rng.length(500);
        let bytes = self.rng.bytes(12);
        self.poke(Buffer::Reply, at, bytes);
    }
}
