//! The key commands that are to be GOOD, and a section of them with other
//! commands parked across.

use super::*;

impl<W: Watch> World<W> {
    /// Opens a page of OUT and closes it with this list. Nothing comes of it
    /// where the unit is not used or no slot is free.
    pub fn out(&mut self, unit: u32, page: u16, list: Vec<u8>) -> Option<Answer> {
        let case = self.out_case(unit, page)?;
        let draft = self.good(&case);
        match self.call(draft.line()) {
            Answer::A1 { slot } => Some(self.close(slot as u32, draft.clock, list)),
            _ => None,
        }
    }

    pub fn set_attributes(&mut self, unit: u32, method: u16, tag: u32) -> bool {
        let list = lists::attributes(method, tag);
        self.out(unit, SET_ATTRIBUTES, list) == Some(DONE)
    }

    pub fn set_key(&mut self, unit: u32, version: u8) -> bool {
        let list = lists::key(version, &self.rng.array());
        self.out(unit, SET_KEY, list) == Some(DONE)
    }

    pub fn exchange(&mut self, unit: u32) -> bool {
        let list = lists::exchange(&self.rng.array());
        self.out(unit, SEED_EXCHANGE, list) == Some(DONE)
    }

    pub fn change(&mut self, unit: u32) -> bool {
        self.out(unit, CHANGE, lists::change()) == Some(DONE)
    }

    /// Parks a command that passes, of a case that fits.
    pub fn park(&mut self, fits: impl Fn(&Case) -> bool) -> Option<(Case, Draft, u32)> {
        let case =
            self.pick_case(|case| case.is_data_out() && case.inherent().is_none() && fits(case))?;
        let draft = self.good(&case);
        match self.call(draft.line()) {
            Answer::A1 { slot } => Some((case, draft, slot as u32)),
            Answer::A4 => None,
            other => panic!("{other:?} to {}", draft.line()),
        }
    }

    /// Key commands on every unit in turn, with commands parked across.
    pub fn key_commands(&mut self, rounds: usize) {
        for round in 0..rounds {
            self.with_others_across(&[(round % 6) as u32], round / 6);
        }
    }

    /// A key command at one of these units, with up to three commands parked at
    /// any of them before and closed after it.
    pub fn with_others_across(&mut self, units: &[u32], turn: usize) {
        let count = self.rng.below(4);
        let across = (0..count).map(|_| self.park(|case| units.contains(&case.place())));
        let across: Vec<_> = across.collect();
        let unit = match units {
            [unit] => *unit,
            _ => self.rng.pick(units),
        };
        self.key_command(unit, turn);
        for (_, _, slot) in across.into_iter().flatten() {
            self.close_anyhow(slot);
        }
    }

    /// One of the life of keys: set, exchange, exchange again, change. Not
    /// all are GOOD, as what was parked may have changed the keys.
    pub fn key_command(&mut self, unit: u32, turn: usize) {
        let version = self.rng.any(16);
        match turn % 7 {
            1 => self.exchange(unit),
            2 if self.rng.one_in(2) => self.exchange(unit),
            2 | 3 => self.change(unit),
            4 => {
                let method = self.rng.pick(&[0, 1, 1]);
                let tag = self.rng.pick(&[0, 7, 8, u32::MAX]);
                self.set_attributes(unit, method, tag)
            }
            _ => self.set_key(unit, version),
        };
    }

    /// Closes a slot with right data, or data that are wrong, by this or that
    /// clock, or aborts it.
    pub fn close_anyhow(&mut self, slot: u32) -> Answer {
        // Mostly a clock that went back, or most capabilities would expire.
        let now = self.tick();
        let clock = self.rng.pick(&[now, now / 2, now / 2, 0]);
        let Record::Used(held) = self.slot(slot) else {
            return self.close(slot, clock, vec![]);
        };
        if held.command[0] != OUT {
            let length = self.rng.pick(&[0, 0, 1, 12, 28, 40]);
            let data = self.rng.bytes(length);
            return self.close(slot, clock, data);
        }
        let page = page_code(&held.command);
        let is_listed = page_row(OUT, page).is_some();
        let rng = &mut self.rng;
        let data = match rng.below(8) {
            0..=4 if is_listed => lists::right(page, rng),
            5 if is_listed => lists::misfit(page, rng),
            6 if is_listed => lists::wrong(page, rng),
            7 => return self.abort(slot),
            _ => {
                let length = rng.pick(&[0, 4, 12, 28]);
                rng.bytes(length)
            }
        };
        self.close(slot, clock, data)
    }
}
