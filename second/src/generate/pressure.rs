//! All sixteen slots taken: TASK SET FULL, what comes before it and what needs
//! no slot.

use super::*;

impl<W: Watch> World<W> {
    pub fn pressure(&mut self, rounds: usize) {
        for _ in 0..rounds {
            self.reset();
            // Unsound slots can't be taken, and only a reset frees them.
            for _ in 0..self.rng.below(3) {
                let at = self.rng.length(16 * RECORD - 1);
                let byte = !self.tables.slots[at];
                self.poke(Buffer::Slots, at, vec![byte]);
            }
            while self.park(|_| true).is_some() {}
            for _ in 0..8 {
                self.press();
            }
        }
        self.reset();
    }

    /// A call while no slot, or hardly one, is free.
    fn press(&mut self) {
        let free = self.slots_that(|record| *record == Record::Empty);
        match self.rng.below(6) {
            0..=2 => {
                let Some(case) = self.pick_case(|case| case.inherent().is_none()) else {
                    return;
                };
                let line = self.spoiled_line(&case, &[]);
                let answer = self.call_checked(&case, &[], line);
                if case.is_data_out() {
                    let slot = free.first().map(|slot| *slot as usize);
                    let expected = slot.map_or(Answer::A4, |slot| Answer::A1 { slot });
                    assert_eq!(answer, expected);
                }
            }
            3 => {
                let reason = self.rng.pick(&[2, 3, 6, 12, 15, 16]);
                self.single_faults(reason, 1);
            }
            4 => {
                let slot = self.rng.any(16);
                self.abort(slot);
            }
            _ => {
                let slot = self.rng.any(16);
                self.close_anyhow(slot);
            }
        }
    }
}
