//! Closes of slots whose command no open would have parked: the record is
//! poked with its check made right, so that the close alone can refuse it.

use super::*;

/// The reasons that a command in a sound slot can be spoiled for.
pub const PLANTED: [Reason; 12] = [4, 6, 7, 8, 9, 10, 11, 12, 13, 14, 15, 16];

impl<W: Watch> World<W> {
    /// Lays an open slot over a free one.
    pub fn plant(&mut self, slot: &Slot) -> Option<u32> {
        let free = self.slots_that(|record| *record == Record::Empty);
        let place = self.rng.pick_any(&free)?;
        self.rewrite(Buffer::Slots, place, &slot.encode(), Check::MadeRight);
        Some(place)
    }

    /// Closes of commands with one fault: so many for this reason.
    pub fn planted_faults(&mut self, reason: Reason, rounds: usize) {
        for _ in 0..rounds {
            self.close_planted(&[reason], |case| {
                faults::expected(case, &[reason]) == Some(reason)
            });
        }
    }

    /// Closes of commands with none to three faults.
    pub fn planted_several(&mut self, rounds: usize) {
        for _ in 0..rounds {
            let count = self.rng.below(4);
            let reasons = self.some_reasons(count, &PLANTED);
            self.close_planted(&reasons, |_| true);
        }
    }

    /// Plants a command with these faults and closes it with right data.
    fn close_planted(&mut self, reasons: &[Reason], fits: impl Fn(&Case) -> bool) {
        let Some(case) = self.pick_case(|case| {
            case.is_data_out() && faults::are_possible(reasons, case) && fits(case)
        }) else {
            return;
        };
        let draft = self.spoiled(&case, reasons);
        let slot = Slot::new(draft.unit, &draft.command(), &draft.token);
        let Some(place) = self.plant(&slot) else {
            return;
        };
        let data = self.right_data(&case);
        let answer = self.close(place, draft.clock, data);
        let expected = match faults::expected(&case, reasons) {
            Some(reason) => Answer::A3(reason),
            None if case.row.code == codes::OUT => DONE,
            None => Answer::A2,
        };
        assert_eq!(answer, expected, "{slot:?} with faults {reasons:?}");
    }

    /// Slots that hold together but for their unit, token or command: other
    /// bytes are zero where they must be, and the check is right.
    pub fn odd_slots(&mut self, rounds: usize) {
        for _ in 0..rounds {
            let slot = self.odd_slot();
            let Some(place) = self.plant(&slot) else {
                self.reset();
                continue;
            };
            self.ask_slot(place);
            if matches!(self.slot(place), Record::Unsound) {
                self.rewrite(Buffer::Slots, place, &[0; BODY], Check::MadeRight);
            }
        }
    }

    fn odd_slot(&mut self) -> Slot {
        let rng = &mut self.rng;
        // Data-out rows more often than the others.
        let out = ROWS.into_iter().filter(|row| is_data_out(row.code));
        let out: Vec<Row> = out.collect();
        let row = match rng.below(4) {
            0 => rng.pick(&ROWS),
            _ => rng.pick(&out),
        };
        let mut slot = Slot::new(rng.any(8), &draft::cdb(&row, rng), &draft::token(rng));
        match rng.below(7) {
            0 => slot.unit = rng.pick(&[7, 8, 9, 255, 256, 0x0100, 0xffff]),
            1 | 2 => {
                let length = rng.pick(&[0, 1, 8, 14, 15, 16, 64]);
                slot.token = rng.bytes(length);
            }
            3 | 4 => {
                let bare = slot.command.len();
                let any = rng.length(100);
                let near = rng.pick(&[bare - 1, bare + 1, bare + 77, bare + 78, bare + 79, 100]);
                let length = rng.pick(&[0, any, near, near]);
                slot.command.resize(length.min(100), 0);
            }
            5 => slot.command[0] = rng.next_u64() as u8,
            _ => {}
        }
        slot
    }

    /// Data that the case's close takes.
    pub fn right_data(&mut self, case: &Case) -> Vec<u8> {
        match case.row.page {
            Some(page) => lists::right(page, &mut self.rng),
            None => {
                let length = self.rng.pick(&[0, 1, 16]);
                self.rng.bytes(length)
            }
        }
    }
}
