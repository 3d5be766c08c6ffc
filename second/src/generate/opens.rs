//! Sections of open calls: commands that pass, and commands with one fault and
//! with several.

use super::*;

/// The reasons that a command can be spoiled for.
pub const SPOILABLE: [Reason; 14] = [2, 3, 4, 6, 7, 8, 9, 10, 11, 12, 13, 14, 15, 16];

impl<W: Watch> World<W> {
    /// Every row on every unit, with a command that passes where one can.
    pub fn good_opens(&mut self, rounds: usize) {
        for round in 0..rounds {
            if round.is_multiple_of(4) {
                self.stain_reply();
            }
            for row in ROWS {
                for unit in 0..8 {
                    if let Some(case) = self.case(unit, row) {
                        self.open_good(&case);
                    }
                }
            }
        }
    }

    fn open_good(&mut self, case: &Case) {
        let draft = self.good(case);
        let answer = self.call_checked(case, &[], draft.line());
        let Answer::A1 { slot } = answer else {
            return;
        };
        // The units are to stay as they are, so key commands get no list.
        let slot = slot as u32;
        let closed = match self.rng.below(3) {
            0 => self.abort(slot),
            _ => self.close(slot, draft.clock, vec![]),
        };
        let expected = match (closed, case.row.code) {
            (DONE, _) | (Answer::A2, 0x00..codes::OUT) => true,
            (other, codes::OUT) => other == Answer::A3(18),
            _ => false,
        };
        assert!(expected, "{closed:?} for {case:?}");
    }

    /// Commands with one fault: so many for each reason.
    pub fn single_faults(&mut self, reason: Reason, rounds: usize) {
        for _ in 0..rounds {
            match reason {
                1 | UNSOUND => self.open_on_stranger(reason, &[]),
                17 => self.open_spoiled(&[], |case| case.inherent() == Some(17)),
                14 if self.rng.one_in(3) => {
                    self.open_spoiled(&[], |case| case.inherent() == Some(14));
                }
                _ => self.open_spoiled(&[reason], |case| {
                    faults::is_possible(reason, case)
                        && faults::expected(case, &[reason]) == Some(reason)
                }),
            }
        }
    }

    /// Commands with two to four faults.
    pub fn several_faults(&mut self, rounds: usize) {
        for _ in 0..rounds {
            let count = 2 + self.rng.below(3);
            let reasons = self.some_reasons(count, &SPOILABLE);
            if self.rng.one_in(12) {
                let stranger = self.rng.pick(&[1, UNSOUND]);
                self.open_on_stranger(stranger, &reasons);
            } else {
                self.open_spoiled(&reasons, |case| faults::are_possible(&reasons, case));
            }
        }
    }

    /// Reasons of these, up to so many, in ascending order.
    pub fn some_reasons(&mut self, count: u64, from: &[Reason]) -> Vec<Reason> {
        let mut reasons: Vec<Reason> = (0..count).map(|_| self.rng.pick(from)).collect();
        reasons.sort();
        reasons.dedup();
        reasons
    }

    /// Opens a command with these faults in a case that fits.
    pub fn open_spoiled(&mut self, reasons: &[Reason], fits: impl Fn(&Case) -> bool) {
        let Some(case) = self.pick_case(fits) else {
            return;
        };
        let line = self.spoiled_line(&case, reasons);
        self.call_checked(&case, reasons, line);
    }

    pub fn spoiled_line(&mut self, case: &Case, reasons: &[Reason]) -> Line {
        let draft = self.spoiled(case, reasons);
        faults::line(&draft, reasons, &mut self.rng)
    }

    /// A draft with these faults, but for those of length and code.
    pub fn spoiled(&mut self, case: &Case, reasons: &[Reason]) -> Draft {
        let clock = self.tick();
        faults::spoiled(case, reasons, clock, &mut self.rng)
    }

    /// Opens a command on a unit that is not there or unsound.
    fn open_on_stranger(&mut self, reason: Reason, others: &[Reason]) {
        let Some(case) = self.pick_case(|case| faults::are_possible(others, case)) else {
            return;
        };
        let Some(stranger) = self.stranger(reason, case.place()) else {
            return;
        };
        let mut line = self.spoiled_line(&case, others);
        if let Line::Open(request) = &mut line {
            request.unit = stranger;
        }
        let answer = self.call(line.clone());
        assert_eq!(answer, Answer::A3(reason), "{line}");
    }

    /// A number of a unit that reason 1 or 1b applies to; for reason 1 also
    /// numbers of which a part alone is a used unit's.
    fn stranger(&mut self, reason: Reason, used: u32) -> Option<u32> {
        let all = if reason == UNSOUND {
            self.units_that(|record| *record == Record::Unsound)
        } else {
            let mut all = vec![8, 15, 16, 255, 256 + used, 65536 + used, u32::MAX];
            all.extend([used | 0x8000_0000, 8 + used, 16 + used]);
            // As often as all the others.
            for unused in self.units_that(|record| *record == Record::Empty) {
                all.extend([unused; 10]);
            }
            all
        };
        self.rng.pick_any(&all)
    }

    /// Holds an answer to what the case and the faults call for.
    pub fn check(&self, case: &Case, reasons: &[Reason], line: &Line, answer: Answer) {
        let right = match faults::expected(case, reasons) {
            Some(reason) => answer == Answer::A3(reason),
            None if case.is_data_out() => matches!(answer, Answer::A1 { .. } | Answer::A4),
            None if case.row.code == codes::IN && !case.is_in_seed() => {
                matches!(answer, Answer::A0 { .. })
            }
            None => answer == Answer::A2,
        };
        assert!(right, "{answer:?} with faults {reasons:?} to {line}");
    }
}
