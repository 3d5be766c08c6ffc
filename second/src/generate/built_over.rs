//! Builds over a keeper: with own keys again, which its sharers then go by; as a
//! sharer, which loses it its sharers; and back.

use super::*;

impl<W: Watch> World<W> {
    pub fn keepers_built_over(&mut self, rounds: usize) {
        self.reset();
        for _ in 0..rounds {
            let set = self.new_three();
            let [keeper, ..] = set;
            self.build_over(&set, 0);
            self.goes_on(&set);
            let other = (0..8).find(|unit| !set.contains(unit));
            let other = other.expect("three of eight units are the set");
            self.fresh(other, 1, 7);
            let method = self.build_over(&set, other + 1);
            self.goes_on(&[keeper, other]);
            let asked = self.build_of(keeper, method, 0);
            assert_eq!(self.build(asked), DONE);
            self.goes_on(&set);
        }
    }

    /// Builds the keeper with other keys, or as a sharer, while commands of the
    /// old keys wait at its sharers. Gives the method that it then has.
    fn build_over(&mut self, set: &[u32; 3], field: u32) -> u32 {
        let before = [set[1], set[2]].map(|unit| self.park_at(unit));
        let method = self.rng.any(2);
        let asked = self.build_of(set[0], method, field);
        assert_eq!(self.build(asked), DONE);
        for (case, draft, slot) in before {
            let data = self.right_data(&case);
            let expected = match (field, case.is_strict(), case.is_master()) {
                (0, false, _) => Answer::A2,
                (0, true, false) => Answer::A3(14),
                (0, true, true) => Answer::A3(15),
                _ => Answer::A3(UNSOUND),
            };
            assert_eq!(self.close(slot, draft.clock, data), expected);
            if field != 0 {
                assert_eq!(self.call(draft.line()), expected);
            }
        }
        method
    }

    fn park_at(&mut self, unit: u32) -> (Case, Draft, u32) {
        let parked = self.park(|case| case.place() == unit && !case.is_change());
        parked.expect("a slot is free")
    }

    /// Every unit of the set takes commands: a key is set at one of them, and
    /// something that passes comes to each.
    fn goes_on(&mut self, set: &[u32]) {
        let version = self.rng.any(16);
        assert!(self.set_key_in_set(set[0], version));
        for unit in set {
            let fits = |case: &Case| case.place() == *unit && case.inherent().is_none();
            let case = self.pick_case(fits).expect("the unit is used");
            let line = self.spoiled_line(&case, &[]);
            let answer = self.call_checked(&case, &[], line);
            self.abort_parked(answer);
        }
    }
}
