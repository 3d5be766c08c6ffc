//! What may happen between a command's open and its close, so that the close
//! refuses what the open let pass: clocks, tags, methods, keys, whole units.

use super::*;

/// The reasons that calls and damage to units bring about.
pub const BROUGHT_ABOUT: [Reason; 12] = [1, UNSOUND, 6, 8, 9, 10, 12, 13, 14, 15, 18, 19];

impl<W: Watch> World<W> {
    /// So many closes that are refused for this reason.
    pub fn between(&mut self, reason: Reason, rounds: usize) {
        self.reset();
        for _ in 0..rounds {
            let unit = self.rng.any(8);
            let case = self.case_that_passes(unit, reason);
            let draft = self.draft_that_passes(&case, reason);
            let slot = self.parked(&draft);
            let clock = self.bring_about(&case, &draft, reason);
            let data = match (reason, case.row.page) {
                (18, Some(page)) => lists::misfit(page, &mut self.rng),
                (19, Some(page)) => lists::wrong(page, &mut self.rng),
                _ => self.right_data(&case),
            };
            let answer = self.close(slot, clock, data);
            assert_eq!(answer, Answer::A3(reason), "unit {unit}");
        }
    }

    /// A case of a new unit that the reason can be brought about for.
    fn case_that_passes(&mut self, unit: u32, reason: Reason) -> Case {
        match reason {
            6 | 8 | 9 => {
                self.new_unit(unit, 0);
                self.data_out_case(unit, |case| !case.is_master())
            }
            14 => {
                self.new_unit(unit, 1);
                if self.rng.one_in(3) {
                    assert!(self.exchange_in_set(unit));
                    return self.out_case(unit, CHANGE).expect("the unit is used");
                }
                self.data_out_case(unit, |case| !case.is_master())
            }
            15 => {
                self.new_unit(unit, 1);
                assert!(self.exchange_in_set(unit));
                let page = self.rng.pick(&[SET_ATTRIBUTES, SET_KEY, CHANGE]);
                match self.rng.below(2) {
                    0 => self.out_case(unit, page).expect("the unit is used"),
                    _ => self.data_out_case(unit, |case| !case.is_master()),
                }
            }
            18 | 19 => {
                let (method, tag) = (self.rng.any(2), self.rng.pick(&[0, 7]));
                self.seat(unit, method, tag);
                let page = self.rng.pick(&OUT_PAGES);
                if page == CHANGE {
                    assert!(self.exchange_in_set(unit));
                }
                self.out_case(unit, page).expect("the unit is used")
            }
            _ => {
                let method = self.rng.any(2);
                self.new_unit(unit, method);
                self.data_out_case(unit, |_| true)
            }
        }
    }

    /// A new unit with a working key, of method and tag by chance; the tag is
    /// not zero.
    fn new_unit(&mut self, unit: u32, method: u32) {
        let tag = 1 + self.rng.below(0xffff_ffff) as u32;
        self.seat(unit, method, tag);
        let version = self.rng.any(16);
        assert!(self.set_key_in_set(unit, version));
    }

    /// A data-out case of the unit, other than Change.
    fn data_out_case(&mut self, unit: u32, fits: impl Fn(&Case) -> bool) -> Case {
        let case = self.pick_case(|case| {
            case.place() == unit && case.is_data_out() && !case.is_change() && fits(case)
        });
        case.expect("the unit was just built")
    }

    /// A command that passes now, and that the reason can be brought about for.
    fn draft_that_passes(&mut self, case: &Case, reason: Reason) -> Draft {
        match reason {
            1 | UNSOUND | 18 | 19 => return self.good(case),
            10 => {
                let clock = self.tick().clamp(1, LATEST);
                let mut draft = Draft::wrapped(case, clock, &mut self.rng);
                let later = (clock + self.rng.below(200)).min(LATEST);
                let expiration = self.rng.pick(&[clock, later, LATEST]);
                draft.rewrite(case, |descriptor| descriptor.set(EXPIRATION, expiration));
                return draft;
            }
            _ => {}
        }
        let mut draft = self.wrapped(case);
        match (reason, &mut draft.wrapping) {
            (6, _) => draft.wrapping = None,
            (8, Some(wrapping)) => wrapping.descriptor.set(METHOD, 0u8),
            (9, Some(wrapping)) => {
                wrapping.descriptor.set(METHOD, 1u8);
                wrapping.descriptor.0[ALGORITHM.start] |= 1;
            }
            (12, _) => {
                let tag = case.member.unit.tag;
                draft.rewrite(case, |descriptor| descriptor.set(TAG, tag));
            }
            _ => {}
        }
        draft
    }

    /// Parks a draft that is to pass.
    pub fn parked(&mut self, draft: &Draft) -> u32 {
        match self.call(draft.line()) {
            Answer::A1 { slot } => slot as u32,
            other => panic!("{other:?} to {}", draft.line()),
        }
    }

    /// Makes the reason apply to what is parked, and gives the close's clock.
    fn bring_about(&mut self, case: &Case, draft: &Draft, reason: Reason) -> u64 {
        let (unit, own) = (case.place(), case.member.unit);
        match (reason, &draft.wrapping) {
            (1, _) => self.rewrite(Buffer::Units, unit, &[0; BODY], Check::MadeRight),
            (UNSOUND, _) => {
                let spoiled = match case.field() {
                    0 => unit,
                    one_more => self.rng.pick(&[unit, one_more - 1]),
                };
                self.spoil_unit(spoiled);
            }
            // What a NOSEC unit lets pass and a CAPKEY unit does not.
            (6 | 8 | 9, _) => assert!(self.set_attributes(unit, 1, own.tag)),
            (10, Some(wrapping)) => {
                let expiration = wrapping.descriptor.get(EXPIRATION);
                let beyond = [1, 1, 5, 1 << 48, u64::MAX - expiration];
                return expiration + self.rng.pick(&beyond);
            }
            (12, _) => {
                let tag = self.rng.pick(&[0, own.tag ^ 1, own.tag ^ 0x8000_0000]);
                if self.rng.one_in(3) {
                    self.build_like(case, Unit { tag, ..own });
                } else {
                    assert!(self.set_attributes(unit, own.method.number(), tag));
                }
            }
            (13, _) => {
                let mut other = own;
                other.identifier[self.rng.below(16) as usize] ^= 1 << self.rng.below(8);
                self.build_like(case, other);
            }
            (14, _) => self.lose_key(case),
            (15, _) => self.replace_key(case),
            _ => {}
        }
        draft.clock
    }

    /// Builds the case's unit anew with these attributes.
    fn build_like(&mut self, case: &Case, unit: Unit) {
        let master = case.member.keeper.keys.master;
        self.build_again(case.place(), unit, master, case.field());
    }

    /// Builds a unit of which there is all but the record.
    fn build_again(&mut self, place: u32, unit: Unit, master: Pair, keeper: u32) {
        let method = unit.method.number().into();
        let asked = Build::new(place, method, unit.tag, unit.identifier, master);
        self.build(asked.with_keeper(keeper));
    }

    /// Reason 14: the key that was there is there no longer.
    fn lose_key(&mut self, case: &Case) {
        if self.rng.one_in(3) {
            let keeper = &case.member.keeper;
            self.build_again(keeper.place as u32, keeper.unit, keeper.keys.master, 0);
        } else {
            assert!(case.is_change() || self.exchange_in_set(case.place()));
            assert!(self.change_in_set(case.place()));
        }
    }

    /// Reason 15: the key is another now. A Change waits for the first of two
    /// exchanges, a master row for the pair before a Change, a working row for
    /// a key that was set again.
    fn replace_key(&mut self, case: &Case) {
        if case.is_change() {
            assert!(self.exchange_in_set(case.place()));
        } else if case.is_master() {
            assert!(self.change_in_set(case.place()));
        } else {
            assert!(self.set_key_in_set(case.place(), case.versions()[0]));
        }
        assert_eq!(case.member.unit.method, Method::CapKey);
    }
}
