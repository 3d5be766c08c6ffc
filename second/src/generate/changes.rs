//! Key commands at one unit of a set and what they do at the others; attributes,
//! which stay with the unit that they are set at.

use super::*;

/// A command made under the keys of its day, perhaps parked.
struct Held {
    case: Case,
    draft: Draft,
    slot: Option<u32>,
}

impl<W: Watch> World<W> {
    /// A command of a case that fits, which passes as the keys are.
    fn hold(&mut self, park: bool, fits: impl Fn(&Case) -> bool) -> Held {
        let case = self.pick_case(|case| fits(case) && (case.is_data_out() || !park));
        let case = case.expect("a unit of the set has such a row");
        let draft = self.wrapped(&case);
        let slot = park.then(|| self.parked(&draft));
        Held { case, draft, slot }
    }

    /// Closes the command, if it was parked, or opens it; it is to be refused.
    fn refused(&mut self, held: &Held, reason: Reason, elsewhere: &'static str) {
        let answer = match held.slot {
            Some(slot) => {
                let data = self.right_data(&held.case);
                self.close(slot, held.draft.clock, data)
            }
            None => self.call(held.draft.line()),
        };
        assert_eq!(answer, Answer::A3(reason), "{}", held.draft.line());
        self.tally.add(Count::Elsewhere(elsewhere));
    }

    /// A Change at one unit of a set: the working keys that commands at the
    /// others were made with are gone, and then, set again, others; the
    /// authentication master key is another at once.
    pub fn changes_elsewhere(&mut self, rounds: usize) {
        self.reset();
        let set = self.new_three();
        for round in 0..rounds {
            let actor = self.rng.pick(&set);
            let beside = |case: &Case| set.contains(&case.place()) && case.place() != actor;
            let working = |case: &Case| beside(case) && case.is_strict() && !case.is_master();
            let master = |case: &Case| beside(case) && case.is_master() && !case.is_change();
            let now = [true, false].map(|park| self.hold(park, working));
            let later = [true, false].map(|park| self.hold(park, working));
            let masters = [true, false, false].map(|park| self.hold(park, master));
            let version = later[0].case.versions()[0];
            assert!(self.exchange_in_set(actor));
            let change =
                (round % 2 == 0).then(|| self.hold(true, |case| beside(case) && case.is_change()));
            assert!(self.change(actor));
            // Commands that are not parked can come more than once.
            for held in now.iter().chain(&later[1..]).chain(&change) {
                self.refused(held, 14, KEY_ENDED);
            }
            let (first, last) = masters.split_at(1);
            for held in first {
                self.refused(held, 15, MASTER_CHANGED);
            }
            assert!(self.set_key_in_set(actor, version));
            for held in later.iter().chain(&now[1..]) {
                self.refused(held, 15, KEY_REPLACED);
            }
            for held in last {
                self.refused(held, 15, MASTER_CHANGED);
            }
        }
    }

    /// Key commands at any unit of a set, with others parked across.
    pub fn key_commands_in_sets(&mut self, rounds: usize) {
        for round in 0..rounds {
            let keeper = match self.any_sharer() {
                None => self.new_three()[0],
                Some(sharer) => self.keeper_of(sharer).expect("the sharer is sound"),
            };
            let set = self.set_of(keeper);
            self.with_others_across(&set, round);
        }
    }

    /// The Capabilities and Attributes pages and page 0012h at every unit of a
    /// set: at step 0, at step 1 and after the Change.
    pub fn pages_in_sets(&mut self, rounds: usize) {
        for _ in 0..rounds {
            let set = self.new_three();
            self.ask_pages(&set);
            let version = self.rng.any(16);
            assert!(self.set_key_in_set(set[0], version));
            assert!(self.exchange_in_set(set[0]));
            self.ask_pages(&set);
            assert!(self.change_in_set(set[0]));
            self.ask_pages(&set);
        }
    }

    fn ask_pages(&mut self, set: &[u32]) {
        for page in [0x0010, 0x0011, IN_SEED] {
            for unit in set {
                let row = page_row(IN, page).expect("the page is listed");
                let case = self.case(*unit, row).expect("the unit is used");
                let mut draft = self.good(&case);
                draft.cdb[6..10].copy_from_slice(&512u32.to_be_bytes());
                let answer = self.call_checked(&case, &[], draft.line());
                if page == 0x0011 && answer == (Answer::A0 { count: 12 }) {
                    let mask = case.member.keeper.keys.mask().to_be_bytes();
                    assert_eq!(self.tables.reply[10..12], mask);
                }
            }
        }
    }

    /// Set Attributes at one unit of a set, with a command parked there and one
    /// at another unit, which goes on.
    pub fn attributes_apart(&mut self, rounds: usize) {
        self.reset();
        for _ in 0..rounds {
            let [first, second, third] = self.new_three();
            let pairs = [(first, second), (second, first), (second, third)];
            let (one, other) = self.rng.pick(&pairs);
            let page = self.rng.one_in(3);
            let held = [one, other].map(|unit| {
                self.hold_tagged(move |case| {
                    let fits = case.is_master() == page && !case.is_change();
                    case.place() == unit && fits
                })
            });
            let [at_one, at_other] = &held;
            let unit = at_one.case.member.unit;
            // Another method would be seen before the tag.
            let method = match unit.method {
                Method::CapKey if self.rng.one_in(2) => 0,
                same => same.number(),
            };
            let tag = unit.tag ^ 1 << self.rng.below(32);
            assert!(self.set_attributes(one, method, tag));
            let [refused, passed] = [at_one, at_other].map(|held| {
                let data = self.right_data(&held.case);
                let slot = held.slot.expect("it was parked");
                self.close(slot, held.draft.clock, data)
            });
            assert_eq!(refused, Answer::A3(12));
            let good = if page { DONE } else { Answer::A2 };
            assert_eq!(passed, good, "{:?}", at_other.case);
        }
    }

    /// Parks a command under the unit's tag.
    fn hold_tagged(&mut self, fits: impl Fn(&Case) -> bool) -> Held {
        let mut held = self.hold(false, |case| case.is_data_out() && fits(case));
        let tag = held.case.member.unit.tag;
        held.draft
            .rewrite(&held.case, |descriptor| descriptor.set(TAG, tag));
        held.slot = Some(self.parked(&held.draft));
        held
    }
}
