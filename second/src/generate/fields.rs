//! Values of bytes 432-433 of a unit record, asked for and stored: builds with
//! every kind of keeper, and sharers whose keeper is lost.

use super::*;

/// Every number that may name a keeper, and others, of which a part alone might.
const FIELDS: [u32; 29] = [
    0, 1, 2, 3, 4, 5, 6, 7, 8, 9, 10, 16, 17, 255, 256, 257, 260, 264, 0x0900, 0x8001, 65535,
    65536, 65537, 65544, 0x01000000, 0x01000003, 0x80000000, 0x80000005, 0xffffffff,
];

/// Numbers of no unit and of no method, of which a part alone might be.
const NO_UNITS: [u32; 9] = [8, 9, 15, 255, 256, 259, 65536 + 2, 0x8000_0001, u32::MAX];
const NO_METHODS: [u32; 8] = [2, 3, 255, 256, 257, 65536, 0x8000_0001, u32::MAX];

impl<W: Watch> World<W> {
    /// The values whose fault for the unit, if there is one, fits.
    pub fn fields_that(&self, unit: u32, fits: impl Fn(Option<KeeperFault>) -> bool) -> Vec<u32> {
        let fits = |field: &u32| fits(self.keeper_fault(unit, *field));
        FIELDS.into_iter().filter(fits).collect()
    }

    /// A build with everything by chance, and keys in full, but for unit, method
    /// and keeper.
    pub fn build_of(&mut self, unit: u32, method: u32, keeper: u32) -> Build {
        let (tag, identifier) = (self.rng.pick(&[0, 7, 8, u32::MAX]), self.rng.array());
        let asked = Build::new(unit, method, tag, identifier, self.any_pair());
        asked.with_keeper(keeper)
    }

    /// Builds that are H5 for this alone.
    pub fn faulty_builds(&mut self, fault: BuildFault, rounds: usize) {
        self.provide(fault);
        for _ in 0..rounds {
            let any = self.rng.any(8);
            let (unit, method, wanted) = match fault {
                BuildFault::Unit => (self.rng.pick(&NO_UNITS), any % 2, None),
                BuildFault::Method => (any, self.rng.pick(&NO_METHODS), None),
                BuildFault::Keeper(fault) => (any, self.rng.any(2), Some(fault)),
            };
            let fields = self.fields_that(unit, |found| found == wanted);
            let Some(keeper) = self.rng.pick_any(&fields) else {
                continue;
            };
            let asked = self.build_of(unit, method, keeper);
            assert_eq!(self.only_build_fault(&asked), Some(fault));
            assert_eq!(self.build(asked), Answer::H5);
        }
    }

    /// Sees to it that there are units with which a build has the fault, and it
    /// alone, whichever unit is built.
    fn provide(&mut self, fault: BuildFault) {
        let [first, second, third, ..] = self.shuffled_places();
        match fault {
            BuildFault::Keeper(KeeperFault::Itself) => {
                // Its own number is wrong even where it keeps its keys.
                for unit in [first, second, third] {
                    self.fresh(unit, 1, 7);
                }
            }
            BuildFault::Keeper(KeeperFault::Unsound) => {
                for unit in [first, second] {
                    self.fresh(unit, 1, 7);
                    self.spoil_unit(unit);
                }
            }
            BuildFault::Keeper(KeeperFault::Unused) => {
                self.make_unused(first);
                self.make_unused(second);
            }
            BuildFault::Keeper(KeeperFault::Sharer) => {
                self.fresh(third, 1, 7);
                self.fresh_with(first, 1, 7, third + 1);
                self.fresh_with(second, 0, 7, third + 1);
            }
            _ => {}
        }
    }

    /// Builds with any value for the keeper, and a command at what they leave.
    pub fn any_builds(&mut self, rounds: usize) {
        for _ in 0..rounds {
            let (place, number) = (self.rng.any(8), self.rng.pick(&NO_UNITS));
            let unit = self.rng.pick(&[place, place, place, place, place, number]);
            let odd = self.rng.pick(&NO_METHODS);
            let method = self.rng.pick(&[0, 0, 0, 1, 1, 1, odd]);
            let right = self.fields_that(unit, |found| found.is_none());
            let (any, right) = (self.rng.pick(&FIELDS), self.rng.pick(&right));
            let keeper = self.rng.pick(&[any, right, right]);
            let asked = self.build_of(unit, method, keeper);
            let is_right = self.build_faults(&asked).is_empty();
            let expected = if is_right { DONE } else { Answer::H5 };
            assert_eq!(self.build(asked), expected);
            self.ask_unit(place);
        }
    }

    pub fn any_faulty_builds(&mut self, rounds: usize) {
        let fault = self.rng.pick(&build_faults());
        self.faulty_builds(fault, rounds);
    }

    /// Commands at sharers whose keeper is lost in this way.
    pub fn lost_keepers(&mut self, fault: KeeperFault, rounds: usize) {
        for _ in 0..rounds {
            let Some(unit) = self.any_sharer() else {
                return;
            };
            self.while_unsound(unit, |world| world.lose_keeper(unit, fault));
        }
    }

    /// Has the unit made unsound after a command was made or parked there, lets
    /// the command come, and puts the records back. Nothing comes of it where
    /// the damage tells that it could not be done.
    pub fn while_unsound(&mut self, unit: u32, damage: impl FnOnce(&mut Self) -> bool) {
        let Some(case) = self.pick_case(|case| case.place() == unit) else {
            return;
        };
        let line = self.spoiled_line(&case, &[]);
        let parks = self.rng.one_in(2);
        let parked = parks.then(|| self.park(|case| case.place() == unit));
        let before = self.tables.units.clone();
        let done = damage(self);
        let answer = match parked.flatten() {
            Some((_, _, slot)) if !done => self.abort(slot),
            Some((case, draft, slot)) => {
                let data = self.right_data(&case);
                self.close(slot, draft.clock, data)
            }
            None => self.call(line),
        };
        assert!(!done || answer == Answer::A3(UNSOUND), "unit {unit}");
        self.put_units_back(&before);
    }

    /// Loses the sharer its keeper: by what stands in its record, or by what
    /// becomes of the keeper. Tells if that could be done.
    pub fn lose_keeper(&mut self, unit: u32, fault: KeeperFault) -> bool {
        let keeper = self.keeper_of(unit).expect("the sharer is sound");
        let mut others = self.fields_that(keeper, |found| found.is_none());
        others.retain(|field| *field != 0);
        match fault {
            _ if self.rng.one_in(2) => return self.misname_keeper(unit, fault),
            KeeperFault::Unsound => self.spoil_unit(keeper),
            KeeperFault::Unused => self.make_unused(keeper),
            KeeperFault::Sharer if !others.is_empty() => {
                let field = self.rng.pick(&others);
                let asked = self.build_of(keeper, 1, field);
                assert_eq!(self.build(asked), DONE);
            }
            _ => return self.misname_keeper(unit, fault),
        }
        true
    }

    /// Gives a sharer a keeper that it can't have, and tells if there is one
    /// with this fault.
    pub fn misname_keeper(&mut self, unit: u32, fault: KeeperFault) -> bool {
        let fields = storable(&self.fields_that(unit, |found| found == Some(fault)));
        let field = self.rng.pick_any(&fields);
        field
            .inspect(|field| self.store_field(unit, *field))
            .is_some()
    }

    /// Writes the field and makes the check right.
    fn store_field(&mut self, unit: u32, field: u16) {
        let body = self.body(Buffer::Units, unit);
        let body = with_field(&body, field);
        self.rewrite(Buffer::Units, unit, &body, Check::MadeRight);
    }

    /// Records of any standing with any value in the field, asked and then put
    /// back. Without one a sharer has keys of its own, which are zero; a keeper
    /// with one is unsound by its keys.
    pub fn stored_fields(&mut self, rounds: usize) {
        for _ in 0..rounds {
            let unit = self.rng.any(8);
            let before = self.tables.units.clone();
            let field = self.rng.pick(&storable(&FIELDS));
            self.store_field(unit, field);
            self.ask_unit(unit);
            self.put_units_back(&before);
        }
    }

    /// Pokes back what differs from these unit records.
    pub fn put_units_back(&mut self, before: &[u8]) {
        for (place, record) in (0..).zip(before.chunks(RECORD)) {
            self.put_back(Buffer::Units, place, record);
        }
    }
}

/// Those that two bytes can hold.
fn storable(fields: &[u32]) -> Vec<u16> {
    let fields = fields.iter().map(|field| u16::try_from(*field));
    fields.filter_map(Result::ok).collect()
}
