//! Several units under one key set (document 02, K4): what may be wrong with a
//! keeper, and sets of units for the sections to call on.

use super::*;

/// Why the unit that bytes 432-433 name, stored or asked for, can't be the
/// unit's keeper.
#[derive(Clone, Copy, Debug, PartialEq, Eq, PartialOrd, Ord)]
pub enum KeeperFault {
    OutOfRange,
    Itself,
    Unsound,
    Unused,
    Sharer,
}

pub const KEEPER_FAULTS: [KeeperFault; 5] = [
    KeeperFault::OutOfRange,
    KeeperFault::Itself,
    KeeperFault::Unsound,
    KeeperFault::Unused,
    KeeperFault::Sharer,
];

/// Why a build is H5.
#[derive(Clone, Copy, Debug, PartialEq, Eq, PartialOrd, Ord)]
pub enum BuildFault {
    Unit,
    Method,
    Keeper(KeeperFault),
}

pub fn build_faults() -> Vec<BuildFault> {
    let keepers = KEEPER_FAULTS.map(BuildFault::Keeper);
    [&[BuildFault::Unit, BuildFault::Method][..], &keepers].concat()
}

/// How a unit stands whose record names a keeper.
#[derive(Clone, Copy, Debug, PartialEq, Eq)]
pub enum Sharer {
    Sound,
    /// Its own bytes are right, its keeper is not.
    Lost(KeeperFault),
    /// Its own bytes are wrong.
    Damaged,
}

/// The bytes with this value in the field.
pub fn with_field(body: &Body, field: u16) -> Body {
    let mut new = *body;
    new[KEEPER..][..2].copy_from_slice(&field.to_be_bytes());
    new
}

impl<W: Watch> World<W> {
    /// What is wrong with this value of bytes 432-433 for the unit. Nothing is
    /// with 0, or where it names a unit with keys of its own.
    pub fn keeper_fault(&self, unit: u32, field: u32) -> Option<KeeperFault> {
        let keeper = field.checked_sub(1)?;
        if keeper as usize >= UNITS {
            return Some(KeeperFault::OutOfRange);
        }
        if keeper == unit {
            return Some(KeeperFault::Itself);
        }
        match records::read_unit_record(&Own, &self.tables.units, keeper as usize) {
            Record::Unsound => Some(KeeperFault::Unsound),
            Record::Empty => Some(KeeperFault::Unused),
            Record::Used(UnitRecord { keys, .. }) => match keys {
                Keys::Own(_) => None,
                Keys::KeptBy(_) => Some(KeeperFault::Sharer),
            },
        }
    }

    pub fn build_faults(&self, asked: &Build) -> Vec<BuildFault> {
        let unit = (asked.unit as usize >= UNITS).then_some(BuildFault::Unit);
        let method = (asked.method > 1).then_some(BuildFault::Method);
        let keeper = self.keeper_fault(asked.unit, asked.keeper);
        let keeper = keeper.map(BuildFault::Keeper);
        [unit, method, keeper].into_iter().flatten().collect()
    }

    /// What makes the build H5, if one thing alone does.
    pub fn only_build_fault(&self, asked: &Build) -> Option<BuildFault> {
        match self.build_faults(asked)[..] {
            [fault] => Some(fault),
            _ => None,
        }
    }

    /// How the unit stands, if its record is in use and names a keeper.
    pub fn sharer(&self, unit: u32) -> Option<Sharer> {
        let record = self.tables.units.chunks(RECORD).nth(unit as usize)?;
        let (body, check) = record.split_at(BODY);
        let body: &Body = body.try_into().expect("cut to that length");
        let field = u16::from_be_bytes(bytes(body, KEEPER));
        if body[..2] != [0, 1] || field == 0 {
            return None;
        }
        // Its other bytes are judged beside a keeper that is in range.
        let beside = UnitRecord::decode(&with_field(body, 1), unit as usize);
        if sha1(body) != *check || beside.is_none() {
            return Some(Sharer::Damaged);
        }
        let fault = self.keeper_fault(unit, field.into());
        Some(fault.map_or(Sharer::Sound, Sharer::Lost))
    }

    pub fn sharers(&self) -> Vec<u32> {
        self.units_that(|record| matches!(record, Record::Used(member) if member.is_sharer()))
    }

    pub fn any_sharer(&mut self) -> Option<u32> {
        let all = self.sharers();
        self.rng.pick_any(&all)
    }

    /// The number of the unit's keeper, which may be its own.
    pub fn keeper_of(&self, unit: u32) -> Option<u32> {
        match self.unit(unit) {
            Record::Used(member) => Some(member.keeper.place as u32),
            _ => None,
        }
    }

    /// All units whose keys this one keeps, itself with them.
    pub fn set_of(&self, keeper: u32) -> Vec<u32> {
        let kept = |unit: &u32| self.keeper_of(*unit) == Some(keeper);
        (0..UNITS as u32).filter(kept).collect()
    }

    /// The unit itself or, among sharers, any of its set.
    pub fn one_of_set(&mut self, unit: u32) -> u32 {
        match self.keeper_of(unit) {
            Some(keeper) if self.sharing => {
                let set = self.set_of(keeper);
                self.rng.pick(&set)
            }
            _ => unit,
        }
    }

    /// Set Key at one of the unit's set.
    pub fn set_key_in_set(&mut self, unit: u32, version: u8) -> bool {
        let at = self.one_of_set(unit);
        self.set_key(at, version)
    }

    pub fn exchange_in_set(&mut self, unit: u32) -> bool {
        let at = self.one_of_set(unit);
        self.exchange(at)
    }

    pub fn change_in_set(&mut self, unit: u32) -> bool {
        let at = self.one_of_set(unit);
        self.change(at)
    }

    /// The eight places by chance.
    pub fn shuffled_places(&mut self) -> [u32; UNITS] {
        let mut places = std::array::from_fn(|place| place as u32);
        for last in (1..UNITS).rev() {
            places.swap(last, self.rng.length(last));
        }
        places
    }

    /// A tag, of which a part may be another's.
    fn some_tag(&mut self) -> u32 {
        self.rng.pick(&[0, 7, 8, 0x0700_0000, u32::MAX])
    }

    /// Builds a keeper and units that share its keys, of these methods.
    fn new_set(&mut self, keeper: (u32, u32), sharers: &[(u32, u32)]) {
        let tag = self.some_tag();
        self.fresh(keeper.0, keeper.1, tag);
        for (unit, method) in sharers {
            let tag = self.some_tag();
            self.fresh_with(*unit, *method, tag, keeper.0 + 1);
        }
    }

    /// Sets so many working keys, each at one of the unit's set.
    pub fn set_keys_in_set(&mut self, unit: u32, keys: u8) {
        let first: u8 = self.rng.any(16);
        for step in 0..keys {
            // 5 and 16 have no common divisor, so these all differ.
            self.set_key_in_set(unit, (first + 5 * step) % 16);
        }
    }

    /// Makes eight units at places by chance, and sixteen free slots: a CAPKEY
    /// keeper and a NOSEC one with an exchange pending, each with a NOSEC and a
    /// CAPKEY sharer; an unused unit, and one that is unsound.
    pub fn set_up_sharing(&mut self) {
        self.sharing = true;
        self.reset();
        let [first, a, b, second, c, d, unused, unsound] = self.shuffled_places();
        self.new_set((first, 1), &[(a, 0), (b, 1)]);
        self.set_keys_in_set(first, 3);
        self.new_set((second, 0), &[(c, 1), (d, 0)]);
        self.set_keys_in_set(second, 2);
        self.exchange_in_set(second);
        self.make_unused(unused);
        self.fresh_with(unsound, 1, 7, second + 1);
        let fault = self.rng.pick(&KEEPER_FAULTS);
        if self.rng.one_in(2) || !self.misname_keeper(unsound, fault) {
            self.spoil_unit(unsound);
        }
    }

    /// A new set of three units by itself: the keeper, then two sharers. At
    /// least two are CAPKEY, so that beside each there is one. No tag is zero,
    /// and one working key is valid.
    pub fn new_three(&mut self) -> [u32; 3] {
        self.sharing = true;
        let places = self.shuffled_places();
        let three = [places[0], places[1], places[2]];
        let nosec = self.rng.below(4);
        for (index, unit) in (0..).zip(three) {
            let tag = self.rng.pick(&[7, 8, 0x0700_0000, u32::MAX]);
            let keeper = if index == 0 { 0 } else { three[0] + 1 };
            self.fresh_with(unit, u32::from(index != nosec), tag, keeper);
        }
        self.set_keys_in_set(three[0], 1);
        three
    }

    /// Builds a unit with own keys or, among sharers, mostly as the sharer of a
    /// keeper that is built first.
    pub fn seat(&mut self, unit: u32, method: u32, tag: u32) {
        if !self.sharing || self.rng.one_in(6) {
            self.fresh(unit, method, tag);
            return;
        }
        let keeper = (unit + 1 + self.rng.below(7) as u32) % UNITS as u32;
        let (its_method, its_tag) = (self.rng.any(2), self.some_tag());
        self.fresh(keeper, its_method, its_tag);
        self.fresh_with(unit, method, tag, keeper + 1);
    }
}
