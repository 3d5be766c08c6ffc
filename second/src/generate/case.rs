//! What a case, a unit as it stands and a row, calls for where a command is to
//! be made for it.

use super::*;

impl Case {
    pub fn place(&self) -> u32 {
        self.member.place as u32
    }

    /// What bytes 432-433 of the unit's record hold.
    pub fn field(&self) -> u32 {
        let one_more = self.member.keeper.place as u32 + 1;
        one_more * u32::from(self.member.is_sharer())
    }

    pub fn is_data_out(&self) -> bool {
        codes::is_data_out(self.row.code)
    }

    /// The versions whose key there is.
    pub fn versions(&self) -> Vec<u8> {
        let all = 0..16;
        all.filter(|version| self.key(*version).is_some()).collect()
    }

    /// The reason that any command of this case is refused for, at the latest.
    pub fn inherent(&self) -> Option<Reason> {
        if self.is_strict() && self.versions().is_empty() {
            Some(14)
        } else if self.is_in_seed() && self.member.keeper.keys.next.is_none() {
            Some(17)
        } else {
            None
        }
    }
}

impl<W: Watch> World<W> {
    /// The case of this unit, if it is used, with this row.
    pub fn case(&self, place: u32, row: Row) -> Option<Case> {
        match self.unit(place) {
            Record::Used(member) => Some(Case { member, row }),
            _ => None,
        }
    }

    /// The case of this unit with a page of SECURITY PROTOCOL OUT.
    pub fn out_case(&self, place: u32, page: u16) -> Option<Case> {
        self.case(place, codes::page_row(codes::OUT, page)?)
    }

    /// A case that fits, if there is one.
    pub fn pick_case(&mut self, fits: impl Fn(&Case) -> bool) -> Option<Case> {
        let mut fitting = Vec::new();
        for place in 0..UNITS as u32 {
            if let Record::Used(member) = self.unit(place) {
                let cases = ROWS.map(|row| Case {
                    member: member.clone(),
                    row,
                });
                fitting.extend(cases.into_iter().filter(|case| fits(case)));
            }
        }
        match fitting.len() {
            0 => None,
            count => Some(fitting.swap_remove(self.rng.below(count as u64) as usize)),
        }
    }
}
