//! The sections of the listing in their order, and the same by chance for as
//! long as a comparison is to go on.

use super::*;

/// The reasons that an open can give.
pub const AT_OPEN: [Reason; 17] = [
    1, UNSOUND, 2, 3, 4, 6, 7, 8, 9, 10, 11, 12, 13, 14, 15, 16, 17,
];

/// The reasons that a close can give: a sound slot's command is of a known
/// code and of legal length, and not SECURITY PROTOCOL IN.
pub const AT_CLOSE: [Reason; 16] = [
    1, UNSOUND, 4, 6, 7, 8, 9, 10, 11, 12, 13, 14, 15, 16, 18, 19,
];

impl<W: Watch> World<W> {
    /// All that the listing holds.
    pub fn listing(&mut self) {
        self.run_only_examples();
        self.lettered_examples();
        self.begin("Units in all standings, and every row on each of them.");
        self.good_opens(2);
        self.listed_faults();
        self.listed_edges();
        self.listed_closes();
        self.begin("Key commands with other commands parked across.");
        self.key_commands(1500);
        self.listed_damage();
        self.begin("Everything in turn by chance.");
        self.mixed(3000);
        self.listed_sharing();
    }

    /// A section on units that are set up anew, none of them a sharer.
    pub fn begin(&mut self, remark: &str) {
        self.remark(remark);
        self.set_up();
    }

    /// The same on units among which there are sharers.
    fn begin_sharing(&mut self, remark: &str) {
        self.remark(remark);
        self.set_up_sharing();
    }

    fn listed_faults(&mut self) {
        for reason in AT_OPEN {
            let text = reason_text(reason);
            self.remark(&format!("Open: commands with one fault, reason {text}."));
            self.single_faults(reason, 110);
        }
        self.remark("Open: several faults at once; the first counts.");
        self.several_faults(1500);
        self.remark("Open: commands of chance.");
        self.noise(200);
    }

    fn listed_edges(&mut self) {
        self.begin("All operation codes.");
        self.all_codes(&[0, 2]);
        self.remark("Commands of all lengths.");
        self.all_lengths(1);
        self.remark("Tokens of all lengths.");
        self.all_tokens();
        self.all_tokens();
        self.begin("Allocation lengths.");
        self.all_allocations();
        self.remark("Permission bits, expirations, formats and versions.");
        self.all_permissions();
        self.all_expirations();
        self.all_versions();
        self.remark("Data lengths.");
        for unit in [0, 2] {
            self.all_data_lengths(unit);
        }
        self.remark("Lists with one bit wrong.");
        self.all_lists(1);
        self.remark("Numbers of units, methods and slots.");
        self.all_numbers();
    }

    fn listed_closes(&mut self) {
        for reason in BROUGHT_ABOUT {
            let text = reason_text(reason);
            self.remark(&format!("Close: what calls bring about, reason {text}."));
            self.set_up();
            let rounds = if PLANTED.contains(&reason) { 60 } else { 110 };
            self.between(reason, rounds);
        }
        self.set_up();
        for reason in PLANTED {
            let text = reason_text(reason);
            self.remark(&format!("Close: a slot with one fault, reason {text}."));
            let natural = BROUGHT_ABOUT.contains(&reason);
            self.planted_faults(reason, if natural { 50 } else { 110 });
        }
        self.remark("Close: slots with several faults.");
        self.planted_several(500);
    }

    fn listed_damage(&mut self) {
        self.begin("Damage to units.");
        self.damaged_units(600);
        self.remark("Damage to slots.");
        self.damaged_slots(600);
        self.remark("Slots that hold together but for their unit, token or command.");
        self.odd_slots(400);
        self.begin("All slots taken.");
        self.pressure(15);
    }

    /// Units under one key set.
    fn listed_sharing(&mut self) {
        self.begin_sharing("Units under one key set, and every row on each of them.");
        self.good_opens(1);
        self.listed_sharing_faults();
        self.listed_sets();
        self.listed_keepers();
        self.begin_sharing("Sharers and their keepers, everything in turn by chance.");
        self.mixed(500);
    }

    fn listed_sharing_faults(&mut self) {
        self.begin_sharing("Sharers and their keepers, open: commands with one fault.");
        for reason in AT_OPEN {
            self.single_faults(reason, 20);
        }
        self.begin_sharing("Sharers and their keepers, open: several faults at once.");
        self.several_faults(150);
        self.begin_sharing("Sharers, close: what calls bring about.");
        for reason in BROUGHT_ABOUT {
            self.between(reason, 12);
        }
        self.begin_sharing("Sharers and their keepers, close: slots with faults.");
        for reason in PLANTED {
            self.planted_faults(reason, 18);
        }
        self.planted_several(60);
    }

    fn listed_sets(&mut self) {
        self.remark(
            "A Change at one unit of a set, and commands of the keys before at the others.",
        );
        for _ in 0..6 {
            self.changes_elsewhere(6);
        }
        self.remark("Key commands at any unit of a set, with others parked across.");
        for _ in 0..2 {
            self.set_up_sharing();
            self.key_commands_in_sets(130);
        }
        self.remark("Pages 0010h, 0011h and 0012h at every unit of a set.");
        self.pages_in_sets(6);
        self.remark("Attributes set at one unit of a set, while another goes on.");
        self.attributes_apart(12);
    }

    fn listed_keepers(&mut self) {
        self.remark("Builds over a keeper: own keys again, as a sharer, and back.");
        self.keepers_built_over(12);
        self.remark("Builds that are refused, for one fault each.");
        for fault in build_faults() {
            self.set_up_sharing();
            self.faulty_builds(fault, 105);
        }
        self.begin_sharing("Builds with any keeper.");
        self.any_builds(80);
        self.remark("Sharers whose keeper is lost.");
        for fault in KEEPER_FAULTS {
            self.set_up_sharing();
            self.lost_keepers(fault, 35);
        }
        self.begin_sharing("Any keeper stored in a record.");
        self.stored_fields(80);
        self.begin_sharing("Sharers with a byte that is to be zero, and damage to keepers.");
        self.damaged_sharers(&zero_places());
        self.damaged_keepers(80);
    }

    /// One section by chance, mostly of some tens of calls.
    pub fn any_section(&mut self) {
        let (open, between) = (self.rng.pick(&AT_OPEN), self.rng.pick(&BROUGHT_ABOUT));
        let planted = self.rng.pick(&PLANTED);
        match self.rng.below(100) {
            0 => self.good_opens(1),
            1..=24 => self.single_faults(open, 10),
            25..=34 => self.several_faults(20),
            35..=37 => self.noise(20),
            38..=40 => self.any_exhaustive_section(),
            41..=55 => self.between(between, 5),
            56..=67 => self.planted_faults(planted, 10),
            68..=72 => self.planted_several(20),
            73 | 74 => self.key_commands(42),
            75..=79 => self.damaged_units(20),
            80..=82 => self.damaged_slots(20),
            83 | 84 => self.odd_slots(20),
            85..=87 => self.pressure(1),
            88 => self.giants(),
            _ => self.mixed(100),
        }
    }

    /// One of those that go through many values.
    fn any_exhaustive_section(&mut self) {
        let unit = self.rng.below(6) as u32;
        match self.rng.below(10) {
            0 => self.all_codes(&[unit]),
            1 => self.all_lengths(unit),
            2 => self.all_tokens(),
            3 => self.all_allocations(),
            4 => self.all_permissions(),
            5 => self.all_expirations(),
            6 => self.all_versions(),
            7 => self.all_data_lengths(unit),
            8 => self.all_lists(unit),
            _ => self.all_numbers(),
        }
    }

    /// One of those about units under one key set.
    fn any_sharing_section(&mut self) {
        let fault = self.rng.pick(&KEEPER_FAULTS);
        match self.rng.below(15) {
            0 | 1 => self.any_faulty_builds(10),
            2 | 3 => self.any_builds(15),
            4 | 5 => self.lost_keepers(fault, 10),
            6 => self.changes_elsewhere(2),
            7..=9 => self.key_commands_in_sets(21),
            10 => self.pages_in_sets(1),
            11 => self.attributes_apart(4),
            12 => self.keepers_built_over(2),
            13 => self.stored_fields(10),
            _ => {
                self.some_damaged_sharers(10);
                self.damaged_keepers(10);
            }
        }
    }

    /// Sections by chance, on units that are set up anew from time to time,
    /// mostly with sharers, until so many calls were made.
    pub fn go_on(&mut self, calls: usize) {
        while self.tally.calls() < calls && !self.watch.is_done() {
            if self.rng.one_in(4) {
                self.set_up();
            } else {
                self.set_up_sharing();
            }
            for _ in 0..6 {
                if self.sharing && self.rng.one_in(2) {
                    self.any_sharing_section();
                } else {
                    self.any_section();
                }
            }
        }
    }
}

#[cfg(test)]
mod tests {
    use super::*;
    use crate::generate::tally::ELSEWHERE;

    #[test]
    fn sections_by_chance_reach_sharers() {
        let mut world = World::new(4, Vec::<Answer>::new());
        world.go_on(12_000);
        let tally = &world.tally;
        tally.require(tally.calls().div_ceil(5), Count::AtSharers);
        for page in OUT_PAGES {
            tally.require(20, Count::PageAtSharers(page));
        }
        for fault in KEEPER_FAULTS {
            tally.require(5, Count::Lost(fault));
        }
        for fault in build_faults() {
            tally.require(5, Count::BuildFault(fault));
        }
        for elsewhere in ELSEWHERE {
            tally.require(10, Count::Elsewhere(elsewhere));
        }
    }
}
