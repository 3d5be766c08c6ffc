//! Sections that go through values in order: codes, lengths, numbers, bits.

use super::*;

/// Numbers that are no unit's and no slot's, of which a part alone would be.
const NUMBERS: [u32; 12] = [
    7, 8, 15, 16, 17, 255, 256, 259, 65536, 65539, 0x80000000, 0xffffffff,
];

impl<W: Watch> World<W> {
    fn open(&mut self, unit: u32, clock: u64, command: Vec<u8>) -> Answer {
        let token = self.rng.bytes(16);
        let answer = self.call(Line::open(unit, clock, command, token));
        self.abort_parked(answer);
        answer
    }

    /// All 256 operation codes, bare and wrapped, on these units.
    pub fn all_codes(&mut self, units: &[u32]) {
        for unit in units {
            for code in 0..=255 {
                let length = cdb_length(code).unwrap_or(10);
                let more = self.rng.pick(&[0, 78]);
                let mut command = self.rng.bytes(length + more);
                command[0] = code;
                self.open(*unit, 0, command);
            }
        }
    }

    /// Commands of 0 to 100 bytes and some of 256 more, of a code of each
    /// length.
    pub fn all_lengths(&mut self, unit: u32) {
        for code in [0x12, 0x2a, 0x8a, 0xa2, 0xb5, 0x7f] {
            let bare = cdb_length(code).unwrap_or(10);
            for length in (0..=100).chain([256, 256 + bare, 256 + bare + 78]) {
                let mut command = self.rng.bytes(length);
                for (byte, given) in command.iter_mut().zip([code, 0x07, 0x00, 0x00, 0x00]) {
                    *byte = given;
                }
                self.open(unit, 0, command);
            }
        }
    }

    /// Tokens of all lengths up to 70 and some beyond, signed.
    pub fn all_tokens(&mut self) {
        for length in (0..=70).chain([127, 128, 255, 256, 256 + 16, 256 + 64, 1000]) {
            let Some(case) = self.pick_case(|case| case.inherent().is_none()) else {
                return;
            };
            let mut draft = self.good(&case);
            draft.token = self.rng.bytes(length);
            draft.sign(&case);
            let answer = self.call(draft.line());
            assert_eq!(answer == Answer::H2, !(16..=64).contains(&length));
            self.close_parked(answer);
        }
    }

    /// Units, slots and methods that there are not, and those at the edges.
    pub fn all_numbers(&mut self) {
        for number in (0..16).chain(NUMBERS) {
            let master = self.any_pair();
            let choices = [(number, 0), (number, 1), (6, number)];
            let (unit, method) = self.rng.pick(&choices);
            let asked = Build::new(unit, method, number, self.rng.array(), master);
            self.build(asked);
            self.open(number, 0, vec![0x12, 0, 0, 0, 0, 0]);
            self.abort(number);
            let clock = self.tick();
            self.close(number, clock, vec![]);
        }
        self.aliases();
    }

    /// Numbers of which a part alone is an open slot's.
    fn aliases(&mut self) {
        self.park(|_| true);
        self.park(|_| true);
        for slot in self.slots_that(|record| matches!(record, Record::Used(_))) {
            for more in [16, 1 << 8, 1 << 16, 1 << 24, 1 << 31] {
                assert_eq!(self.abort(slot + more), Answer::H3);
                assert_eq!(self.close(slot + more, 0, vec![]), Answer::H3);
            }
        }
    }

    /// Every page of IN with every allocation length, bare and wrapped.
    pub fn all_allocations(&mut self) {
        for row in ROWS.iter().filter(|row| row.code == codes::IN) {
            for allocation in ALLOCATIONS {
                if self.rng.one_in(6) {
                    self.stain_reply();
                }
                let unit = self.rng.below(6) as u32;
                let Some(case) = self.case(unit, *row) else {
                    continue;
                };
                let mut draft = self.good(&case);
                draft.cdb[6..10].copy_from_slice(&allocation.to_be_bytes());
                self.call_checked(&case, &[], draft.line());
            }
        }
    }

    /// Every bit of permission byte 32 missing, and alone, for every row.
    pub fn all_permissions(&mut self) {
        for row in ROWS.iter().filter(|row| row.need != Need::Open) {
            for bit in 0..8 {
                for permissions in [1 << bit, !(1 << bit)] {
                    let fits = |case: &Case| case.row == *row && case.inherent().is_none();
                    let Some(case) = self.pick_case(fits) else {
                        continue;
                    };
                    self.changed_descriptor(&case, 0, PERMISSIONS.start, &[permissions]);
                }
            }
        }
    }

    /// Opens a command with some bytes of the descriptor replaced, signed.
    fn changed_descriptor(&mut self, case: &Case, clock: u64, at: usize, bytes: &[u8]) {
        let mut draft = Draft::wrapped(case, clock, &mut self.rng);
        draft.rewrite(case, |descriptor| *descriptor = descriptor.with(at, bytes));
        let answer = self.call(draft.line());
        self.abort_parked(answer);
    }

    /// Expirations and clocks about each other.
    pub fn all_expirations(&mut self) {
        for expiration in [0, 1, 2, 255, 256, 1000, 1 << 32, (1 << 47) - 1, LATEST] {
            let around = [expiration.saturating_sub(1), expiration, expiration + 1];
            let far = [0, LATEST + 1 + expiration, u64::MAX];
            for clock in around.into_iter().chain(far) {
                let fits = |case: &Case| !case.is_open() && case.inherent().is_none();
                if let Some(case) = self.pick_case(fits) {
                    let bytes = &expiration.to_be_bytes()[2..];
                    self.changed_descriptor(&case, clock, EXPIRATION.start, bytes);
                }
            }
        }
    }

    /// Every version of key and every format, for master and working rows.
    pub fn all_versions(&mut self) {
        for byte in 0..=255 {
            let master = self.rng.one_in(2);
            let fits = |case: &Case| {
                case.is_strict() && case.is_master() == master && case.inherent().is_none()
            };
            // Format 1h more often than the others.
            for first in [byte, 0x10 | byte & 0x0f] {
                if let Some(case) = self.pick_case(fits) {
                    self.changed_descriptor(&case, 0, 0, &[first]);
                }
            }
        }
    }

    /// Every page of OUT closed with data of many lengths.
    pub fn all_data_lengths(&mut self, unit: u32) {
        let lengths = [
            0, 1, 3, 4, 5, 11, 12, 13, 27, 28, 29, 263, 264, 265, 268, 520, 1000,
        ];
        for page in codes::OUT_PAGES {
            for length in lengths {
                if page == codes::CHANGE {
                    self.exchange(unit);
                }
                let mut list = lists::right(page, &mut self.rng);
                list.resize(length, 0);
                self.out(unit, page, list);
            }
        }
    }

    /// Every bit of every byte that is given in a list, wrong.
    pub fn all_lists(&mut self, unit: u32) {
        self.exchange(unit);
        for page in codes::OUT_PAGES {
            for at in lists::given(page) {
                for bit in 0..8 {
                    let mut list = lists::right(page, &mut self.rng);
                    list[*at] ^= 1 << bit;
                    self.out(unit, page, list);
                }
            }
        }
    }

    /// Lengths that are right but for bits above the sixteenth. They are too
    /// long for a line of a listing.
    pub fn giants(&mut self) {
        let Some(case) = self.pick_case(|case| case.inherent().is_none()) else {
            return;
        };
        let mut draft = self.good(&case);
        let over = self.rng.pick(&[0x1_0000, 0x2_0000, 0x10_0000]);
        if self.rng.one_in(2) {
            draft.token.resize(draft.token.len() + over, 0);
            assert_eq!(self.call(draft.line()), Answer::H2);
        } else {
            let mut command = draft.command();
            command.resize(command.len() + over, 0);
            assert_eq!(self.open(case.place(), draft.clock, command), Answer::A3(3));
        }
        let page = self.rng.pick(&[codes::SET_ATTRIBUTES, codes::SET_KEY]);
        let mut list = lists::right(page, &mut self.rng);
        list.resize(list.len() + over, 0);
        self.out(case.place(), page, list);
    }

    /// Commands that are chance from the first byte to the last.
    pub fn noise(&mut self, rounds: usize) {
        for _ in 0..rounds {
            let (unit, clock) = (self.rng.below(9) as u32, self.tick());
            let length = self.rng.length(100);
            let mut command = self.rng.bytes(length);
            if let (Some(first), false) = (command.first_mut(), self.rng.one_in(4)) {
                *first = self.rng.pick(&ROWS).code;
                let bare = cdb_length(*first).unwrap_or(10);
                command.resize(bare + self.rng.pick(&[0, 78]), 0);
            }
            let mut token = draft::token(&mut self.rng);
            if self.rng.one_in(8) {
                token.resize(self.rng.pick(&[0, 1, 14, 15, 65, 66, 256 + 16]), 0);
            }
            let answer = self.call(Line::open(unit, clock, command, token));
            self.close_parked(answer);
        }
    }
}
