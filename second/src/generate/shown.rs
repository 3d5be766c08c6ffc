//! Sections of records that are shown, sound and unsound by every part, and of
//! refusals that are explained.

use super::*;

/// Bytes of a record that are replaced.
type Change = Vec<(usize, Vec<u8>)>;

/// Changes as text, parted by spaces: a place in decimal, a colon and bytes in
/// hex, with a plus before the next that go with them.
fn changes(text: &str) -> Vec<Change> {
    let part = |part: &str| {
        let (at, bytes) = part.split_once(':')?;
        Some((at.parse().ok()?, decode_field(bytes.as_bytes())?))
    };
    let change = |change: &str| change.split('+').map(part).collect::<Option<Change>>();
    let all = text.split(' ').map(change).collect::<Option<_>>();
    all.expect("places and bytes")
}

/// What makes a unit of own keys, with no working key and no exchange pending,
/// unsound: the parts in the order in which they are judged.
fn unit_changes(place: u32) -> Vec<Change> {
    let other = place ^ 1;
    let place = format!("2:000{other} 2:010{place}");
    let numbers = "4:0002 4:0100 4:ffff 12:00000002 12:80000000 12:00010001";
    let keys = (0..16).flat_map(|version| [112, 131].map(|at| format!("{}:80", at + 20 * version)));
    let all = [
        "0:0000 0:0002 0:0101",
        &place,
        numbers,
        "72:01 91:01 92:01 111:01",
        &keys.collect::<Vec<_>>().join(" "),
        "434:01 435:01 491:01",
        "432:0009 432:000a 432:0101 432:8002 432:ffff",
    ];
    changes(&all.join(" "))
}

/// What makes a sharer unsound by what a keeper alone may have: mask, step and
/// keys, also where these would go together.
const IN_SHARER: &str = "6:8001 12:00000001 32:01 51:01 52:01 71:01 12:00000001+72:01 \
    12:00000001+111:01 6:0008+172:01";

/// What makes an open slot with a bare WRITE(10) and a token of 16 bytes
/// unsound, in the order of judgement.
const IN_SLOT: &str = "0:0000 0:0002 0:0101 2:0008 2:0100 2:ffff 6:000f 6:0041 6:0000 6:0110 \
    6:ffff 4:0000 4:0009 4:000b 4:0057 4:0059 4:0065 4:010a 4:ffff 8:28 8:0a 8:7f 8:35 8:a2 8:ff \
    18:01 107:01 124:01 171:01 172:01 300:01 491:01";

impl<W: Watch> World<W> {
    fn show(&mut self, buffer: Buffer, place: u32) {
        let shown = match buffer {
            Buffer::Units => Shown::Unit(place as usize),
            _ => Shown::Slot(place as usize),
        };
        self.carry_out(&Line::Show(shown));
    }

    fn show_all(&mut self) {
        self.carry_out(&Line::Show(Shown::All));
    }

    /// Shows the record with each change alone, its check made right and left
    /// wrong; then with one more of them at a time from the last on, so that the
    /// first is named. It is put back.
    fn show_changed(&mut self, buffer: Buffer, place: u32, changes: &[Change]) {
        let from = place as usize * RECORD;
        let before = self.tables.get(buffer)[from..][..RECORD].to_vec();
        for change in changes {
            for check in [Check::MadeRight, Check::Left] {
                self.apply(buffer, place, change, check);
                self.show(buffer, place);
                self.put_back(buffer, place, &before);
            }
        }
        for change in changes.iter().rev() {
            self.apply(buffer, place, change, Check::MadeRight);
            self.show(buffer, place);
        }
        self.poke(buffer, from + RECORD - 1, vec![!before[RECORD - 1]]);
        self.show(buffer, place);
        self.put_back(buffer, place, &before);
    }

    fn apply(&mut self, buffer: Buffer, place: u32, change: &Change, check: Check) {
        let mut body = self.body(buffer, place);
        for (at, bytes) in change {
            body[*at..][..bytes.len()].copy_from_slice(bytes);
        }
        self.rewrite(buffer, place, &body, check);
    }

    /// Records that are shown.
    pub fn listed_shows(&mut self) {
        self.remark("Shown: tables as they stand.");
        self.show_all();
        self.set_up();
        self.show_all();
        self.set_up_sharing();
        self.show_all();
        self.remark("Shown: the life of a unit.");
        for method in [0, 1] {
            self.show_life(method);
        }
        self.remark("Shown: keys that are zero.");
        self.show_zero_keys();
        self.begin("Shown: units that are unsound, by each part and by several.");
        for unit in [0, 6, 7] {
            self.fresh(unit, 1, 7);
            self.show_changed(Buffer::Units, unit, &unit_changes(unit));
        }
        self.remark("Shown: sharers that are unsound, and their keepers.");
        self.show_sharers();
        self.remark("Shown: open slots of every command, and of codes that are none.");
        self.show_commands();
        self.remark("Shown: slots that are unsound, by each part and by several.");
        self.show_slots();
    }

    fn show_life(&mut self, method: u32) {
        let unit = self.rng.any(8);
        let tag = self.rng.pick(&[0, 7, u32::MAX]);
        self.fresh(unit, method, tag);
        self.show(Buffer::Units, unit);
        // 5 and 16 have no common divisor, so these are all versions.
        for step in 0..16 {
            assert!(self.set_key(unit, 5 * step % 16));
            self.show(Buffer::Units, unit);
        }
        assert!(self.exchange(unit));
        self.show(Buffer::Units, unit);
        assert!(self.change(unit) && self.set_attributes(unit, 1 - method as u16, 8));
        self.show(Buffer::Units, unit);
        self.make_unused(unit);
        self.show(Buffer::Units, unit);
    }

    /// At step 1, so that none of the keys must be zero.
    fn show_zero_keys(&mut self) {
        self.fresh(2, 1, 7);
        assert!(self.set_key(2, 0) && self.set_key(2, 15) && self.exchange(2));
        let keys = [32, 52, 72, 92, 112, 412].map(|at| vec![(at, vec![0; 20])]);
        self.show_changed(Buffer::Units, 2, &keys);
    }

    fn show_sharers(&mut self) {
        for _ in 0..2 {
            self.set_up_sharing();
            for unit in self.sharers() {
                self.show_changed(Buffer::Units, unit, &changes(IN_SHARER));
            }
            for fault in KEEPER_FAULTS {
                for unit in self.sharers() {
                    let before = self.tables.units.clone();
                    self.lose_keeper(unit, fault);
                    self.show_all();
                    self.put_units_back(&before);
                }
            }
        }
    }

    /// Lays a slot over a free one and shows it.
    fn show_planted(&mut self, command: Vec<u8>) {
        let (unit, token) = (self.rng.any(8), draft::token(&mut self.rng));
        let slot = Slot::new(unit, &command, &token);
        if let Some(place) = self.plant(&slot) {
            return self.show(Buffer::Slots, place);
        }
        // Those that are unsound stay till then.
        self.reset();
        let place = self.plant(&slot).expect("all slots are free");
        self.show(Buffer::Slots, place);
    }

    fn show_commands(&mut self) {
        self.set_up();
        while self.park(|_| true).is_some() {}
        self.show_all();
        self.reset();
        for row in ROWS.into_iter().filter(|row| is_data_out(row.code)) {
            for more in [0, WRAPPING] {
                let command = [draft::cdb(&row, &mut self.rng), self.rng.bytes(more)].concat();
                self.show_planted(command);
            }
        }
        for page in [0x0000u16, 0x0010, 0x0013, 0x0016, 0x1100, 0x0111, 0xffff] {
            let [high, low] = page.to_be_bytes();
            let command = [vec![OUT, 0x07, high, low], self.rng.bytes(8)].concat();
            self.show_planted(command);
        }
        for code in 0..=255 {
            let bare = cdb_length(code).unwrap_or(10);
            let length = self
                .rng
                .pick(&[bare, bare, bare + WRAPPING, bare + 1, bare - 1]);
            let mut command = self.rng.bytes(length);
            command[0] = code;
            self.show_planted(command);
        }
    }

    fn show_slots(&mut self) {
        self.reset();
        for place in [0, 9] {
            let slot = Slot::new(7, &[0x2a; 10], &[0x77; 16]);
            self.rewrite(Buffer::Slots, place, &slot.encode(), Check::MadeRight);
            self.show_changed(Buffer::Slots, place, &changes(IN_SLOT));
        }
        // Free slots that are not all zero.
        let changes = changes("0:01 2:01 8:01 107:01 171:01 491:01");
        self.show_changed(Buffer::Slots, 15, &changes);
        self.reset();
    }

    fn explain(&mut self, on: bool) {
        self.carry_out(&Line::Explain(on));
    }

    /// Refusals with the words of their reasons; other answers have none.
    pub fn listed_explained(&mut self) {
        self.begin("Explained: every reason at an open.");
        self.explain(true);
        for reason in AT_OPEN {
            self.single_faults(reason, 4);
        }
        self.remark("Explained: every reason at a close, and answers that are no refusals.");
        for reason in BROUGHT_ABOUT {
            self.between(reason, 3);
        }
        for reason in PLANTED {
            self.planted_faults(reason, 2);
        }
        self.all_tokens();
        self.pressure(1);
        self.set_up_sharing();
        for fault in KEEPER_FAULTS {
            self.lost_keepers(fault, 2);
        }
        self.any_faulty_builds(5);
        self.good_opens(1);
        self.remark("No longer explained.");
        self.explain(true);
        self.explain(false);
        for reason in AT_OPEN {
            self.single_faults(reason, 1);
        }
        self.explain(false);
        self.between(19, 2);
    }
}
