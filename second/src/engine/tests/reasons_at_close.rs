//! Every reason that a close can give: the command was parked, and then what it
//! is judged by changed, or its record did, with the check made right.

use super::*;

impl Stand {
    /// Closes slot 0, which is to be refused; this frees the slot and no more.
    fn closes_refused(&mut self, clock: u64, data: &[u8], reason: Reason) {
        let before = self.tables.clone();
        assert_eq!(self.close_at(0, clock, data), refused(reason));
        assert_eq!(self.tables.slots[..512], before.slots[512 * 15..]);
        assert_eq!(self.tables.slots[512..], before.slots[512..]);
        assert_eq!(self.tables.units, before.units);
        assert_eq!(self.tables.reply, before.reply);
    }
}

fn parked(unit: u32, command: &[u8]) -> Stand {
    let mut stand = Stand::new();
    stand.tables.reply.fill(0xee);
    assert_eq!(stand.park(unit, command), 0);
    stand
}

fn parked_page(page: u16, total: usize) -> Stand {
    parked(NOSEC, &wrap(&out_cdb(page, total), 0, &AUTH))
}

/// What happens to a parked command, and the reason of its close.
type Happening = (Reason, fn(&mut Stand));

#[test]
fn what_a_bare_command_is_judged_by() {
    let happenings: [Happening; 4] = [
        (1, |stand| {
            let unused = stand.unit_record(UNUSED);
            stand.tables.units[..512].copy_from_slice(&unused);
        }),
        (0x1b, |stand| stand.damage(Buffer::Units, NOSEC, 3, &[1])),
        // The slot's unit is judged now, whatever it was.
        (1, |stand| {
            stand.damage(Buffer::Slots, 0, 3, &[UNUSED as u8])
        }),
        (6, |stand| stand.set_attributes(NOSEC, 1, 7)),
    ];
    for (reason, happens) in happenings {
        let mut stand = parked(NOSEC, &WRITE);
        happens(&mut stand);
        stand.closes_refused(0, &[], reason);
    }
}

#[test]
fn what_a_wrapped_command_is_judged_by() {
    let happenings: [Happening; 3] = [
        (15, |stand| {
            let mut page = set_key_page(3);
            page[8] ^= 1;
            stand.out(CAPKEY, 0x14, &AUTH, &page);
        }),
        (14, |stand| {
            stand.out(CAPKEY, 0x12, &AUTH, &exchange_page(1));
            let next = stand.next_key(CAPKEY);
            stand.out(CAPKEY, 0x15, &next, &lists::change());
        }),
        // A rebuilt unit of the same name has no working keys.
        (14, |stand| {
            assert_ne!(stand.build(CAPKEY, 1, 7), Answer::H5)
        }),
    ];
    for (reason, happens) in happenings {
        let mut stand = parked(CAPKEY, &good_write());
        happens(&mut stand);
        stand.closes_refused(0, &[], reason);
    }
}

/// A slot with an unlisted page is sound; its command is refused.
#[test]
fn reasons_4_and_16() {
    for (reason, bytes) in [(4, "9:06 11:13 12:80"), (16, "14:0d 15:0d 16:0d 17:0d")] {
        for (at, byte) in bytes_at(bytes) {
            let mut stand = parked_page(0x11, 12);
            stand.damage(Buffer::Slots, 0, at, &[byte]);
            stand.closes_refused(0, &[0; 13], reason);
        }
    }
}

#[test]
fn reasons_7_to_15_in_the_slot() {
    let bytes = bytes_at("0:20 1:00 5:00 11:01 32:00 39:01 40:00 0:14 12:01");
    for ((at, byte), reason) in bytes.into_iter().zip(7..) {
        let mut stand = parked(CAPKEY, &good_write());
        stand.damage(Buffer::Slots, 0, 8 + 10 + at, &[byte]);
        stand.closes_refused(2, &[], reason);
    }
}

#[test]
fn a_unit_turns_capkey() {
    for ((at, byte), reason) in bytes_at("1:00 2:01 0:13").into_iter().zip([8, 9, 14]) {
        let mut stand = parked(NOSEC, &changed(&WRITE, at, &[byte]));
        stand.set_attributes(NOSEC, 1, 7);
        stand.closes_refused(0, &[], reason);
    }
}

#[test]
fn a_capability_expires_by_the_clock_of_the_close() {
    let command = changed(&WRITE, 11, &[100]);
    let mut stand = parked(CAPKEY, &command);
    stand.closes_refused(101, &[], 10);
    let mut stand = parked(CAPKEY, &command);
    assert_eq!(stand.close_at(0, 100, &[]), Answer::A2);
}

#[test]
fn reason_18() {
    for length in [0, 11, 13, 12 + 256, 65536 + 12] {
        parked_page(0x11, 12).closes_refused(0, &vec![0xff; length], 18);
    }
}

/// Every byte that is given turns a page to reason 19 when it differs.
#[test]
fn reason_19() {
    let pages: [(u16, Vec<u8>, &[usize]); 3] = [
        (0x11, lists::attributes(1, 9), &[0, 1, 2, 3, 4, 10, 11]),
        (0x14, set_key_page(5), &[0, 1, 2, 3, 5, 6, 7]),
        (0x12, exchange_page(5), &[0, 1, 2, 3, 4, 5, 6, 7]),
    ];
    for (page, data, given) in pages {
        for at in given {
            for bit in 0..8 {
                let mut wrong = data.clone();
                wrong[*at] ^= 1 << bit;
                parked_page(page, data.len()).closes_refused(0, &wrong, 19);
            }
        }
    }
    parked_page(0x11, 12).closes_refused(0, &lists::attributes(2, 9), 19);
    for version in [16, 17, 32, 255] {
        parked_page(0x14, 28).closes_refused(0, &set_key_page(version), 19);
    }
    for data in [[0x00, 0x15, 0x00, 0x01], [0x00, 0x14, 0x00, 0x00]] {
        let mut stand = Stand::new();
        stand.out(NOSEC, 0x12, &AUTH, &exchange_page(1));
        let next = stand.next_key(NOSEC);
        stand.park(NOSEC, &wrap(&out_cdb(0x15, 4), 0, &next));
        stand.closes_refused(0, &data, 19);
    }
}

/// The data of other commands are not judged.
#[test]
fn data_of_other_commands() {
    for length in [0, 1, 512, 5000] {
        let mut stand = parked(CAPKEY, &good_write());
        assert_eq!(stand.close(0, &vec![0xab; length]), Answer::A2);
    }
}
