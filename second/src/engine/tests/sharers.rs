//! Records that name a keeper, and how they are built: document 02, K4.

use super::*;

impl Stand {
    /// Writes bytes 432-433 of a record and makes its check right.
    fn store_field(&mut self, unit: u32, field: u16) {
        self.damage(Buffer::Units, unit, 432, &field.to_be_bytes());
    }

    fn lay_record(&mut self, unit: u32, record: &[u8]) {
        self.tables.units[512 * unit as usize..][..512].copy_from_slice(record);
    }

    fn is_sound(&mut self, unit: u32) -> bool {
        let is_sound = self.open(unit, &[]) != refused(0x1b);
        let shown = Shown::Unit(unit as usize);
        assert_ne!(self.is_shown_unsound(shown), is_sound);
        is_sound
    }
}

#[test]
fn a_sharer_is_built() {
    let before = Stand::new();
    let mut stand = Stand::sharing();
    let expected = sharer_record(1, 5);
    assert_eq!(stand.unit_record(SHARER), expected);
    for unit in [NOSEC, KEEPER, 2, UNUSED, 7] {
        assert_eq!(stand.unit_record(unit), before.unit_record(unit), "{unit}");
    }
    // Whatever keys are asked for, and whatever stood there.
    let mut other = asked(SHARER, 1, KEEPER + 1);
    other.master.authentication = [0xff; 20];
    other.master.generation = [0; 20];
    for at in [0, 100, 433, 511] {
        stand.tables.units[512 * SHARER as usize + at] ^= 1;
        assert_eq!(stand.ask(other), DONE);
        assert_eq!(stand.unit_record(SHARER), expected);
    }
}

/// Bytes that make a sharer unsound, its check being right: its own mask, step
/// and keys, and what no sharer's record has.
#[test]
fn bytes_of_a_sharer() {
    let bad = "3:4 5:2 6:80 7:08 12:1 15:1 15:2 32:1 51:1 52:1 71:1 72:1 91:1 92:1 111:1 112:1 \
               131:1 172:1 412:1 431:1 432:1 434:1 435:1 491:1";
    for (bytes, is_sound) in [(bad, false), ("5:0 8:9 11:9 16:9 31:9", true)] {
        for (at, byte) in bytes_at(bytes) {
            let mut stand = Stand::sharing();
            stand.damage(Buffer::Units, SHARER, at, &[byte]);
            assert_eq!(stand.is_sound(SHARER), is_sound, "{at}: {byte}");
            assert!(stand.is_sound(KEEPER) && stand.is_sound(NOSEC_SHARER));
        }
    }
    for at in 492..512 {
        let mut stand = Stand::sharing();
        stand.tables.units[512 * SHARER as usize + at] ^= 1;
        assert!(!stand.is_sound(SHARER), "{at}");
    }
    // Mask and step with the keys that they call for are no better.
    let mut stand = Stand::sharing();
    let own = stand.unit_record(KEEPER);
    stand.lay_record(SHARER, &own);
    stand.damage(Buffer::Units, SHARER, 3, &[SHARER as u8]);
    assert!(stand.is_sound(SHARER));
    stand.store_field(SHARER, KEEPER as u16 + 1);
    assert!(!stand.is_sound(SHARER));
}

/// Units 0, 1 and 6 have own keys, 3 and 4 share them, the others are unused.
#[test]
fn the_field_of_a_sharer() {
    let mut stand = Stand::sharing();
    for field in (0..=270).chain([512, 0x0701, 0x8001, u16::MAX]) {
        stand.store_field(SHARER, field);
        let sound = [0, 1, 2, 7].contains(&field);
        assert_eq!(stand.is_sound(SHARER), sound, "{field}");
    }
    stand.store_field(UNUSED, OTHER as u16 + 1);
    assert!(!stand.is_sound(UNUSED));
}

/// With 0 in the field, a sharer's zeros are its own keys.
#[test]
fn a_sharer_without_its_field() {
    let mut stand = Stand::sharing();
    stand.store_field(SHARER, 0);
    stand.out_at(SHARER, 0x14, &[0; 20], &set_key_page(3));
    let key = hmac_sha1(&[0; 20], &SEED);
    assert_eq!(stand.open(SHARER, &read(SHARER, &key)), Answer::A2);
}

/// A sharer goes down with its keeper, at open and at close, and comes back
/// with it.
#[test]
fn a_lost_keeper() {
    let losses: [fn(&mut Stand); 5] = [
        |stand| stand.tables.units[512 * KEEPER as usize + 500] ^= 1,
        |stand| stand.damage(Buffer::Units, KEEPER, 5, &[2]),
        |stand| stand.damage(Buffer::Units, KEEPER, 434, &[1]),
        |stand| stand.lay_record(KEEPER, &record(&[])),
        |stand| assert_eq!(stand.ask(asked(KEEPER, 1, OTHER + 1)), DONE),
    ];
    for lose in losses {
        let mut stand = Stand::sharing();
        let kept = stand.unit_record(KEEPER);
        let write = at(SHARER, &WRITE, 3, &working_key());
        stand.park(SHARER, &write);
        stand.park(NOSEC_SHARER, &WRITE);
        lose(&mut stand);
        let units = stand.tables.units.clone();
        for command in [&[][..], &[0x7f], &READ, &write] {
            assert_eq!(stand.open(SHARER, command), refused(0x1b));
            assert_eq!(stand.open(NOSEC_SHARER, command), refused(0x1b));
        }
        assert_eq!(stand.close(0, &[]), refused(0x1b));
        assert_eq!(stand.close(1, &[]), refused(0x1b));
        assert_eq!(stand.tables.units, units);
        assert_eq!(stand.tables.slots, Stand::new().tables.slots);
        stand.lay_record(KEEPER, &kept);
        let command = read(SHARER, &working_key());
        assert_eq!(stand.open(SHARER, &command), Answer::A2);
    }
}

#[test]
fn a_sharer_keeps_no_keys() {
    let mut stand = Stand::sharing();
    assert_eq!(stand.ask(asked(7, 1, KEEPER + 1)), DONE);
    stand.store_field(7, SHARER as u16 + 1);
    assert!(!stand.is_sound(7) && stand.is_sound(SHARER));
    // Two that name each other.
    stand.store_field(SHARER, 7 + 1);
    assert!(!stand.is_sound(7) && !stand.is_sound(SHARER));
}

#[test]
fn h5_for_a_keeper() {
    let mut stand = Stand::sharing();
    stand.build(7, 1, 7);
    stand.tables.units[512 * 7 + 511] ^= 1;
    let before = stand.tables.clone();
    let out_of_range = [9, 10, 255, 256, 258, 65536, 65536 + 2, 1 << 31, u32::MAX];
    for unit in [NOSEC, KEEPER, 2, SHARER, UNUSED, 7] {
        for field in out_of_range {
            assert_eq!(stand.ask(asked(unit, 1, field)), Answer::H5, "{field}");
        }
        // Its own number; one that is unsound, unused, a sharer.
        for keeper in [unit, 7, 5, 2, SHARER, NOSEC_SHARER] {
            assert_eq!(stand.ask(asked(unit, 1, keeper + 1)), Answer::H5);
        }
        // Unit and method count with a right keeper too.
        assert_eq!(stand.ask(asked(unit, 2, OTHER + 1)), Answer::H5);
        assert_eq!(stand.ask(asked(unit + 8, 1, OTHER + 1)), Answer::H5);
        assert_eq!(stand.tables, before);
    }
    for unit in [NOSEC, KEEPER, 2, SHARER, UNUSED, 7] {
        stand.tables = before.clone();
        assert_eq!(stand.ask(asked(unit, 0, OTHER + 1)), DONE, "{unit}");
        assert_eq!(stand.unit_record(unit)[432..434], [0, 7]);
        assert!(stand.is_sound(unit));
    }
}
