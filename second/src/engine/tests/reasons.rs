//! Every reason that an open can give, and that a refusal changes nothing.

use super::*;

#[test]
fn reasons_1_and_1b() {
    let mut stand = Stand::new();
    for unit in [UNUSED, 8, 256, 65537, u32::MAX] {
        stand.refuses(unit, 0, &[], 1);
    }
    stand.tables.units[511] = 0;
    stand.refuses(NOSEC, 0, &[], 0x1b);
    // An unused record that is unsound is not unused.
    stand.damage(Buffer::Units, UNUSED, 200, &[1]);
    stand.refuses(UNUSED, 0, &[], 0x1b);
}

#[test]
fn reasons_2_and_3() {
    let mut stand = Stand::new();
    for unit in [NOSEC, CAPKEY] {
        stand.refuses(unit, 0, &[], 2);
        for code in [0x01, 0x7f, 0x60, 0xc0, 0xff] {
            stand.refuses(unit, 0, &[code; 10], 2);
        }
        for length in [1, 5, 7, 77, 83, 85, 100, 300] {
            stand.refuses(unit, 0, &vec![0; length], 3);
        }
        stand.refuses(unit, 0, &[0xa2; 10], 3);
    }
}

#[test]
fn reason_4() {
    let mut stand = Stand::new();
    for cdb in [in_cdb(0, 0), out_cdb(0x15, 4)] {
        for (at, byte) in bytes_at("1:06 1:ef 2:01 3:99 4:80") {
            let mut bytes = cdb.clone();
            bytes[at] = byte;
            stand.refuses(NOSEC, 0, &bytes, 4);
            stand.refuses(CAPKEY, 0, &[bytes, vec![0; 78]].concat(), 4);
        }
    }
    stand.refuses(NOSEC, 0, &in_cdb(0x14, 0), 4);
    stand.refuses(NOSEC, 0, &out_cdb(0x13, 0), 4);
    // The other bits of byte 4, and bytes 5, 10 and 11, are not judged.
    let mut free = in_cdb(0, 0);
    for (at, byte) in bytes_at("4:7f 5:ff 10:ff 11:ff") {
        free[at] = byte;
    }
    assert_eq!(stand.open(CAPKEY, &free), DONE);
}

#[test]
fn reason_6() {
    let mut stand = Stand::new();
    stand.refuses(CAPKEY, 0, &WRITE, 6);
    stand.refuses(CAPKEY, 0, &in_cdb(0x11, 12), 6);
    for unit in [NOSEC, CAPKEY] {
        stand.refuses(unit, 0, &out_cdb(0x14, 28), 6);
        stand.refuses(unit, 0, &in_cdb(0x12, 12), 6);
    }
}

/// A WRITE(10) with one byte of the descriptor changed: refused for these
/// reasons, and parked.
fn one_byte(unit: u32, wrong: &[(Reason, &str)], right: &str) {
    let mut stand = Stand::new();
    for (reason, bytes) in wrong {
        for (at, byte) in bytes_at(bytes) {
            stand.refuses(unit, 100, &changed(&WRITE, at, &[byte]), *reason);
        }
    }
    for (at, byte) in bytes_at(right) {
        let answer = stand.open_at(unit, 100, &changed(&WRITE, at, &[byte]));
        assert!(matches!(answer, Answer::A1 { .. }), "{at}: {answer:?}");
    }
}

#[test]
fn reasons_7_to_13() {
    let wrong = [
        (7, "0:03 0:23"),
        (8, "1:00 1:02"),
        (9, "2:01 5:00 5:02"),
        (10, "11:63"),
        (11, "32:b8"),
        (12, "36:01 39:08"),
        (13, "40:00 40:02 41:0f 41:11 42:00 57:00"),
    ];
    one_byte(
        CAPKEY,
        &wrong,
        "11:64 12:1 31:1 32:40 33:ff 35:ff 39:7 40:f1",
    );
}

/// On a NOSEC unit a wrapped working row is judged by 7, 8 above 1 and 10 to 13.
#[test]
fn wrapped_on_nosec() {
    let wrong = [
        (7, "0:03"),
        (8, "1:02 1:ff"),
        (10, "11:63"),
        (11, "32:b8"),
        (12, "39:08"),
        (13, "40:02 57:00"),
    ];
    one_byte(NOSEC, &wrong, "0:1f 1:00 5:02 2:ff");
    let mut stand = Stand::new();
    let mut spoiled = good_write();
    spoiled[87] ^= 1;
    stand.park(NOSEC, &spoiled);
    stand.refuses(CAPKEY, 0, &spoiled, 15);
}

#[test]
fn open_rows_skip_6_to_15() {
    let mut stand = Stand::new();
    for garbage in [[0x00; 78], [0xff; 78]] {
        for unit in [NOSEC, CAPKEY] {
            for (code, length) in [(0x12, 6), (0xa0, 12)] {
                let cdb = [vec![code], vec![0xff; length - 1]].concat();
                assert_eq!(stand.open(unit, &cdb), Answer::A2);
                let wrapped = [&cdb[..], &garbage].concat();
                assert_eq!(stand.open_at(unit, u64::MAX, &wrapped), Answer::A2);
            }
            let wrapped = [&in_cdb(0x10, 20)[..], &garbage].concat();
            assert_eq!(stand.open(unit, &wrapped), Answer::A0 { count: 20 });
        }
    }
}

/// The key of a row: document 01, after the table of reasons.
#[test]
fn reasons_14_and_15() {
    let mut stand = Stand::new();
    stand.set_key(CAPKEY, 0);
    let none = [0; 20];
    for version in [1, 2, 4, 15] {
        stand.refuses(CAPKEY, 0, &wrap(&WRITE, version, &none), 14);
    }
    for key in [AUTH, GEN, none] {
        stand.refuses(CAPKEY, 0, &wrap(&WRITE, 3, &key), 15);
    }
    let set_key = out_cdb(0x14, 28);
    for unit in [CAPKEY, NOSEC] {
        for version in 1..16 {
            stand.refuses(unit, 0, &wrap(&set_key, version, &AUTH), 14);
        }
        for key in [working_key(), GEN, none] {
            stand.refuses(unit, 0, &wrap(&set_key, 0, &key), 15);
        }
    }
}

#[test]
fn change_wants_the_next_key() {
    let mut stand = Stand::new();
    let change = out_cdb(0x15, 4);
    for key in [AUTH, [0; 20]] {
        stand.refuses(CAPKEY, 0, &wrap(&change, 0, &key), 14);
    }
    stand.out(CAPKEY, 0x12, &AUTH, &exchange_page(9));
    let next = stand.next_key(CAPKEY);
    stand.refuses(CAPKEY, 0, &wrap(&change, 0, &AUTH), 15);
    stand.refuses(CAPKEY, 0, &wrap(&change, 1, &next), 14);
    // No other row takes the next key.
    stand.refuses(CAPKEY, 0, &wrap(&out_cdb(0x14, 28), 0, &next), 15);
    stand.park(CAPKEY, &wrap(&change, 0, &next));
}

#[test]
fn reasons_16_and_17() {
    let mut stand = Stand::new();
    for (page, total) in [(0x11, 12), (0x12, 264), (0x14, 28)] {
        for wrong in [0, total - 1, total + 1, total + 256, total + (1 << 24)] {
            stand.refuses(NOSEC, 0, &wrap(&out_cdb(page, wrong), 0, &AUTH), 16);
        }
        stand.park(NOSEC, &wrap(&out_cdb(page, total), 0, &AUTH));
    }
    let command = wrap(&in_cdb(0x12, 12), 0, &AUTH);
    stand.refuses(NOSEC, 0, &command, 17);
    stand.out(NOSEC, 0x12, &AUTH, &exchange_page(9));
    assert_eq!(stand.open(NOSEC, &command), Answer::A2);
    let next = stand.next_key(NOSEC);
    stand.refuses(NOSEC, 0, &wrap(&out_cdb(0x15, 5), 0, &next), 16);
}

/// Any two faults of a command on the CAPKEY unit: the lower reason counts.
#[test]
fn the_first_reason_counts() {
    // The descriptor's bytes for reasons 7 to 14; the value is left unsigned,
    // which is reason 15 by itself.
    let faults = bytes_at("0:23 1:00 5:02 11:63 32:48 36:07 41:00 0:14");
    let mut stand = Stand::new();
    let cdb = [0x2e, 0, 0, 0, 0, 0, 0, 0, 0, 0];
    for (low, (at, byte)) in faults.iter().enumerate() {
        let first = 7 + low as Reason;
        let one = descriptor(3).with(*at, &[*byte]);
        stand.refuses(CAPKEY, 100, &[&cdb[..], &one.0, &[0; 20]].concat(), first);
        for (at, byte) in &faults[low + 1..] {
            // Reasons 7 and 14 are seen in one byte.
            if *at != 0 || first != 7 {
                let two = one.with(*at, &[*byte]);
                stand.refuses(CAPKEY, 100, &[&cdb[..], &two.0, &[0; 20]].concat(), first);
            }
        }
    }
}

/// Reasons 15, 16 and those before them, on a master row.
#[test]
fn the_total_is_judged_last() {
    let mut stand = Stand::new();
    stand.refuses(NOSEC, 0, &out_cdb(0x14, 27), 6);
    for (cdb, last) in [(out_cdb(0x14, 27), 16), (in_cdb(0x12, 0), 17)] {
        for (version, key, reason) in [(1, AUTH, 14), (0, GEN, 15), (0, AUTH, last)] {
            stand.refuses(NOSEC, 0, &wrap(&cdb, version, &key), reason);
        }
    }
}

/// All four bytes of a tag count.
#[test]
fn wide_tags() {
    let mut stand = Stand::new();
    for tag in [[1, 0, 0, 7], [0, 1, 0, 7], [0, 0, 1, 7]] {
        stand.refuses(CAPKEY, 0, &changed(&WRITE, 36, &tag), 12);
    }
}
