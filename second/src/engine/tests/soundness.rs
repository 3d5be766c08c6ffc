//! What makes a record sound: document 01, "Records of 512 bytes". Each field
//! is spoiled by hand and the check made right again. What `show` tells of the
//! record must agree.

use super::*;

impl Stand {
    /// Whether the record is shown as an unsound one.
    pub fn is_shown_unsound(&self, shown: Shown) -> bool {
        show(&self.tables, shown)[0].contains(": unsound: ")
    }
}

/// A unit at step 1 with working keys 0 and 15, at place 2.
fn full_unit() -> Vec<u8> {
    let mut body = vec![0; 492];
    body[..8].copy_from_slice(&[0, 1, 0, 2, 0, 1, 0x80, 0x01]);
    body[15] = 1;
    body[16..132].fill(0x44);
    body[412..432].fill(0x55);
    body
}

fn unit_is_sound(body: &[u8]) -> bool {
    let mut stand = Stand::new();
    stand.damage(Buffer::Units, 2, 0, body);
    let is_sound = match stand.open(2, &[]) {
        Answer::A3(reason) => reason != 0x1b,
        other => panic!("{other:?}"),
    };
    assert_ne!(stand.is_shown_unsound(Shown::Unit(2)), is_sound);
    is_sound
}

/// Whether the unit is sound with each of these bytes.
fn with_bytes(body: &[u8], bytes: &str, is_sound: bool) {
    for (at, byte) in bytes_at(bytes) {
        let mut body = body.to_vec();
        body[at] = byte;
        assert_eq!(unit_is_sound(&body), is_sound, "{at}: {byte}");
    }
}

#[test]
fn unit_fields() {
    let unit = full_unit();
    assert!(unit_is_sound(&unit));
    let bad = "0:1 1:0 1:2 2:1 3:1 3:3 4:1 5:2 6:00 7:00 12:1 14:1 15:0 15:2 132:1 411:1 432:1 \
               433:1 433:9 434:1 491:1";
    with_bytes(&unit, bad, false);
    // A valid key may be zero.
    let fine = "5:0 6:90 7:03 8:9 11:9 16:0 71:0 72:0 111:0 112:0 431:0";
    with_bytes(&unit, fine, true);
}

#[test]
fn unit_at_step_0_has_no_next_pair() {
    let mut unit = full_unit();
    unit[15] = 0;
    assert!(!unit_is_sound(&unit));
    unit[72..112].fill(0);
    assert!(unit_is_sound(&unit));
    with_bytes(&unit, "72:1 91:1 92:1 111:1", false);
    // At step 1 the pair may itself be zero.
    with_bytes(&unit, "15:1", true);
}

#[test]
fn zero_keys_may_be_valid_and_unused_units_are_zero() {
    let mut unit = vec![0; 492];
    assert!(unit_is_sound(&unit));
    with_bytes(&unit, "0:1 2:1 3:1 4:1 8:1 100:1 491:1", false);
    unit[..8].copy_from_slice(&[0, 1, 0, 2, 0, 0, 0xff, 0xff]);
    assert!(unit_is_sound(&unit));
}

#[test]
fn every_byte_of_the_check_counts() {
    for at in 492..512 {
        let mut stand = Stand::new();
        stand.tables.units[at] ^= 0x10;
        assert_eq!(stand.open(NOSEC, &READ), refused(0x1b), "{at}");
        let mut stand = Stand::new();
        stand.park(NOSEC, &WRITE);
        stand.tables.slots[at] ^= 0x10;
        assert_eq!(stand.close(0, &[]), Answer::H3, "{at}");
        let mut stand = Stand::new();
        stand.tables.slots[at] ^= 0x10;
        assert_eq!(stand.open(NOSEC, &WRITE), Answer::A1 { slot: 1 }, "{at}");
    }
}

/// Whether slot 0 is open, by its close.
fn slot_is_open(mut stand: Stand) -> bool {
    let is_shown = show(&stand.tables, Shown::Slot(0))[0] == "slot 0: open";
    let is_open = stand.close(0, &[]) != Answer::H3;
    assert_eq!(is_shown, is_open);
    is_open
}

/// A slot with a bare WRITE(10), closed after a byte was changed.
#[test]
fn slot_fields() {
    let bad = "0:1 1:0 1:2 2:1 3:8 3:ff 4:1 5:0 5:9 5:b 5:57 5:64 5:65 6:1 7:0 7:f 7:41 8:28 \
               8:0a 8:7f 8:35 18:1 107:1 124:1 171:1 172:1 491:1";
    let fine = "0:0 3:1 3:7 5:58 7:11 7:40 8:2e 8:55 17:9 108:0 123:9";
    for (bytes, is_open) in [(bad, false), (fine, true)] {
        for (at, byte) in bytes_at(bytes) {
            let mut stand = Stand::new();
            stand.park(NOSEC, &WRITE);
            stand.damage(Buffer::Slots, 0, at, &[byte]);
            assert_eq!(slot_is_open(stand), is_open, "{at}: {byte}");
        }
    }
}

#[test]
fn free_slots_are_zero() {
    for at in [0, 1, 2, 8, 108, 172, 491] {
        let mut stand = Stand::new();
        stand.damage(Buffer::Slots, 0, at, &[1]);
        assert!(stand.is_shown_unsound(Shown::Slot(0)));
        assert_eq!(stand.park(NOSEC, &WRITE), 1, "{at}");
    }
}

/// A slot that holds together, with this command and token, is taken as open.
fn is_open(unit: u8, command: &[u8], token: &[u8]) -> bool {
    let mut stand = Stand::new();
    let head = [0, 1, 0, unit, 0, command.len() as u8, 0, token.len() as u8];
    for (at, bytes) in [(0, &head[..]), (8, command), (108, token)] {
        stand.damage(Buffer::Slots, 0, at, bytes);
    }
    slot_is_open(stand)
}

#[test]
fn slots_that_hold_together() {
    for length in 0..=64 {
        let fits = length >= 16;
        assert_eq!(is_open(0, &WRITE, &vec![5; length]), fits, "token {length}");
    }
    for length in 0..=100 {
        let fits = length == 10 || length == 88;
        let command = [&WRITE[..], &[0; 90]].concat();
        assert_eq!(is_open(0, &command[..length], &TOKEN), fits, "{length}");
    }
    for code in 0..=255 {
        let fits = [0x0a, 0x15, 0x2a, 0x2e, 0x55, 0x8a, 0xaa, 0xb5].contains(&code);
        let any = [6, 10, 12, 16].map(|length| is_open(0, &vec![code; length], &TOKEN));
        assert_eq!(any.contains(&true), fits, "{code:02x}h");
    }
    for unit in 0..=255 {
        assert_eq!(is_open(unit, &WRITE, &TOKEN), unit < 8, "unit {unit}");
    }
}
