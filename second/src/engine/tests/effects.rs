//! What a GOOD call does to the tables, to the byte: document 01, "Records of
//! 512 bytes" and "Effects". The records expected are written out by hand.

use super::*;

/// The start of every unit record here, up to the mask.
fn head(unit: u8, method: u8, mask: [u8; 2]) -> [u8; 8] {
    [0, 1, 0, unit, 0, method, mask[0], mask[1]]
}

#[test]
fn build() {
    let mut stand = Stand::new();
    let before = stand.tables.clone();
    assert_eq!(stand.build(6, 1, 0x0102_0304), DONE);
    let tag = (8, &[1, 2, 3, 4][..]);
    let expected = keeper_record(head(6, 1, [0, 0]), 0, (&AUTH, &GEN), &[tag]);
    assert_eq!(stand.unit_record(6), expected);
    assert_eq!(stand.tables.units[..512 * 6], before.units[..512 * 6]);
    assert_eq!(stand.tables.units[512 * 7..], before.units[512 * 7..]);
    // It replaces what stood there, unsound or used.
    stand.tables.units[512 * 6 + 100] ^= 1;
    stand.build(6, 1, 0x0102_0304);
    assert_eq!(stand.unit_record(6), expected);
    stand.build(CAPKEY, 0, 0);
    let fresh = keeper_record(head(1, 0, [0, 0]), 0, (&AUTH, &GEN), &[]);
    assert_eq!(stand.unit_record(CAPKEY), fresh);
}

#[test]
fn park_and_free() {
    let mut stand = Stand::new();
    let before = stand.tables.clone();
    let command = good_write();
    assert_eq!(stand.open(CAPKEY, &command), Answer::A1 { slot: 0 });
    let head = [0, 1, 0, 1, 0, 88, 0, 16];
    let expected = record(&[(0, &head), (8, &command), (108, &TOKEN)]);
    assert_eq!(stand.tables.slots[..512], expected);
    assert_eq!(stand.tables.slots[512..], before.slots[512..]);
    assert_eq!(stand.close(0, b"any data"), Answer::A2);
    assert_eq!(stand.tables, before);
    // A refusal at close frees the slot as well, and so does abort.
    stand.park(CAPKEY, &command);
    stand.damage(Buffer::Units, CAPKEY, 4, &[9]);
    let damaged = stand.tables.units.clone();
    assert_eq!(stand.close(0, &[]), refused(0x1b));
    assert_eq!(stand.tables.slots, before.slots);
    assert_eq!(stand.tables.units, damaged);
    assert_eq!(stand.tables.reply, before.reply);
}

#[test]
fn set_attributes() {
    let mut stand = Stand::new();
    stand.tables.reply.fill(0xee);
    let before = stand.tables.clone();
    let page = [0x00, 0x11, 0x00, 0x08, 0, 0, 0xfe, 0xdc, 0xba, 0x98, 0, 0];
    stand.out(CAPKEY, 0x11, &AUTH, &page);
    let (key, tag) = (working_key(), [0xfe, 0xdc, 0xba, 0x98]);
    let more: [(usize, &[u8]); 2] = [(8, &tag), (172, &key)];
    let expected = keeper_record(head(1, 0, [0x00, 0x08]), 0, (&AUTH, &GEN), &more);
    assert_eq!(stand.unit_record(CAPKEY), expected);
    assert_eq!(stand.tables.slots, before.slots);
    assert_eq!(stand.tables.reply, before.reply);
    assert_eq!(stand.tables.units[..512], before.units[..512]);
    assert_eq!(stand.tables.units[1024..], before.units[1024..]);
}

#[test]
fn set_key() {
    for version in 0..16 {
        let mut stand = Stand::new();
        stand.set_key(NOSEC, version as u8);
        let head = head(0, 0, (1u16 << version).to_be_bytes());
        let more = [(112 + 20 * version, &hmac_sha1(&GEN, &SEED)[..])];
        let expected = keeper_record(head, 7, (&AUTH, &GEN), &more);
        assert_eq!(stand.unit_record(NOSEC), expected, "version {version}");
    }
    // A version that is valid already gets a new key.
    let mut stand = Stand::new();
    let mut page = set_key_page(3);
    page[27] ^= 1;
    stand.out(CAPKEY, 0x14, &AUTH, &page);
    let key = hmac_sha1(&GEN, &page[8..]);
    assert_eq!(stand.unit_record(CAPKEY)[172..192], key);
    assert_eq!(stand.unit_record(CAPKEY)[6..8], [0x00, 0x08]);
}

#[test]
fn seed_exchange_and_change() {
    let mut stand = Stand::new();
    for agreed in [0x31, 0x32] {
        // The second exchange replaces the first.
        stand.out(CAPKEY, 0x12, &AUTH, &exchange_page(agreed));
        let expected = pending_record(head(1, 1, [0x00, 0x08]), 7, agreed, 172);
        assert_eq!(stand.unit_record(CAPKEY), expected);
    }
    let (authentication, generation) = next_keys(&GEN, 0x32);
    stand.out(CAPKEY, 0x15, &authentication, &lists::change());
    let expected = keeper_record(head(1, 1, [0, 0]), 7, (&authentication, &generation), &[]);
    assert_eq!(stand.unit_record(CAPKEY), expected);
    // The old working key is no longer valid, and the new master key rules.
    assert_eq!(stand.open(CAPKEY, &good_write()), refused(14));
    stand.out(CAPKEY, 0x14, &authentication, &set_key_page(3));
    let key = hmac_sha1(&generation, &SEED);
    assert_eq!(stand.unit_record(CAPKEY)[172..192], key);
}

/// While an exchange is pending, the current pair still makes the keys, and the
/// next one stays.
#[test]
fn pages_at_step_1() {
    let mut stand = Stand::new();
    stand.out(NOSEC, 0x12, &AUTH, &exchange_page(0x31));
    stand.set_key(NOSEC, 2);
    stand.set_attributes(NOSEC, 1, 9);
    let expected = pending_record(head(0, 1, [0x00, 0x04]), 9, 0x31, 152);
    assert_eq!(stand.unit_record(NOSEC), expected);
}

#[test]
fn reset() {
    let mut stand = Stand::new();
    let before = stand.tables.clone();
    for _ in 0..5 {
        stand.park(NOSEC, &WRITE);
    }
    stand.tables.slots[512 * 2 + 30] ^= 1;
    stand.tables.slots[512 * 9 + 511] ^= 1;
    assert_eq!(stand.run(Line::Reset), DONE);
    assert_eq!(stand.tables, before);
}

#[test]
fn open_takes_the_lowest_sound_free_slot() {
    let mut stand = Stand::new();
    stand.tables.slots[500] ^= 1;
    stand.tables.slots[512 * 2 + 2] ^= 1;
    for slot in [1].into_iter().chain(3..16) {
        assert_eq!(stand.park(NOSEC, &WRITE), slot);
    }
    let before = stand.tables.clone();
    assert_eq!(stand.open(NOSEC, &WRITE), Answer::A4);
    assert_eq!(stand.tables, before);
    assert_eq!(stand.run(Line::Abort { slot: 3 }), DONE);
    assert_eq!(stand.park(NOSEC, &WRITE), 3);
    assert_eq!(stand.tables, before);
    assert_eq!(stand.open(NOSEC, &WRITE), Answer::A4);
    // What takes no data needs no slot, and what is wrong is told first.
    assert_eq!(stand.open(NOSEC, &READ), Answer::A2);
    assert_eq!(stand.open(NOSEC, &in_cdb(0, 9)), Answer::A0 { count: 9 });
    assert_eq!(stand.open(CAPKEY, &WRITE), refused(6));
}
