//! Units under one key set, and what a call at one of them does to the others:
//! document 02, K4.

use super::*;

/// The stand's CAPKEY unit keeps the keys of two more: a CAPKEY unit of tag 5
/// and a NOSEC unit of tag 6.
pub const KEEPER: u32 = CAPKEY;
pub const SHARER: u32 = 3;
pub const NOSEC_SHARER: u32 = 4;
/// A NOSEC unit of own keys, the same as the stand's.
pub const OTHER: u32 = 6;

/// What `asked` builds a unit with; the stand's units have another identifier.
pub fn identifier(unit: u32) -> [u8; 16] {
    [0xd0 + unit as u8; 16]
}

/// With keys that are no unit's of the stand.
pub fn asked(unit: u32, method: u32, keeper: u32) -> Build {
    let master = Pair::new([0x11; 20], [0x22; 20]);
    let asked = Build::new(unit, method, unit + 2, identifier(unit), master);
    asked.with_keeper(keeper)
}

/// The command wrapped for the unit.
pub fn at(unit: u32, cdb: &[u8], version: u8, key: &[u8]) -> Vec<u8> {
    let mut descriptor = descriptor(version);
    if [SHARER, NOSEC_SHARER].contains(&unit) {
        descriptor.set_name(&identifier(unit));
    }
    descriptor.wrap(cdb, key, &TOKEN)
}

/// READ(10) for the unit, under working key 3.
pub fn read(unit: u32, key: &[u8]) -> Vec<u8> {
    at(unit, &READ, 3, key)
}

fn write(unit: u32) -> Vec<u8> {
    at(unit, &WRITE, 3, &working_key())
}

/// Set Key for the unit.
fn set_key(unit: u32, key: &[u8]) -> Vec<u8> {
    at(unit, &out_cdb(0x14, 28), 0, key)
}

impl Stand {
    pub fn sharing() -> Stand {
        let mut stand = Stand::new();
        stand.build(OTHER, 0, 7);
        assert_eq!(stand.ask(asked(SHARER, 1, KEEPER + 1)), DONE);
        assert_eq!(stand.ask(asked(NOSEC_SHARER, 0, KEEPER + 1)), DONE);
        stand
    }

    /// Carries out a page of OUT that is to be GOOD, and tells whose records
    /// are others now.
    pub fn out_at(&mut self, unit: u32, page: u16, key: &[u8], data: &[u8]) -> Vec<u32> {
        let before = self.tables.units.clone();
        let slot = self.park(unit, &at(unit, &out_cdb(page, data.len()), 0, key));
        assert_eq!(self.close(slot, data), DONE);
        let pairs = (0..).zip(before.chunks(512).zip(self.tables.units.chunks(512)));
        let changed = pairs.filter(|(_, (before, after))| before != after);
        changed.map(|(unit, _)| unit).collect()
    }

    /// Opens each command on its unit; the answers are to be these.
    fn answers(&mut self, expected: &[(u32, Vec<u8>, Answer)]) {
        for (unit, command, answer) in expected {
            assert_eq!(self.open(*unit, command), *answer, "unit {unit}");
        }
    }
}

/// Keys are the keeper's; method, tag and identifier are the unit's own.
#[test]
fn what_a_command_is_judged_by() {
    let mut stand = Stand::sharing();
    let key = working_key();
    stand.answers(&[
        (SHARER, read(SHARER, &key), Answer::A2),
        (SHARER, READ.to_vec(), refused(6)),
        (NOSEC_SHARER, READ.to_vec(), Answer::A2),
        (SHARER, read(KEEPER, &key), refused(13)),
        (KEEPER, read(SHARER, &key), refused(13)),
        (SHARER, at(SHARER, &READ, 4, &key), refused(14)),
        (SHARER, read(SHARER, &[0; 20]), refused(15)),
        (SHARER, read(SHARER, &AUTH), refused(15)),
    ]);
    for (tag, expected) in [(0u8, Answer::A2), (5, Answer::A2), (7, refused(12))] {
        let mut descriptor = descriptor(3);
        descriptor.set(TAG, tag);
        descriptor.set_name(&identifier(SHARER));
        let command = descriptor.wrap(&READ, &key, &TOKEN);
        assert_eq!(stand.open(SHARER, &command), expected, "tag {tag}");
    }
    for unit in [SHARER, NOSEC_SHARER] {
        // Not the keys that it was asked for with, nor those in its record.
        for key in [[0x11; 20], [0; 20], GEN] {
            assert_eq!(stand.open(unit, &set_key(unit, &key)), refused(15));
        }
        stand.park(unit, &set_key(unit, &AUTH));
    }
}

#[test]
fn a_nosec_keeper_of_a_capkey_sharer() {
    let mut stand = Stand::new();
    assert_eq!(stand.ask(asked(SHARER, 1, NOSEC + 1)), DONE);
    let command = read(SHARER, &working_key());
    stand.answers(&[
        (NOSEC, READ.to_vec(), Answer::A2),
        (SHARER, READ.to_vec(), refused(6)),
        (SHARER, command.clone(), refused(14)),
    ]);
    stand.set_key(NOSEC, 3);
    assert_eq!(stand.open(SHARER, &command), Answer::A2);
}

#[test]
fn set_key_at_a_sharer() {
    for unit in [SHARER, NOSEC_SHARER] {
        let mut stand = Stand::sharing();
        let changed = stand.out_at(unit, 0x14, &AUTH, &set_key_page(9));
        assert_eq!(changed, [KEEPER]);
        let (head, key) = ([0, 1, 0, 1, 0, 1, 0x02, 0x08], working_key());
        let keys = [(112 + 60, &key[..]), (112 + 180, &key)];
        let expected = keeper_record(head, 7, (&AUTH, &GEN), &keys);
        assert_eq!(stand.unit_record(KEEPER), expected);
        for unit in [KEEPER, SHARER] {
            let command = at(unit, &READ, 9, &working_key());
            assert_eq!(stand.open(unit, &command), Answer::A2);
        }
    }
}

/// S has the keeper's identifier in it, whichever unit the exchange is at.
#[test]
fn seed_exchange_and_change_at_sharers() {
    let mut stand = Stand::sharing();
    let (authentication, generation) = next_keys(&GEN, 0x31);
    let changed = stand.out_at(SHARER, 0x12, &AUTH, &exchange_page(0x31));
    assert_eq!(changed, [KEEPER]);
    let expected = pending_record([0, 1, 0, 1, 0, 1, 0x00, 0x08], 7, 0x31, 172);
    assert_eq!(stand.unit_record(KEEPER), expected);
    let changed = stand.out_at(NOSEC_SHARER, 0x15, &authentication, &lists::change());
    assert_eq!(changed, [KEEPER]);
    let (head, pair) = (
        [0, 1, 0, 1, 0, 1, 0, 0],
        (&authentication[..], &generation[..]),
    );
    assert_eq!(stand.unit_record(KEEPER), keeper_record(head, 7, pair, &[]));
}

#[test]
fn a_change_ends_the_keys_for_all() {
    for actor in [KEEPER, SHARER, NOSEC_SHARER] {
        let mut stand = Stand::sharing();
        let master = set_key(SHARER, &AUTH);
        stand.park(KEEPER, &write(KEEPER));
        stand.park(SHARER, &write(SHARER));
        stand.park(SHARER, &master);
        stand.out_at(SHARER, 0x12, &AUTH, &exchange_page(0x31));
        let (authentication, generation) = next_keys(&GEN, 0x31);
        stand.out_at(actor, 0x15, &authentication, &lists::change());
        assert_eq!(stand.close(0, &[]), refused(14));
        assert_eq!(stand.close(1, &[]), refused(14));
        assert_eq!(stand.close(2, &set_key_page(3)), refused(15));
        assert_eq!(stand.open(SHARER, &master), refused(15));
        stand.out_at(actor, 0x14, &authentication, &set_key_page(3));
        let key = hmac_sha1(&generation, &SEED);
        for unit in [KEEPER, SHARER] {
            let old = (unit, read(unit, &working_key()), refused(15));
            stand.answers(&[old, (unit, read(unit, &key), Answer::A2)]);
        }
    }
}

/// Page 0012h and Change go by the keeper's step.
#[test]
fn one_step_for_all() {
    let mut stand = Stand::sharing();
    let (next, _) = next_keys(&GEN, 0x31);
    let page = |key: &[u8]| at(SHARER, &in_cdb(0x12, 12), 0, key);
    let change = at(SHARER, &out_cdb(0x15, 4), 0, &next);
    stand.answers(&[
        (SHARER, page(&AUTH), refused(17)),
        (SHARER, change.clone(), refused(14)),
    ]);
    stand.out_at(NOSEC_SHARER, 0x12, &AUTH, &exchange_page(0x31));
    assert_eq!(stand.open(SHARER, &page(&AUTH)), Answer::A2);
    let slot = stand.park(SHARER, &change);
    stand.out_at(KEEPER, 0x15, &next, &lists::change());
    assert_eq!(stand.close(slot, &lists::change()), refused(14));
    stand.answers(&[
        (SHARER, page(&AUTH), refused(15)),
        (SHARER, page(&next), refused(17)),
    ]);
}

#[test]
fn attributes_stay_apart() {
    let mut stand = Stand::sharing();
    let (keeper, key) = (stand.unit_record(KEEPER), working_key());
    let changed = stand.out_at(SHARER, 0x11, &AUTH, &lists::attributes(0, 9));
    assert_eq!(changed, [SHARER]);
    assert_eq!(stand.unit_record(SHARER), sharer_record(0, 9));
    assert_eq!(stand.open(SHARER, &READ), Answer::A2);
    assert_eq!(stand.open(KEEPER, &READ), refused(6));
    let changed = stand.out_at(KEEPER, 0x11, &AUTH, &lists::attributes(0, 8));
    assert_eq!(changed, [KEEPER]);
    assert_eq!(stand.unit_record(KEEPER)[12..492], keeper[12..492]);
    stand.out_at(SHARER, 0x11, &AUTH, &lists::attributes(1, 9));
    stand.answers(&[
        (KEEPER, READ.to_vec(), Answer::A2),
        (SHARER, READ.to_vec(), refused(6)),
        (SHARER, read(SHARER, &key), Answer::A2),
    ]);
}

/// The sharer's record by hand.
pub fn sharer_record(method: u8, tag: u8) -> Vec<u8> {
    let (head, tag) = ([0, 1, 0, 3, 0, method], [0, 0, 0, tag]);
    record(&[
        (0, &head),
        (8, &tag),
        (16, &identifier(SHARER)),
        (432, &[0, 2]),
    ])
}

#[test]
fn the_attributes_page_shows_the_keepers_mask() {
    let mut stand = Stand::sharing();
    stand.out_at(SHARER, 0x14, &AUTH, &set_key_page(15));
    let page = in_cdb(0x11, 512);
    let wrapped = at(SHARER, &page, 3, &working_key());
    for (unit, command, shown) in [
        (SHARER, wrapped, "001100080001000000058008"),
        (NOSEC_SHARER, page, "001100080000000000068008"),
    ] {
        assert_eq!(stand.open(unit, &command), Answer::A0 { count: 12 });
        assert_eq!(hex::encode(&stand.tables.reply[..12]), shown);
    }
}

/// Sharers go by the keys that their keeper has now.
#[test]
fn a_keeper_is_built_anew() {
    let mut stand = Stand::sharing();
    stand.park(SHARER, &write(SHARER));
    stand.park(SHARER, &set_key(SHARER, &AUTH));
    let own = asked(KEEPER, 0, 0);
    assert_eq!(stand.ask(own), DONE);
    assert_eq!(stand.close(0, &[]), refused(14));
    assert_eq!(stand.close(1, &set_key_page(3)), refused(15));
    let authentication = own.master.authentication;
    stand.out_at(SHARER, 0x14, &authentication, &set_key_page(3));
    let key = hmac_sha1(&own.master.generation, &SEED);
    assert_eq!(stand.open(SHARER, &read(SHARER, &key)), Answer::A2);
    // S has its new identifier in it.
    stand.out_at(NOSEC_SHARER, 0x12, &authentication, &exchange_page(0x31));
    let seed = [vec![0x31; 256], identifier(KEEPER).to_vec()].concat();
    let next = hmac_sha1(&own.master.generation, &seed);
    assert_eq!(stand.unit_record(KEEPER)[92..112], next);
}

/// As a sharer it loses its own, until it has own keys again.
#[test]
fn a_keeper_is_built_as_a_sharer() {
    let mut stand = Stand::sharing();
    assert_eq!(stand.ask(asked(KEEPER, 0, OTHER + 1)), DONE);
    assert_eq!(stand.open(KEEPER, &READ), Answer::A2);
    for unit in [SHARER, NOSEC_SHARER] {
        assert_eq!(stand.open(unit, &READ), refused(0x1b));
        // Nor can it be named again.
        assert_eq!(stand.ask(asked(unit, 0, KEEPER + 1)), Answer::H5);
    }
    stand.build(KEEPER, 1, 7);
    assert_eq!(stand.open(NOSEC_SHARER, &READ), Answer::A2);
    let command = read(SHARER, &working_key());
    assert_eq!(stand.open(SHARER, &command), refused(14));
    stand.out_at(SHARER, 0x14, &AUTH, &set_key_page(3));
    assert_eq!(stand.open(SHARER, &command), Answer::A2);
}
