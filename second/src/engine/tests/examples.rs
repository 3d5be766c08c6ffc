//! Document 01, "Examples on the edges".

use super::*;

/// Those that the listing starts with: first the run-only ones, then a) to l).
#[test]
fn in_the_listing() {
    let mut world = World::new(0, Vec::<Answer>::new());
    world.run_only_examples();
    let parked = |slot| Answer::A1 { slot };
    let writes = (0..16).map(parked).collect();
    let expected = [
        vec![DONE],
        writes,
        vec![Answer::A4, DONE, parked(3), DONE],
        vec![parked(0), parked(1), DONE, refused(12)],
    ];
    assert_eq!(world.watch, expected.concat());
    world.watch.clear();
    world.lettered_examples();
    let good = Answer::A2;
    let expected = [
        vec![DONE, parked(0), DONE],              // build, Set Key
        vec![good, refused(10), good],            // a, b, c
        vec![refused(11), parked(0), DONE],       // d, e
        vec![good, parked(0), DONE, refused(12)], // f, Set Attributes, g
        vec![good, good, refused(3), refused(2)], // h, i, j
        vec![Answer::A0 { count: 5 }, DONE],      // k, l
    ];
    assert_eq!(world.watch, expected.concat());
}

/// The answer to a READ(10) on the CAPKEY unit with changed bytes.
fn read(clock: u64, at: usize, bytes: &[u8]) -> Answer {
    Stand::new().open_at(CAPKEY, clock, &changed(&READ, at, bytes))
}

/// Expirations have 48 bits, clocks 64, and all of them count.
#[test]
fn wide_expirations_and_clocks() {
    for (expiration, clock, expired) in [
        ([0x00, 0x01, 0, 0, 0, 0x05], 0x0001_0000_0005, false),
        ([0x00, 0x01, 0, 0, 0, 0x05], 0x0001_0000_0006, true),
        ([0x80, 0x00, 0, 0, 0, 0x00], 0x7fff_ffff_ffff, false),
        ([0xff; 6], 0xffff_ffff_ffff, false),
        ([0xff; 6], 0x0001_0000_0000_0000, true),
        ([0, 0, 0, 0, 0, 9], 0x0001_0000_0000_0005, true),
        ([0, 0, 0, 0, 0, 9], 0x0001_0000_0005, true),
    ] {
        let expected = if expired { refused(10) } else { Answer::A2 };
        assert_eq!(read(clock, 6, &expiration), expected);
    }
}

#[test]
fn permissions_and_tags() {
    let both = [0x2e, 0, 0, 0, 0, 0, 0, 0, 0, 0];
    let mut stand = Stand::new();
    for (bits, expected) in [
        (0x40, refused(11)),
        (0x80, refused(11)),
        (0xc0, Answer::A1 { slot: 0 }),
    ] {
        assert_eq!(stand.open(CAPKEY, &changed(&both, 32, &[bits])), expected);
    }
    for tag in [0, 7] {
        assert_eq!(read(0, 36, &[0, 0, 0, tag]), Answer::A2);
    }
}

#[test]
fn k_l_allocation() {
    let mut stand = Stand::new();
    stand.tables.reply.fill(0xee);
    assert_eq!(stand.open(CAPKEY, &in_cdb(0, 0)), DONE);
    assert_eq!(stand.tables.reply, [0xee; 512]);
    assert_eq!(stand.open(CAPKEY, &in_cdb(0, 5)), Answer::A0 { count: 5 });
    assert_eq!(stand.tables.reply[..5], [0x00, 0x00, 0x00, 0x0c, 0x00]);
    assert_eq!(stand.tables.reply[5..], [0xee; 507]);
}

#[test]
fn a_tag_changes_under_a_parked_write() {
    for unit in [NOSEC, CAPKEY] {
        let mut stand = Stand::new();
        let slot = stand.park(unit, &changed(&WRITE, 36, &[0, 0, 0, 7]));
        stand.set_attributes(unit, unit as u16, 8);
        assert_eq!(stand.close(slot, &[]), refused(12));
        assert_eq!(stand.close(slot, &[]), Answer::H3);
    }
}
