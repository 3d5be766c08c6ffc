//! H1 to H5 and their order.

use super::*;

/// Tables of which one has so many bytes more or fewer.
fn misfits() -> Vec<Tables> {
    let mut all = Vec::new();
    for buffer in BUFFERS {
        for change in [-512, -1, 1, 512] {
            let mut tables = Stand::new().tables;
            let length = tables.get(buffer).len().saturating_add_signed(change);
            tables.buffer(buffer).resize(length, 0);
            all.push(tables);
        }
    }
    all
}

#[test]
fn h1_comes_before_all() {
    let lines = [
        Line::open(NOSEC, 0, READ, TOKEN),
        Line::open(9, 0, [], []),
        Line::close(99, 0, []),
    ];
    let engine: Engine = Engine::default();
    for tables in misfits() {
        for line in &lines {
            let mut after = tables.clone();
            assert_eq!(after.run(&engine, line), Some(Answer::H1));
            assert_eq!(after, tables);
        }
    }
}

#[test]
fn h1_in_build_abort_and_reset() {
    let asked = Build::new(8, 0, 0, ID, Pair::new(AUTH, GEN)).with_keeper(9);
    let engine: Engine = Engine::default();
    for length in [0, 512, 4095, 4097, 8191, 8192, 8193] {
        let mut bytes = vec![0x55; length];
        assert_eq!(engine.build(&mut bytes, &asked), Answer::H1);
        if length != 8192 {
            assert_eq!(engine.abort(&mut bytes, 16), Answer::H1);
            assert_eq!(engine.reset(&mut bytes), Answer::H1);
        }
        assert_eq!(bytes, vec![0x55; length]);
    }
}

#[test]
fn h2_tokens() {
    for length in 0..=100 {
        let mut stand = Stand::new();
        let before = stand.tables.clone();
        for unit in [NOSEC, UNUSED, 8] {
            let answer = stand.run(Line::open(unit, 0, READ, vec![1; length]));
            let fits = (16..=64).contains(&length);
            let expected = match (fits, unit) {
                (false, _) => Answer::H2,
                (true, NOSEC) => Answer::A2,
                (true, _) => refused(1),
            };
            assert_eq!(answer, expected, "{length}");
        }
        assert_eq!(stand.tables, before);
    }
}

#[test]
fn h3_slots() {
    let mut stand = Stand::new();
    stand.park(NOSEC, &WRITE);
    stand.park(NOSEC, &WRITE);
    stand.tables.slots[512 + 511] ^= 1;
    let before = stand.tables.clone();
    for slot in [1, 2, 15, 16, 17, 256, 65536, u32::MAX] {
        assert_eq!(stand.close(slot, &[]), Answer::H3, "{slot}");
        assert_eq!(stand.run(Line::Abort { slot }), Answer::H3, "{slot}");
    }
    assert_eq!(stand.tables, before);
    assert_eq!(stand.run(Line::Abort { slot: 0 }), DONE);
}

/// A command that takes no data makes its slot unsound, so H3 comes, not H4.
#[test]
fn h4_never_comes() {
    let mut stand = Stand::new();
    stand.park(NOSEC, &WRITE);
    stand.damage(Buffer::Slots, 0, 8, &[0x28]);
    assert_eq!(stand.close(0, &[]), Answer::H3);
}

#[test]
fn h5_build() {
    let mut stand = Stand::new();
    let before = stand.tables.clone();
    for (unit, method) in [(8, 0), (256, 1), (u32::MAX, 0), (0, 2), (0, 256), (8, 2)] {
        assert_eq!(stand.build(unit, method, 0), Answer::H5);
    }
    assert_eq!(stand.tables, before);
    assert_eq!(stand.build(7, 1, u32::MAX), DONE);
}
