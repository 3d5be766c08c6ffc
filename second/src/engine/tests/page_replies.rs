//! The pages that SECURITY PROTOCOL IN answers, written out from document 01
//! and, for byte 4 of the Capabilities page, document 02, K4.

use super::*;

/// The page of rows: operation code, 00h, page, permission byte and 01h for
/// master, ascending.
const ROWS: &str = "001300ba\
    000000000000 030000000000 040000004800 080000008000 0a0000004000 120000000000 150000001000 \
    1a0000002000 250000008000 280000008000 2a0000004000 2e000000c000 2f0000008000 350000004000 \
    550000001000 5a0000002000 880000008000 8a0000004000 a00000000000 a20000000000 a20000010000 \
    a20000100000 a20000112000 a20000120801 a20000130000 a80000008000 aa0000004000 b50000110801 \
    b50000120801 b50000140801 b50000150801";

/// Pages as the NOSEC unit answers them.
fn pages() -> [(u16, String); 5] {
    [
        (0x00, "0000000c000000010010001100120013".to_string()),
        (0x01, "000100080011001200140015".to_string()),
        (0x10, "00100010d000000200000001000100010001000e".to_string()),
        (0x11, "001100080000000000070000".to_string()),
        (0x13, ROWS.replace(' ', "")),
    ]
}

#[test]
fn attributes_show_method_tag_and_mask() {
    let mut stand = Stand::new();
    stand.set_key(CAPKEY, 15);
    let command = changed(&in_cdb(0x11, 12), 32, &[0x20]);
    assert_eq!(stand.open(CAPKEY, &command), Answer::A0 { count: 12 });
    let shown = hex::encode(&stand.tables.reply[..12]);
    assert_eq!(shown, "001100080001000000078008");
}

#[test]
fn the_allocation_length_cuts() {
    for (code, whole) in pages() {
        for allocation in [
            0, 1, 4, 11, 12, 13, 19, 20, 189, 190, 191, 512, 65536, 0xffffffff,
        ] {
            let mut stand = Stand::new();
            stand.tables.reply.fill(0xee);
            let before = stand.tables.clone();
            let count = allocation.min(whole.len() / 2);
            let answer = stand.open(NOSEC, &in_cdb(code, allocation));
            assert_eq!(answer, Answer::A0 { count }, "{code:02x}h, {allocation}");
            let reply = &stand.tables.reply;
            assert_eq!(hex::encode(&reply[..count]), whole[..2 * count]);
            assert!(reply[count..].iter().all(|byte| *byte == 0xee));
            assert_eq!(stand.tables.units, before.units);
            assert_eq!(stand.tables.slots, before.slots);
        }
    }
}

#[test]
fn page_0012h_is_run_elsewhere() {
    let mut stand = Stand::new();
    stand.out(NOSEC, 0x12, &AUTH, &exchange_page(1));
    let before = stand.tables.clone();
    let command = wrap(&in_cdb(0x12, 512), 0, &AUTH);
    assert_eq!(stand.open(NOSEC, &command), Answer::A2);
    assert_eq!(stand.tables, before);
}
