//! The pages of SECURITY PROTOCOL IN that are answered here: document 01,
//! "Pages", and document 02, K4.

use crate::engine::codes::{self, Need, ROWS};
use crate::engine::records::Member;

/// The whole page, before it is cut to the allocation length. Page 0012h is
/// the crypto block's and has no bytes here.
pub fn page(code: u16, member: &Member) -> Vec<u8> {
    let parameters = match code {
        0x0000 => codes_of(codes::IN),
        0x0001 => codes_of(codes::OUT),
        0x0010 => capabilities(),
        0x0011 => attributes(member),
        0x0013 => rows(),
        other => unreachable!("page {other:04x}h is not answered here"),
    };
    let length = parameters.len() as u16;
    [&code.to_be_bytes(), &length.to_be_bytes(), &parameters[..]].concat()
}

/// The codes of the pages that a command lists.
fn codes_of(command: u8) -> Vec<u8> {
    let listed = ROWS.iter().filter(|row| row.code == command);
    let pages = listed.filter_map(|row| row.page);
    pages.flat_map(u16::to_be_bytes).collect()
}

fn capabilities() -> Vec<u8> {
    vec![
        0xd0, 0x00, 0x00, 0x02, 0x00, 0x00, 0x00, 0x01, //
        0x00, 0x01, 0x00, 0x01, 0x00, 0x01, 0x00, 0x0e,
    ]
}

/// Method and tag are the unit's, the mask its keeper's.
fn attributes(member: &Member) -> Vec<u8> {
    let method = member.unit.method.number().to_be_bytes();
    let (tag, mask) = (
        member.unit.tag.to_be_bytes(),
        member.keeper.keys.mask().to_be_bytes(),
    );
    [&method[..], &tag, &mask].concat()
}

fn rows() -> Vec<u8> {
    let row = |row: &codes::Row| {
        let [high, low] = row.page.unwrap_or(0).to_be_bytes();
        let (bits, master) = match row.need {
            Need::Open => (0, 0),
            Need::Working(bits) => (bits, 0),
            Need::Master(bits) => (bits, 1),
        };
        [row.code, 0, high, low, bits, master]
    };
    ROWS.iter().flat_map(row).collect()
}
