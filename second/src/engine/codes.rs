//! What each operation code needs: document 01, "Commands and what they need".

use super::descriptor::WRAPPING;

/// SECURITY PROTOCOL IN.
pub const IN: u8 = 0xa2;
/// SECURITY PROTOCOL OUT.
pub const OUT: u8 = 0xb5;

pub const DATA_READ: u8 = 0x80;
pub const DATA_WRITE: u8 = 0x40;
pub const ATTR_READ: u8 = 0x20;
pub const ATTR_WRITE: u8 = 0x10;
pub const SEC_MGMT: u8 = 0x08;

// Pages of SECURITY PROTOCOL OUT.
pub const SET_ATTRIBUTES: u16 = 0x0011;
pub const SEED_EXCHANGE: u16 = 0x0012;
pub const SET_KEY: u16 = 0x0014;
pub const CHANGE: u16 = 0x0015;

/// Those pages in the order of their codes.
pub const OUT_PAGES: [u16; 4] = [SET_ATTRIBUTES, SEED_EXCHANGE, SET_KEY, CHANGE];

/// The page of SECURITY PROTOCOL IN that is the crypto block's to answer.
pub const IN_SEED: u16 = 0x0012;

/// Byte 1 of the CDB of IN and OUT.
pub const PROTOCOL: u8 = 0x07;

/// What a capability must allow, and whose key it is made with.
#[derive(Clone, Copy, Debug, PartialEq, Eq)]
pub enum Need {
    /// No capability.
    Open,
    /// These permission bits, under a working key.
    Working(u8),
    /// These permission bits, under a master key.
    Master(u8),
}

/// A row: an operation code, its page if it goes by pages, and the need.
#[derive(Clone, Copy, Debug, PartialEq, Eq)]
pub struct Row {
    pub code: u8,
    pub page: Option<u16>,
    pub need: Need,
}

/// An entry of the table of operation codes.
#[derive(Clone, Copy, Debug, PartialEq, Eq)]
pub enum Entry {
    Unknown,
    /// The code has one row.
    Plain(Row),
    /// The code has a row for each of its pages.
    Paged,
}

const fn row(code: u8, page: Option<u16>, need: Need) -> Row {
    Row { code, page, need }
}

/// The rows, ascending by operation code and page.
pub const ROWS: [Row; 31] = [
    row(0x00, None, Need::Open),
    row(0x03, None, Need::Open),
    row(0x04, None, Need::Working(DATA_WRITE | SEC_MGMT)),
    row(0x08, None, Need::Working(DATA_READ)),
    row(0x0a, None, Need::Working(DATA_WRITE)),
    row(0x12, None, Need::Open),
    row(0x15, None, Need::Working(ATTR_WRITE)),
    row(0x1a, None, Need::Working(ATTR_READ)),
    row(0x25, None, Need::Working(DATA_READ)),
    row(0x28, None, Need::Working(DATA_READ)),
    row(0x2a, None, Need::Working(DATA_WRITE)),
    row(0x2e, None, Need::Working(DATA_READ | DATA_WRITE)),
    row(0x2f, None, Need::Working(DATA_READ)),
    row(0x35, None, Need::Working(DATA_WRITE)),
    row(0x55, None, Need::Working(ATTR_WRITE)),
    row(0x5a, None, Need::Working(ATTR_READ)),
    row(0x88, None, Need::Working(DATA_READ)),
    row(0x8a, None, Need::Working(DATA_WRITE)),
    row(0xa0, None, Need::Open),
    row(IN, Some(0x0000), Need::Open),
    row(IN, Some(0x0001), Need::Open),
    row(IN, Some(0x0010), Need::Open),
    row(IN, Some(0x0011), Need::Working(ATTR_READ)),
    row(IN, Some(IN_SEED), Need::Master(SEC_MGMT)),
    row(IN, Some(0x0013), Need::Open),
    row(0xa8, None, Need::Working(DATA_READ)),
    row(0xaa, None, Need::Working(DATA_WRITE)),
    row(OUT, Some(SET_ATTRIBUTES), Need::Master(SEC_MGMT)),
    row(OUT, Some(SEED_EXCHANGE), Need::Master(SEC_MGMT)),
    row(OUT, Some(SET_KEY), Need::Master(SEC_MGMT)),
    row(OUT, Some(CHANGE), Need::Master(SEC_MGMT)),
];

/// An entry for each of the 256 operation codes.
pub const TABLE: [Entry; 256] = table();

const fn table() -> [Entry; 256] {
    let mut table = [Entry::Unknown; 256];
    let mut at = 0;
    while at < ROWS.len() {
        let row = ROWS[at];
        table[row.code as usize] = match row.page {
            None => Entry::Plain(row),
            Some(_) => Entry::Paged,
        };
        at += 1;
    }
    table
}

/// The row of a page of IN or OUT, if it is listed.
pub fn page_row(code: u8, page: u16) -> Option<Row> {
    let mut rows = ROWS.into_iter();
    rows.find(|row| row.code == code && row.page == Some(page))
}

/// The CDB of IN or OUT for this page, with this allocation length or total.
pub fn page_cdb(code: u8, page: u16, count: usize) -> Vec<u8> {
    let [high, low] = page.to_be_bytes();
    let count = (count as u32).to_be_bytes();
    [&[code, PROTOCOL, high, low, 0, 0][..], &count, &[0, 0]].concat()
}

pub fn cdb_length(code: u8) -> Option<usize> {
    match code {
        0x00..=0x1f => Some(6),
        0x20..=0x5f => Some(10),
        0x80..=0x9f => Some(16),
        0xa0..=0xbf => Some(12),
        _ => None,
    }
}

/// Whether the command's data come with its close.
pub fn is_data_out(code: u8) -> bool {
    matches!(code, 0x0a | 0x15 | 0x2a | 0x2e | 0x55 | 0x8a | 0xaa | OUT)
}

/// The CDB and, if it is wrapped, the command's other 78 bytes; nothing where
/// the length is neither the bare nor the wrapped one.
pub fn parts(command: &[u8]) -> Option<(&[u8], Option<&[u8]>)> {
    let bare = cdb_length(*command.first()?)?;
    if command.len() == bare {
        Some((command, None))
    } else if command.len() == bare + WRAPPING {
        let (cdb, wrapping) = command.split_at(bare);
        Some((cdb, Some(wrapping)))
    } else {
        None
    }
}

#[cfg(test)]
mod tests {
    use super::*;

    /// Document 01's list as it stands there, but for A2h and B5h.
    const LISTED: [(u8, &[u8]); 7] = [
        (0x00, &[0x00, 0x03, 0x12, 0xa0]),
        (0x80, &[0x08, 0x25, 0x28, 0x2f, 0x88, 0xa8]),
        (0x40, &[0x0a, 0x2a, 0x35, 0x8a, 0xaa]),
        (0xc0, &[0x2e]),
        (0x20, &[0x1a, 0x5a]),
        (0x10, &[0x15, 0x55]),
        (0x48, &[0x04]),
    ];

    #[test]
    fn the_table_holds_the_list() {
        for code in 0..=255 {
            let listed = LISTED.iter().find(|(_, codes)| codes.contains(&code));
            let expected = match (code, listed) {
                (0xa2 | 0xb5, None) => Entry::Paged,
                (_, None) => Entry::Unknown,
                (_, Some((0, _))) => Entry::Plain(row(code, None, Need::Open)),
                (_, Some((bits, _))) => Entry::Plain(row(code, None, Need::Working(*bits))),
            };
            assert_eq!(TABLE[usize::from(code)], expected, "{code:02x}h");
        }
    }

    #[test]
    fn the_pages_are_those_listed() {
        assert!(ROWS.is_sorted_by_key(|row| (row.code, row.page)));
        for page in 0..=0xffff {
            let expected = match page {
                0x0000 | 0x0001 | 0x0010 | 0x0013 => Some(Need::Open),
                0x0011 => Some(Need::Working(0x20)),
                0x0012 => Some(Need::Master(0x08)),
                _ => None,
            };
            let found = |code| page_row(code, page).map(|row| row.need);
            assert_eq!(found(0xa2), expected, "IN {page:04x}h");
            let listed = [0x0011, 0x0012, 0x0014, 0x0015].contains(&page);
            let expected = listed.then_some(Need::Master(0x08));
            assert_eq!(found(0xb5), expected, "OUT {page:04x}h");
        }
    }

    #[test]
    fn lengths() {
        for code in 0..=255u8 {
            let expected = [6, 10, 10, 0, 16, 12, 0, 0][usize::from(code >> 5)];
            let expected = (expected > 0).then_some(expected);
            assert_eq!(cdb_length(code), expected, "{code:02x}h");
            let known = TABLE[usize::from(code)] != Entry::Unknown;
            assert!(!known || expected.is_some(), "{code:02x}h");
            for length in 0..=120 {
                let command = vec![code; length];
                let fits = length > 0 && expected.is_some_and(|n| length == n || length == n + 78);
                assert_eq!(parts(&command).is_some(), fits, "{code:02x}h, {length}");
            }
        }
    }

    #[test]
    fn data_out_commands() {
        let expected = [0x0a, 0x15, 0x2a, 0x2e, 0x55, 0x8a, 0xaa, 0xb5];
        let found: Vec<u8> = (0..=255).filter(|code| is_data_out(*code)).collect();
        assert_eq!(found, expected);
    }
}
