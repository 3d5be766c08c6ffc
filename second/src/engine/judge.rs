//! Reasons 1 to 17: document 01, "Order of judgement". Open and close judge a
//! command by the same function. Keys and step are looked for at the unit's
//! keeper (document 02, K4).

use super::answer::{Reason, UNSOUND};
use super::codes::{self, Entry, Need, Row, TABLE};
use super::descriptor::{Descriptor, ALGORITHM, DESCRIPTOR, EXPIRATION, METHOD, PERMISSIONS, TAG};
use super::hashes::Hashes;
use super::pages_out;
use super::records::{self, Key, Member, Method, Record, UNITS};

/// A command to be judged: an open call's own, or a slot's with the clock of
/// the close.
#[derive(Clone, Debug)]
pub struct Request {
    pub unit: u32,
    pub command: Vec<u8>,
    pub token: Vec<u8>,
    pub clock: u64,
}

/// A command that no reason up to 17 applies to.
#[derive(Clone, Debug)]
pub struct Passed<'a> {
    pub member: Member,
    pub cdb: &'a [u8],
}

/// A unit as it stands and a row of the table of commands: what reasons 6 to
/// 17 are judged against.
#[derive(Clone, Debug)]
pub struct Case {
    pub member: Member,
    pub row: Row,
}

/// Bytes 2-3 of the CDB of IN and OUT.
pub fn page_code(cdb: &[u8]) -> u16 {
    u16::from_be_bytes([cdb[2], cdb[3]])
}

/// Bytes 6-9 of the CDB of IN and OUT: how many bytes of reply or data.
pub fn cdb_bytes(cdb: &[u8]) -> u32 {
    u32::from_be_bytes([cdb[6], cdb[7], cdb[8], cdb[9]])
}

/// The first reason that applies, if one does.
pub fn judge<'a>(
    hashes: &impl Hashes,
    units: &[u8],
    request: &'a Request,
) -> Result<Passed<'a>, Reason> {
    let member = find_unit(hashes, units, request.unit)?;
    let code = *request.command.first().ok_or(2)?;
    if TABLE[usize::from(code)] == Entry::Unknown {
        return Err(2);
    }
    let (cdb, wrapping) = codes::parts(&request.command).ok_or(3)?;
    let row = find_row(cdb).ok_or(4)?;
    let case = Case { member, row };
    case.judge(hashes, wrapping, request)?;
    case.judge_protocol(cdb)?;
    let member = case.member;
    Ok(Passed { member, cdb })
}

/// Reasons 1 and 1b.
fn find_unit(hashes: &impl Hashes, units: &[u8], unit: u32) -> Result<Member, Reason> {
    let place = unit as usize;
    if place >= UNITS {
        return Err(1);
    }
    match records::read_unit(hashes, units, place) {
        Record::Unsound => Err(UNSOUND),
        Record::Empty => Err(1),
        Record::Used(member) => Ok(member),
    }
}

/// The row of a CDB of a known code and the right length. There is none, and
/// reason 4 applies, where protocol, page or bit 7 is wrong.
fn find_row(cdb: &[u8]) -> Option<Row> {
    match TABLE[usize::from(cdb[0])] {
        Entry::Unknown => None,
        Entry::Plain(row) => Some(row),
        Entry::Paged if cdb[1] != codes::PROTOCOL || cdb[4] & 0x80 != 0 => None,
        Entry::Paged => codes::page_row(cdb[0], page_code(cdb)),
    }
}

impl Case {
    pub fn is_open(&self) -> bool {
        self.row.need == Need::Open
    }

    pub fn is_master(&self) -> bool {
        matches!(self.row.need, Need::Master(_))
    }

    pub fn is_change(&self) -> bool {
        (self.row.code, self.row.page) == (codes::OUT, Some(codes::CHANGE))
    }

    pub fn is_in_seed(&self) -> bool {
        (self.row.code, self.row.page) == (codes::IN, Some(codes::IN_SEED))
    }

    /// Whether CAPKEY rules: on CAPKEY units, but for open rows, and for master
    /// rows always.
    pub fn is_strict(&self) -> bool {
        self.is_master() || (self.member.unit.method == Method::CapKey && !self.is_open())
    }

    /// The permission bits needed.
    pub fn bits(&self) -> u8 {
        match self.row.need {
            Need::Open => 0,
            Need::Working(bits) | Need::Master(bits) => bits,
        }
    }

    /// The key that the row and the version call for, unless it is lacking
    /// (reason 14).
    pub fn key(&self, version: u8) -> Option<&Key> {
        let keys = &self.member.keeper.keys;
        if !self.is_master() {
            keys.working[usize::from(version)].as_ref()
        } else if version != 0 {
            None
        } else if self.is_change() {
            keys.next.as_ref().map(|next| &next.authentication)
        } else {
            Some(&keys.master.authentication)
        }
    }

    /// Reasons 6 to 15.
    fn judge(
        &self,
        hashes: &impl Hashes,
        wrapping: Option<&[u8]>,
        request: &Request,
    ) -> Result<(), Reason> {
        if self.is_open() {
            return Ok(());
        }
        let Some(wrapping) = wrapping else {
            return if self.is_strict() { Err(6) } else { Ok(()) };
        };
        let (descriptor, value) = wrapping.split_at(DESCRIPTOR);
        let descriptor = Descriptor(descriptor.try_into().expect("cut to that length"));
        self.judge_form(&descriptor)?;
        self.judge_fields(&descriptor, request.clock)?;
        if self.is_strict() {
            let key = self.key(descriptor.version()).ok_or(14)?;
            if descriptor.value(hashes, key, &request.token) != *value {
                return Err(15);
            }
        }
        Ok(())
    }

    /// Reasons 7 to 9.
    fn judge_form(&self, descriptor: &Descriptor) -> Result<(), Reason> {
        let method = descriptor.get(METHOD);
        if descriptor.format() != 1 {
            Err(7)
        } else if method > 1 || (self.is_strict() && method != 1) {
            Err(8)
        } else if self.is_strict() && descriptor.get(ALGORITHM) != 1 {
            Err(9)
        } else {
            Ok(())
        }
    }

    /// Reasons 10 to 13.
    fn judge_fields(&self, descriptor: &Descriptor, clock: u64) -> Result<(), Reason> {
        let (expiration, tag) = (descriptor.get(EXPIRATION), descriptor.get(TAG));
        if expiration != 0 && expiration < clock {
            Err(10)
        } else if descriptor.get(PERMISSIONS) as u8 & self.bits() != self.bits() {
            Err(11)
        } else if tag != 0 && tag != u64::from(self.member.unit.tag) {
            Err(12)
        } else if !descriptor.names(&self.member.unit.identifier) {
            Err(13)
        } else {
            Ok(())
        }
    }

    /// Reasons 16 and 17.
    fn judge_protocol(&self, cdb: &[u8]) -> Result<(), Reason> {
        let is_out = self.row.code == codes::OUT;
        match self.row.page {
            Some(page) if is_out && cdb_bytes(cdb) as usize != pages_out::total(page) => Err(16),
            Some(_) if self.is_in_seed() && self.member.keeper.keys.next.is_none() => Err(17),
            _ => Ok(()),
        }
    }
}
