//! The lines of a listing of calls: text to calls and back. Words are parted
//! by spaces and tabs; `#` starts a comment; numbers are decimal, bytes
//! hexadecimal.

use crate::engine::judge::Request;
use crate::engine::records::{Pair, SLOTS, SLOT_TABLE, UNITS, UNIT_TABLE};
use crate::engine::tables::REPLY;
use crate::engine::{hex, Build};
use std::fmt;

/// The longest line that is read, not counting its newline.
pub const LONGEST: usize = 4096;

#[derive(Clone, Debug)]
pub enum Line {
    Build(Build),
    Open(Request),
    Close {
        slot: u32,
        clock: u64,
        data: Vec<u8>,
    },
    Abort {
        slot: u32,
    },
    Reset,
    /// Damage: the bytes are laid into the buffer.
    Poke {
        buffer: Buffer,
        at: u32,
        bytes: Vec<u8>,
    },
    /// Asks for the digests of the three buffers.
    State,
    /// Asks for records in plain lines.
    Show(Shown),
    /// Whether refusals carry their reason's words from now on.
    Explain(bool),
}

#[derive(Clone, Copy, Debug, PartialEq, Eq)]
pub enum Buffer {
    Units,
    Slots,
    Reply,
}

pub const BUFFERS: [Buffer; 3] = [Buffer::Units, Buffer::Slots, Buffer::Reply];

#[derive(Clone, Copy, Debug, PartialEq, Eq)]
pub enum Shown {
    Unit(usize),
    Slot(usize),
    All,
}

impl Buffer {
    pub fn name(self) -> &'static str {
        ["units", "slots", "reply"][self as usize]
    }

    fn length(self) -> usize {
        [UNIT_TABLE, SLOT_TABLE, REPLY][self as usize]
    }
}

/// Why a line can't be read.
#[derive(Clone, Copy, Debug, PartialEq, Eq)]
pub enum Unreadable {
    TooLong,
    /// The number of the word, from 1, and what is wrong with it.
    Word(usize, &'static str),
}

impl fmt::Display for Unreadable {
    fn fmt(&self, f: &mut fmt::Formatter) -> fmt::Result {
        match self {
            Unreadable::TooLong => f.write_str("line too long"),
            Unreadable::Word(word, fault) => write!(f, "word {word}: {fault}"),
        }
    }
}

/// The line without the carriage return that may end it: one, no more.
pub fn without_return(line: &[u8]) -> &[u8] {
    line.strip_suffix(b"\r").unwrap_or(line)
}

pub fn words(text: &[u8]) -> impl Iterator<Item = &[u8]> {
    let words = text.split(|byte| b" \t".contains(byte));
    words.filter(|word| !word.is_empty())
}

/// What the line says; nothing where it is blank or a comment alone.
pub fn parse(line: &[u8]) -> Result<Option<Line>, Unreadable> {
    if line.len() > LONGEST {
        return Err(Unreadable::TooLong);
    }
    let line = without_return(line);
    let end = line.iter().position(|byte| *byte == b'#');
    let mut words = Words {
        rest: words(&line[..end.unwrap_or(line.len())]),
        taken: 0,
    };
    let Ok(first) = words.next() else {
        return Ok(None);
    };
    let line = words.call(first)?;
    match words.next() {
        Ok(_) => Err(words.fault("surplus word")),
        Err(_) => Ok(Some(line)),
    }
}

/// The words of a line that are not yet read, and how many are.
struct Words<I> {
    rest: I,
    taken: usize,
}

impl<'a, I: Iterator<Item = &'a [u8]>> Words<I> {
    /// A fault of the word that was taken last.
    fn fault(&self, fault: &'static str) -> Unreadable {
        Unreadable::Word(self.taken, fault)
    }

    fn next(&mut self) -> Result<&'a [u8], Unreadable> {
        self.taken += 1;
        self.rest.next().ok_or(self.fault("missing word"))
    }

    fn call(&mut self, first: &[u8]) -> Result<Line, Unreadable> {
        Ok(match first {
            b"build" => Line::Build(self.build()?),
            b"open" => {
                let (unit, clock) = (self.number32()?, self.number(u64::MAX)?);
                Line::open(unit, clock, self.bytes()?, self.bytes()?)
            }
            b"close" => Line::close(self.number32()?, self.number(u64::MAX)?, self.bytes()?),
            b"abort" => Line::Abort {
                slot: self.number32()?,
            },
            b"reset" => Line::Reset,
            b"poke" => self.poke()?,
            b"state" => Line::State,
            b"show" => Line::Show(self.show()?),
            b"explain" => Line::Explain(self.switch()?),
            _ => return Err(self.fault("unknown word")),
        })
    }

    /// Whatever its length, a word of digits is a number.
    fn number(&mut self, most: u64) -> Result<u64, Unreadable> {
        let word = self.next()?;
        if !word.iter().all(u8::is_ascii_digit) {
            return Err(self.fault("not a number"));
        }
        let value = word.iter().try_fold(0u64, |value, digit| {
            let digit = u64::from(digit - b'0');
            value.checked_mul(10)?.checked_add(digit)
        });
        let value = value.filter(|value| *value <= most);
        value.ok_or(self.fault("number too large"))
    }

    fn number32(&mut self) -> Result<u32, Unreadable> {
        Ok(self.number(u32::MAX.into())? as u32)
    }

    fn bytes(&mut self) -> Result<Vec<u8>, Unreadable> {
        let bytes = hex::decode_field(self.next()?);
        bytes.ok_or(self.fault("not hex"))
    }

    fn exactly<const N: usize>(&mut self, otherwise: &'static str) -> Result<[u8; N], Unreadable> {
        let bytes = self.bytes()?.try_into();
        bytes.map_err(|_| self.fault(otherwise))
    }

    fn build(&mut self) -> Result<Build, Unreadable> {
        Ok(Build {
            unit: self.number32()?,
            method: self.number32()?,
            tag: self.number32()?,
            identifier: self.exactly("identifier of the wrong length")?,
            master: Pair::new(
                self.exactly("key of the wrong length")?,
                self.exactly("key of the wrong length")?,
            ),
            keeper: self.keeper()?,
        })
    }

    /// What the record is to say of the keeper: one more than the number that
    /// the line gives, or 0 where it names none.
    fn keeper(&mut self) -> Result<u32, Unreadable> {
        match self.next() {
            Err(_) => Ok(0),
            Ok(b"keeper") => Ok(self.number(u64::from(u32::MAX) - 1)? as u32 + 1),
            Ok(_) => Err(self.fault("surplus word")),
        }
    }

    fn poke(&mut self) -> Result<Line, Unreadable> {
        let name = self.next()?;
        let mut buffers = BUFFERS.into_iter();
        let buffer = buffers
            .find(|buffer| buffer.name().as_bytes() == name)
            .ok_or(self.fault("unknown word"))?;
        let at = self.number32()?;
        let bytes = self.bytes()?;
        if at as usize + bytes.len() > buffer.length() {
            return Err(self.fault("past the table's end"));
        }
        Ok(Line::Poke { buffer, at, bytes })
    }

    fn show(&mut self) -> Result<Shown, Unreadable> {
        match self.next()? {
            b"unit" => Ok(Shown::Unit(self.number(UNITS as u64 - 1)? as usize)),
            b"slot" => Ok(Shown::Slot(self.number(SLOTS as u64 - 1)? as usize)),
            b"all" => Ok(Shown::All),
            _ => Err(self.fault("unknown word")),
        }
    }

    fn switch(&mut self) -> Result<bool, Unreadable> {
        match self.next()? {
            b"on" => Ok(true),
            b"off" => Ok(false),
            _ => Err(self.fault("unknown word")),
        }
    }
}

impl Line {
    pub fn open(
        unit: u32,
        clock: u64,
        command: impl Into<Vec<u8>>,
        token: impl Into<Vec<u8>>,
    ) -> Line {
        let (command, token) = (command.into(), token.into());
        Line::Open(Request {
            unit,
            command,
            token,
            clock,
        })
    }

    pub fn close(slot: u32, clock: u64, data: impl Into<Vec<u8>>) -> Line {
        let data = data.into();
        Line::Close { slot, clock, data }
    }

    /// The call's name; other lines have none.
    pub fn call_name(&self) -> Option<&'static str> {
        match self {
            Line::Build(_) => Some("build"),
            Line::Open(_) => Some("open"),
            Line::Close { .. } => Some("close"),
            Line::Abort { .. } => Some("abort"),
            Line::Reset => Some("reset"),
            Line::Poke { .. } | Line::State | Line::Show(_) | Line::Explain(_) => None,
        }
    }
}

/// The line's text, without its end.
impl fmt::Display for Line {
    fn fmt(&self, f: &mut fmt::Formatter) -> fmt::Result {
        match self {
            Line::Build(asked) => write_build(f, asked),
            Line::Open(request) => {
                let (unit, clock) = (request.unit, request.clock);
                let [command, token] =
                    [&request.command, &request.token].map(|bytes| hex::field(bytes));
                write!(f, "open {unit} {clock} {command} {token}")
            }
            Line::Close { slot, clock, data } => {
                write!(f, "close {slot} {clock} {}", hex::field(data))
            }
            Line::Abort { slot } => write!(f, "abort {slot}"),
            Line::Reset => f.write_str("reset"),
            Line::Poke { buffer, at, bytes } => {
                write!(f, "poke {} {at} {}", buffer.name(), hex::field(bytes))
            }
            Line::State => f.write_str("state"),
            Line::Show(Shown::Unit(unit)) => write!(f, "show unit {unit}"),
            Line::Show(Shown::Slot(slot)) => write!(f, "show slot {slot}"),
            Line::Show(Shown::All) => f.write_str("show all"),
            Line::Explain(true) => f.write_str("explain on"),
            Line::Explain(false) => f.write_str("explain off"),
        }
    }
}

fn write_build(f: &mut fmt::Formatter, asked: &Build) -> fmt::Result {
    let (unit, method, tag) = (asked.unit, asked.method, asked.tag);
    write!(f, "build {unit} {method} {tag}")?;
    write!(f, " {}", hex::encode(&asked.identifier))?;
    for key in [asked.master.authentication, asked.master.generation] {
        write!(f, " {}", hex::encode(&key))?;
    }
    match asked.keeper.checked_sub(1) {
        Some(keeper) => write!(f, " keeper {keeper}"),
        None => Ok(()),
    }
}

#[cfg(test)]
mod tests {
    use super::parse;
    use crate::generate::unreadable::spelled;

    /// Lines as they are written, with others that are read as the same.
    const SAME: &str = "\
build 0 1 4294967295 ID KEY KEY
build 1 0 7 ID KEY KEY keeper 0|build 1 0 7 ID KEY KEY\tkeeper  00
build 1 0 7 ID KEY KEY keeper 4294967294
build 0 0 0 ID KEY KEY|build 0 0 0 ID KEY KEY # keeper 3
open 4294967295 18446744073709551615 00aabb -|open 4294967295 18446744073709551615 00AaBb\t-
open 0 0 - 00|open  000 0\t - 00 # now
close 15 7 ffee
close 4294967295 0 -
abort 3|abort 00000000000000000000000000000000000000000000000000000000000000000000000003
reset|  reset  |reset # now|reset#now|reset #|\treset\t \r|reset\r|reset#\r\r
poke units 4095 00
poke slots 0 -
poke reply 512 -
state
show unit 7|show\tunit 007
show slot 15|show slot 0015
show all
explain on
explain off";

    #[test]
    fn lines_are_written_as_they_are_read() {
        for row in spelled(SAME).split('\n') {
            let texts: Vec<&str> = row.split('|').collect();
            for text in &texts {
                let line = parse(text.as_bytes()).unwrap().unwrap();
                assert_eq!(line.to_string(), texts[0], "{text:?}");
            }
        }
    }
}
