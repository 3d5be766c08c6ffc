//! Makes sequences of calls from a seed. It drives the engine itself, so that
//! it knows the keys and slots there are, and shows every call to a watcher.

pub mod between;
pub mod built_over;
pub mod case;
pub mod changes;
pub mod damage;
pub mod digest_requests;
pub mod draft;
pub mod edges;
pub mod examples;
pub mod faults;
pub mod fields;
pub mod lists;
pub mod master;
pub mod mixed;
pub mod opens;
pub mod planted;
pub mod pressure;
pub mod published;
pub mod rng;
pub mod sections;
pub mod set_up;
pub mod sharing;
pub mod shown;
pub mod stored;
pub mod tally;
pub mod unreadable;

// What the sections share.
use crate::compare::lines::{Buffer, Line, Shown};
use crate::engine::answer::{reason_text, Answer, Reason, DONE, REASONS, UNSOUND};
use crate::engine::codes::{
    cdb_length, is_data_out, page_row, parts, Entry, Need, Row, ROWS, TABLE,
};
use crate::engine::codes::{CHANGE, IN, IN_SEED, OUT, OUT_PAGES, SEED_EXCHANGE};
use crate::engine::codes::{SET_ATTRIBUTES, SET_KEY};
use crate::engine::descriptor::{Descriptor, ALGORITHM, EXPIRATION, IDENTIFIER, LATEST, LENGTH};
use crate::engine::descriptor::{METHOD, PERMISSIONS, TAG, TYPE, WRAPPING};
use crate::engine::hashes::Own;
use crate::engine::hex::decode_field;
use crate::engine::hmac::hmac_sha1;
use crate::engine::judge::{page_code, Case};
use crate::engine::records::{self, bytes, Body, Key, Keys, Member, Method, Pair, Record, Slot};
use crate::engine::records::{Unit, UnitRecord, BODY, KEEPER, RECORD, SLOTS, UNITS};
use crate::engine::sha1::sha1;
use crate::engine::tables::Tables;
use crate::engine::{codes, pages_out, Build, Engine};
use between::BROUGHT_ABOUT;
use damage::zero_places;
use draft::{Draft, Wrapping, ALLOCATIONS};
use opens::SPOILABLE;
use planted::PLANTED;
use rng::Rng;
use sections::AT_OPEN;
use sharing::{build_faults, with_field, BuildFault, KeeperFault, KEEPER_FAULTS};
use tally::{Count, Found, Tally, KEY_ENDED, KEY_REPLACED, MASTER_CHANGED};

/// A line that asks for the state comes after so many calls; among sharers more
/// often, as a call at one unit may change another's record.
const STATE_EVERY: usize = 50;
const STATE_EVERY_SHARING: usize = 10;

/// What sees every line with its answer and the tables that it left.
pub trait Watch {
    fn saw(&mut self, line: &Line, answer: Option<Answer>, tables: &Tables);

    /// A remark for whoever reads the calls.
    fn remark(&mut self, _text: &str) {}

    /// Whether it has seen enough.
    fn is_done(&self) -> bool {
        false
    }
}

/// Keeps the answers.
#[cfg(test)]
impl Watch for Vec<Answer> {
    fn saw(&mut self, _: &Line, answer: Option<Answer>, _: &Tables) {
        self.extend(answer);
    }
}

pub struct World<W> {
    pub tables: Tables,
    pub rng: Rng,
    pub tally: Tally,
    pub watch: W,
    engine: Engine,
    clock: u64,
    /// Whether the sections are to build sharers too.
    sharing: bool,
}

/// What is done with a record's check when its other bytes are changed.
#[derive(Clone, Copy, Debug, PartialEq, Eq)]
pub enum Check {
    MadeRight,
    Left,
}

impl<W: Watch> World<W> {
    pub fn new(seed: u64, watch: W) -> Self {
        World {
            tables: Tables::default(),
            rng: Rng::new(seed),
            tally: Tally::default(),
            watch,
            engine: Engine::new(Own),
            clock: 1000,
            sharing: false,
        }
    }

    pub fn remark(&mut self, text: &str) {
        self.watch.remark(text);
    }

    fn carry_out(&mut self, line: &Line) -> Option<Answer> {
        let answer = self.tables.run(&self.engine, line);
        self.watch.saw(line, answer, &self.tables);
        answer
    }

    pub fn call(&mut self, line: Line) -> Answer {
        let found = self.found(&line);
        let answer = self.carry_out(&line).expect("a call has an answer");
        self.tally.count(&line, answer, &found);
        let every = [STATE_EVERY, STATE_EVERY_SHARING][usize::from(self.sharing)];
        if self.tally.calls().is_multiple_of(every) {
            self.carry_out(&Line::State);
        }
        answer
    }

    /// What the call is going to find.
    fn found(&self, line: &Line) -> Found {
        let mut found = Found::default();
        match line {
            Line::Build(asked) => found.build_fault = self.only_build_fault(asked),
            Line::Open(request) => found.sharer = self.sharer(request.unit),
            Line::Close { slot, .. } => {
                if let Record::Used(held) = self.slot(*slot) {
                    let is_out = held.command[0] == codes::OUT;
                    found.page = is_out.then(|| page_code(&held.command));
                    found.sharer = self.sharer(held.unit.into());
                }
            }
            _ => {}
        }
        found
    }

    pub fn build(&mut self, asked: Build) -> Answer {
        self.call(Line::Build(asked))
    }

    pub fn close(&mut self, slot: u32, clock: u64, data: Vec<u8>) -> Answer {
        self.call(Line::close(slot, clock, data))
    }

    pub fn abort(&mut self, slot: u32) -> Answer {
        self.call(Line::Abort { slot })
    }

    /// Makes a call of the case with these faults, and holds the answer to what
    /// they call for.
    pub fn call_checked(&mut self, case: &Case, reasons: &[Reason], line: Line) -> Answer {
        let answer = self.call(line.clone());
        self.check(case, reasons, &line, answer);
        answer
    }

    /// Closes what was parked, if it was, in one way or another.
    pub fn close_parked(&mut self, answer: Answer) {
        if let Answer::A1 { slot } = answer {
            self.close_anyhow(slot as u32);
        }
    }

    /// Aborts what was parked, if it was.
    pub fn abort_parked(&mut self, answer: Answer) {
        if let Answer::A1 { slot } = answer {
            self.abort(slot as u32);
        }
    }

    pub fn reset(&mut self) -> Answer {
        self.call(Line::Reset)
    }

    pub fn poke(&mut self, buffer: Buffer, at: usize, bytes: Vec<u8>) {
        let at = at as u32;
        self.carry_out(&Line::Poke { buffer, at, bytes });
    }

    /// A draft that passes, unless the case itself is against it, at a new clock.
    pub fn good(&mut self, case: &Case) -> Draft {
        let clock = self.tick();
        Draft::good(case, clock, &mut self.rng)
    }

    /// The same wrapped, where it might have been bare.
    pub fn wrapped(&mut self, case: &Case) -> Draft {
        let clock = self.tick();
        Draft::wrapped(case, clock, &mut self.rng)
    }

    pub fn any_pair(&mut self) -> Pair {
        Pair::new(self.rng.array(), self.rng.array())
    }

    /// A clock that mostly goes on, sometimes goes back, and seldom stands at
    /// an edge: expirations have 48 bits, clocks 64.
    pub fn tick(&mut self) -> u64 {
        match self.rng.below(16) {
            0 => {
                let small = [0, 1, 2, 0xffff_ffff];
                let large = [LATEST, LATEST + 1, u64::MAX - 1, u64::MAX];
                return self.rng.pick(&[small, large].concat());
            }
            1 => self.clock = self.clock.saturating_sub(self.rng.below(500)),
            _ => self.clock += self.rng.below(100),
        }
        self.clock
    }

    /// What stands at the unit's place; nothing does at places above 7.
    pub fn unit(&self, unit: u32) -> Record<Member> {
        match unit as usize {
            place @ 0..UNITS => records::read_unit(&Own, &self.tables.units, place),
            _ => Record::Empty,
        }
    }

    pub fn slot(&self, slot: u32) -> Record<Slot> {
        match slot as usize {
            place @ 0..SLOTS => records::read_slot(&Own, &self.tables.slots, place),
            _ => Record::Empty,
        }
    }

    /// The units of this standing.
    pub fn units_that(&self, fits: impl Fn(&Record<Member>) -> bool) -> Vec<u32> {
        let all = 0..UNITS as u32;
        all.filter(|unit| fits(&self.unit(*unit))).collect()
    }

    pub fn slots_that(&self, fits: impl Fn(&Record<Slot>) -> bool) -> Vec<u32> {
        let all = 0..SLOTS as u32;
        all.filter(|slot| fits(&self.slot(*slot))).collect()
    }

    /// A record's bytes before its check.
    pub fn body(&mut self, buffer: Buffer, place: u32) -> Body {
        let from = place as usize * RECORD;
        let bytes = &self.tables.buffer(buffer)[from..][..BODY];
        bytes.try_into().expect("cut to that length")
    }

    /// Gives a record other bytes before its check. What changes is poked, and
    /// the new check if it is to be right.
    pub fn rewrite(&mut self, buffer: Buffer, place: u32, new: &Body, check: Check) {
        let old = self.body(buffer, place);
        let from = place as usize * RECORD;
        let differ = |at: &usize| old[*at] != new[*at];
        let (first, last) = ((0..BODY).find(differ), (0..BODY).rfind(differ));
        if let (Some(first), Some(last)) = (first, last) {
            self.poke(buffer, from + first, new[first..=last].to_vec());
        }
        if check == Check::MadeRight {
            self.poke(buffer, from + BODY, sha1(new).to_vec());
        }
    }
}
