//! Counts what the calls made so far were answered with.

use crate::compare::lines::Line;
use crate::engine::answer::{reason_text, Answer, Reason, UNSOUND};
use crate::generate::sharing::{BuildFault, KeeperFault, Sharer};
use std::collections::BTreeMap;
use std::fmt;

/// What is counted, in the order in which it is told. Calls are named.
#[derive(Clone, Debug, PartialEq, Eq, PartialOrd, Ord)]
pub enum Count {
    Calls,
    Answer(String, &'static str),
    Reason(Reason, &'static str),
    /// GOOD closes of SECURITY PROTOCOL OUT by page.
    Page(u16),
    /// Opens and closes at sound sharers.
    AtSharers,
    /// At units whose record names a keeper.
    ReasonAtSharers(Reason, &'static str),
    PageAtSharers(u16),
    /// Reason 1b by the keeper alone.
    Lost(KeeperFault),
    /// Reason 1b by bytes of the sharer's own.
    Damaged,
    /// H5 for one fault alone.
    BuildFault(BuildFault),
    Elsewhere(&'static str),
    /// Lines that are no plain answer, by their kind.
    Printed(String),
}

/// A command that is refused after a Change at another unit of its set: its key
/// is no longer valid or no exchange pending, its working key was set again, or
/// the authentication master key is another.
pub const KEY_ENDED: &str = "reason 14";
pub const KEY_REPLACED: &str = "reason 15, working key set again";
pub const MASTER_CHANGED: &str = "reason 15, old master key";
pub const ELSEWHERE: [&str; 3] = [KEY_ENDED, KEY_REPLACED, MASTER_CHANGED];

/// What a call finds, as far as it is counted.
#[derive(Clone, Copy, Debug, Default)]
pub struct Found {
    /// The page of OUT in the slot that it closes.
    pub page: Option<u16>,
    /// The unit that it is made at, if its record names a keeper.
    pub sharer: Option<Sharer>,
    /// What alone is wrong with a build.
    pub build_fault: Option<BuildFault>,
}

#[derive(Clone, Debug, Default)]
pub struct Tally(BTreeMap<Count, usize>);

impl Tally {
    pub fn add(&mut self, count: Count) {
        *self.0.entry(count).or_default() += 1;
    }

    pub fn of(&self, count: Count) -> usize {
        self.0.get(&count).copied().unwrap_or(0)
    }

    /// Holds a count to the least that it is to be.
    pub fn require(&self, least: usize, of: Count) {
        let count = self.of(of.clone());
        assert!(count >= least, "{of}: {count}");
    }

    pub fn calls(&self) -> usize {
        self.of(Count::Calls)
    }

    pub fn count(&mut self, line: &Line, answer: Answer, found: &Found) {
        let call = line.call_name().expect("a call has a name");
        self.add(Count::Calls);
        self.add(Count::Answer(answer.name(), call));
        let more = match answer {
            Answer::A3(reason) => Some(Count::Reason(reason, call)),
            Answer::A0 { .. } => found.page.map(Count::Page),
            Answer::H5 => found.build_fault.map(Count::BuildFault),
            _ => None,
        };
        more.into_iter().for_each(|count| self.add(count));
        if let Some(sharer) = found.sharer {
            self.at_sharer(call, answer, found.page, sharer);
        }
    }

    fn at_sharer(&mut self, call: &'static str, answer: Answer, page: Option<u16>, sharer: Sharer) {
        if sharer == Sharer::Sound {
            self.add(Count::AtSharers);
        }
        if let Answer::A3(reason) = answer {
            self.add(Count::ReasonAtSharers(reason, call));
        }
        match (sharer, answer, page) {
            (Sharer::Sound, Answer::A0 { .. }, Some(page)) => self.add(Count::PageAtSharers(page)),
            (Sharer::Lost(fault), Answer::A3(UNSOUND), _) => self.add(Count::Lost(fault)),
            (Sharer::Damaged, Answer::A3(UNSOUND), _) => self.add(Count::Damaged),
            _ => {}
        }
    }

    /// All counts, a line each.
    pub fn lines(&self) -> Vec<String> {
        let counts = self.0.iter();
        counts.map(|(of, count)| format!("{of}: {count}")).collect()
    }
}

impl fmt::Display for Count {
    fn fmt(&self, f: &mut fmt::Formatter) -> fmt::Result {
        match self {
            Count::Calls => f.write_str("calls"),
            Count::Answer(answer, call) => write!(f, "answer {answer}, {call}"),
            Count::Reason(reason, call) => write!(f, "reason {}, {call}", reason_text(*reason)),
            Count::Page(page) => write!(f, "GOOD page {page:04x}h"),
            Count::AtSharers => f.write_str("at sharers"),
            Count::ReasonAtSharers(reason, call) => {
                write!(f, "at sharers, reason {}, {call}", reason_text(*reason))
            }
            Count::PageAtSharers(page) => write!(f, "at sharers, GOOD page {page:04x}h"),
            Count::Lost(fault) => write!(f, "reason 1b, keeper {}", keeper_text(*fault)),
            Count::Damaged => f.write_str("reason 1b, sharer's own bytes"),
            Count::BuildFault(BuildFault::Unit) => f.write_str("H5, unit above 7"),
            Count::BuildFault(BuildFault::Method) => f.write_str("H5, method above 1"),
            Count::BuildFault(BuildFault::Keeper(fault)) => {
                write!(f, "H5, keeper {}", keeper_text(*fault))
            }
            Count::Elsewhere(reason) => write!(f, "after a Change at another unit, {reason}"),
            Count::Printed(kind) => write!(f, "printed, {kind}"),
        }
    }
}

fn keeper_text(fault: KeeperFault) -> &'static str {
    match fault {
        KeeperFault::OutOfRange => "out of range",
        KeeperFault::Itself => "the unit itself",
        KeeperFault::Unsound => "unsound",
        KeeperFault::Unused => "unused",
        KeeperFault::Sharer => "itself a sharer",
    }
}
