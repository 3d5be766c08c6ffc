//! Holds another engine to this crate's, call by call, on calls that a world
//! makes; the first difference is kept.

use super::*;

/// A call is made again with wrong buffer lengths once in so many times.
const MISFIT_EVERY: u64 = 4;

/// Their tables, which are to be ours after every call.
pub struct Comparison<'a> {
    engines: [Run<'a>; 2],
    theirs: Tables,
    history: History,
    rng: Rng,
    calls: u64,
    pub misfits: u64,
    pub found: Option<Found>,
}

/// A difference: the lines that led to it, the differing one with them.
pub struct Found {
    pub call: u64,
    pub lines: Vec<Line>,
    pub misfits: Vec<Misfit>,
    pub outcome: Outcome,
}

impl<'a> Comparison<'a> {
    pub fn new(engines: [Run<'a>; 2], seed: u64) -> Self {
        Comparison {
            engines,
            theirs: Tables::default(),
            history: History::default(),
            rng: Rng::new(!seed),
            calls: 0,
            misfits: 0,
            found: None,
        }
    }

    /// The call that differs, what differs, and the listing that shows it again,
    /// shortened.
    pub fn tell(&self, found: &Found) -> (Vec<String>, String) {
        let last = found.lines.last().expect("the line that differs");
        let mut told = vec![last.to_string()];
        if !found.misfits.is_empty() {
            let lengths = BUFFERS.map(|buffer| found.outcome.tables[0].get(buffer).len());
            told.push(format!("units, slots and reply of {lengths:?} bytes"));
        }
        told.extend(found.outcome.report());
        let listing = shorten::listing(self.engines, &found.lines, &found.misfits);
        (told, listing)
    }

    /// Keeps what differs.
    fn judge(&mut self, outcome: Outcome, misfits: Vec<Misfit>) {
        if outcome.differs() {
            self.found = Some(Found {
                call: self.calls,
                lines: self.history.lines(),
                misfits,
                outcome,
            });
        }
    }

    /// The same call, by both, on copies of which one or more have another
    /// length.
    fn misfit(&mut self, line: &Line, tables: &Tables) {
        let mut misfits = Vec::new();
        for _ in 0..1 + self.rng.below(2) {
            let buffer = self.rng.pick(&BUFFERS);
            let right = tables.get(buffer).len();
            let any = self.rng.length(9000);
            let near = self.rng.pick(&[right - 1, right + 1]);
            let record = self.rng.pick(&[right - 512, right + 512]);
            let other = self.rng.pick(&[0, 512, 4096, 8192, 2 * right]);
            misfits.push(Misfit {
                buffer,
                length: self.rng.pick(&[near, near, record, other, any]),
                filler: self.rng.pick(&[0x00, 0xff]),
            });
        }
        self.misfits += 1;
        let outcome = Outcome::of(self.engines, tables, &misfits, line);
        self.judge(outcome, misfits);
    }
}

impl Watch for Comparison<'_> {
    fn saw(&mut self, line: &Line, answer: Option<Answer>, tables: &Tables) {
        if self.is_done() {
            return;
        }
        self.history.push(line);
        let theirs = self.engines[1](&mut self.theirs, line);
        self.calls += u64::from(theirs.is_some());
        let answers = [answer.map(|answer| answer.packed()), theirs];
        if answers[0] != answers[1] || *tables != self.theirs {
            let tables = [tables.clone(), self.theirs.clone()];
            self.judge(Outcome { answers, tables }, vec![]);
        } else if theirs.is_some() && self.rng.one_in(MISFIT_EVERY) {
            self.misfit(line, tables);
        }
        self.history.cut(tables);
    }

    fn is_done(&self) -> bool {
        self.found.is_some()
    }
}
