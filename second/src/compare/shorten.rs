//! Shortens the calls that lead to a difference until none can be left out, and
//! writes them as a listing.

use super::difference::{Misfit, Outcome};
use super::engines::Run;
use super::lines::{Line, BUFFERS, LONGEST};
use crate::engine::records::RECORD;
use crate::engine::tables::Tables;

/// Lines that are kept before their tables take their place.
const LIMIT: usize = 20_000;

/// The lines since the start or, when these are many, since tables that pokes
/// make.
#[derive(Default)]
pub struct History {
    start: Vec<Line>,
    since: Vec<Line>,
}

impl History {
    pub fn push(&mut self, line: &Line) {
        self.since.push(line.clone());
    }

    pub fn lines(&self) -> Vec<Line> {
        [&self.start[..], &self.since].concat()
    }

    /// Lets pokes of these tables, which the lines led to, stand for them if
    /// they are many.
    pub fn cut(&mut self, tables: &Tables) {
        if self.since.len() >= LIMIT {
            self.start = pokes(tables);
            self.since.clear();
        }
    }
}

/// Pokes that make the tables of fresh ones, a record each.
fn pokes(tables: &Tables) -> Vec<Line> {
    let fresh = Tables::default();
    let mut pokes = Vec::new();
    for buffer in BUFFERS {
        let chunks = tables.get(buffer).chunks(RECORD);
        for (place, (bytes, old)) in chunks.zip(fresh.get(buffer).chunks(RECORD)).enumerate() {
            if bytes != old {
                let (at, bytes) = ((place * RECORD) as u32, bytes.to_vec());
                pokes.push(Line::Poke { buffer, at, bytes });
            }
        }
    }
    pokes
}

/// What the engines make of the first line at which they differ, and how many
/// lines it takes. They start from fresh tables; buffers of other lengths are
/// for the last line alone, and what comes before it is then the first engine's.
pub fn first(engines: [Run; 2], lines: &[Line], misfits: &[Misfit]) -> Option<(usize, Outcome)> {
    let mut before = Tables::default();
    for (index, line) in lines.iter().enumerate() {
        if !misfits.is_empty() && index + 1 < lines.len() {
            engines[0](&mut before, line);
            continue;
        }
        let outcome = Outcome::of(engines, &before, misfits, line);
        if outcome.differs() {
            return Some((index + 1, outcome));
        }
        [before, _] = outcome.tables;
    }
    None
}

/// The items without those that can be left out: halves of them, halves of
/// halves and so on, at last single ones until none can be. `differs` tells how
/// many of the items it takes, if they still show the difference.
pub fn shorten<T: Clone>(items: &[T], differs: impl Fn(&[T]) -> Option<usize>) -> Vec<T> {
    let Some(count) = differs(items) else {
        return items.to_vec();
    };
    let mut kept = items[..count].to_vec();
    let mut size = kept.len().div_ceil(2);
    loop {
        let is_shorter = leave_out(&mut kept, size, &differs);
        if size > 1 {
            size = size.div_ceil(2);
        } else if !is_shorter {
            return kept;
        }
    }
}

/// Leaves out what can be in pieces of this size, and tells if any could.
fn leave_out<T: Clone>(
    kept: &mut Vec<T>,
    size: usize,
    differs: impl Fn(&[T]) -> Option<usize>,
) -> bool {
    let before = kept.len();
    let mut at = 0;
    while at < kept.len() {
        let end = (at + size).min(kept.len());
        let without = [&kept[..at], &kept[end..]].concat();
        match differs(&without) {
            Some(count) => *kept = without[..count].to_vec(),
            None => at = end,
        }
    }
    kept.len() < before
}

/// The calls that are left, as a listing whose last call shows the difference
/// and whose answers stand before it in comments.
pub fn listing(engines: [Run; 2], lines: &[Line], misfits: &[Misfit]) -> String {
    let count = |lines: &[Line]| first(engines, lines, misfits).map(|(count, _)| count);
    let kept = shorten(lines, count);
    let mut text = String::from("# The engines differ at the last call.\n");
    let Some((last, before)) = kept.split_last() else {
        return text;
    };
    before.iter().for_each(|line| text += &written(line));
    if let Some((_, outcome)) = first(engines, &kept, misfits) {
        for told in outcome.report() {
            text += &format!("# {told}\n");
        }
        if !misfits.is_empty() {
            let lengths = BUFFERS.map(|buffer| outcome.tables[0].get(buffer).len());
            text += &format!("# With units, slots and reply of {lengths:?} bytes:\n# {last}\n");
            return text;
        }
    }
    text + &written(last) + "state\n"
}

/// A line too long for a listing becomes a comment.
fn written(line: &Line) -> String {
    match line.to_string() {
        text if text.len() > LONGEST => format!("# too long for a listing: {text}\n"),
        text => text + "\n",
    }
}

#[cfg(test)]
mod tests {
    use super::*;
    use crate::compare::engines::second;
    use crate::compare::fuzz::Comparison;
    use crate::compare::lines::{parse, Buffer};
    use crate::compare::replay::replay;
    use crate::engine::answer::{Answer, DONE};
    use crate::generate::World;

    /// Another engine: this crate's with one rule changed.
    type Engine = fn(&mut Tables, &Line) -> Option<u64>;

    /// Slot 3 can't be given up.
    fn keeps_slot_3(tables: &mut Tables, line: &Line) -> Option<u64> {
        let mut after = tables.clone();
        let answer = second(&mut after, line);
        if matches!(line, Line::Abort { slot: 3 }) && answer == Some(DONE.packed()) {
            return Some(Answer::H3.packed());
        }
        *tables = after;
        answer
    }

    /// A Change leaves the mask of valid versions in the record as it was.
    fn keeps_the_mask(tables: &mut Tables, line: &Line) -> Option<u64> {
        let before = tables.clone();
        let answer = second(tables, line);
        if matches!(line, Line::Close { data, .. } if data[..] == [0, 0x15, 0, 0]) {
            for at in (0..tables.units.len()).step_by(RECORD).map(|at| at + 6) {
                tables.units[at..][..2].copy_from_slice(&before.units[at..][..2]);
            }
        }
        answer
    }

    /// A reply of 513 bytes is taken for the right one.
    fn takes_a_long_reply(tables: &mut Tables, line: &Line) -> Option<u64> {
        if tables.reply.len() == 513 {
            let last = tables.reply.pop().expect("it is not empty");
            let answer = second(tables, line);
            tables.reply.push(last);
            return answer;
        }
        second(tables, line)
    }

    /// What a fuzz of these calls tells of the engine, and the listing.
    fn fuzzed(other: Engine, calls: usize) -> (Vec<String>, String) {
        let mut world = World::new(7, Comparison::new([&second, &other], 7));
        world.go_on(calls);
        let found = world.watch.found.take().expect("the engines differ");
        world.watch.tell(&found)
    }

    fn lines(listing: &str) -> Vec<Line> {
        let lines = listing.lines().map(|line| parse(line.as_bytes()));
        lines.filter_map(|line| line.unwrap()).collect()
    }

    #[test]
    fn a_difference_is_shortened_and_shows_again() {
        let cases: [(Engine, usize, &str); 2] = [
            (
                keeps_slot_3,
                20,
                "slots differ, first at byte 1537: slot 3, state",
            ),
            (keeps_the_mask, 20, ", valid versions"),
        ];
        for (other, most, place) in cases {
            let (told, listing) = fuzzed(other, 20_000);
            assert!(told.iter().any(|line| line.ends_with(place)), "{told:?}");
            let mut lines = lines(&listing);
            assert!(matches!(lines.pop(), Some(Line::State)));
            assert!(lines.len() <= most, "{listing}");
            let engines: [Run; 2] = [&second, &other];
            let (count, _) = first(engines, &lines, &[]).expect("they differ");
            assert_eq!(count, lines.len());
            for index in 0..lines.len() {
                let mut without = lines.clone();
                without.remove(index);
                assert!(first(engines, &without, &[]).is_none(), "{}", lines[index]);
            }
            let [ours, theirs] = engines.map(|run| replay(run, listing.as_bytes()));
            assert_ne!(ours, theirs);
            let [ours, theirs] = [&ours, &theirs].map(|text| text.lines().count());
            assert_eq!(ours, theirs);
        }
    }

    #[test]
    fn wrong_lengths_are_told_in_comments() {
        let (told, listing) = fuzzed(takes_a_long_reply, 20_000);
        assert!(told
            .iter()
            .any(|line| line.contains("of [4096, 8192, 513] bytes")));
        assert!(listing.contains("# With units, slots and reply of [4096, 8192, 513] bytes:"));
        // Whatever the tables hold, the right answer is H1.
        assert!(lines(&listing).is_empty(), "{listing}");
    }

    #[test]
    fn long_histories_start_from_pokes() {
        let mut tables = Tables::default();
        let mut history = History::default();
        for at in 0..LIMIT as u32 + 3 {
            let bytes = vec![at as u8 | 1];
            let buffer = Buffer::Slots;
            let line = Line::Poke {
                buffer,
                at: at % 3 * 700,
                bytes,
            };
            tables.poke(&line);
            history.push(&line);
            history.cut(&tables);
        }
        assert_eq!(history.lines().len(), 3 + 3);
        let mut again = Tables::default();
        history.lines().iter().for_each(|line| again.poke(line));
        assert_eq!(again, tables);
    }

    #[test]
    fn nothing_is_left_that_could_be_left_out() {
        for needed in [vec![0], vec![99], vec![3, 50, 51], (0..100).collect()] {
            let all: Vec<usize> = (0..100).collect();
            let differs = |items: &[usize]| {
                let has_all = needed.iter().all(|item| items.contains(item));
                has_all.then_some(items.len())
            };
            assert_eq!(shorten(&all, differs), needed);
        }
        // What is needed may depend on what else is left: an odd number of them.
        let odd = |items: &[u8]| (items.len() % 2 == 1).then_some(items.len());
        assert_eq!(shorten(&[1, 2, 3, 4, 5, 6, 7], odd).len(), 1);
    }
}
