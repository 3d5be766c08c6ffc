//! The listing of calls as text, with the answers that the engine gives. It is
//! the same at every run.

use crate::compare::engines::second;
use crate::compare::lines::{self, Line, LONGEST};
use crate::compare::replay::{replay, Printer};
use crate::engine::answer::{Answer, DONE};
use crate::engine::hashes::Own;
use crate::engine::tables::Tables;
use crate::engine::Engine;
use crate::generate::tally::{Count, Found, Tally};
use crate::generate::unreadable::{self, LAST};
use crate::generate::{Watch, World};

const SEED: u64 = 2202;

pub struct Listing {
    pub stdin: String,
    pub stdout: String,
    pub tally: Tally,
}

/// Writes down what it sees, and counts what is printed beside plain answers.
#[derive(Default)]
pub struct Text {
    stdin: String,
    /// How many lines that is.
    lines: usize,
    printed: String,
    printer: Printer,
    counts: Vec<Count>,
}

impl Text {
    /// A line as it stands, and what it prints.
    fn put(&mut self, line: &str, printed: &[String]) {
        self.stdin += &format!("{line}\n");
        self.lines += 1;
        for out in printed {
            self.printed += &format!("{out}\n");
            self.counts.extend(kind(out).map(Count::Printed));
        }
    }
}

impl Watch for Text {
    fn saw(&mut self, line: &Line, answer: Option<Answer>, tables: &Tables) {
        let text = line.to_string();
        assert!(text.len() <= LONGEST, "a line of {} bytes", text.len());
        let answer = answer.map(|answer| answer.packed());
        let printed = self.printer.print(line, answer, tables);
        self.put(&text, &printed);
    }

    fn remark(&mut self, text: &str) {
        self.stdin += &format!("\n# {text}\n");
        self.lines += 2;
    }
}

/// What a printed line is counted as: a fault, a record that is shown or a
/// reason in words.
fn kind(printed: &str) -> Option<String> {
    let (head, rest) = printed.split_once(": ")?;
    match head.split(' ').next() {
        Some("line") => Some(rest.to_string()),
        Some(record @ ("unit" | "slot")) => Some(format!("{record}: {rest}")),
        Some("A3") => head
            .rsplit(' ')
            .next()
            .map(|reason| format!("words of reason {reason}")),
        _ => None,
    }
}

/// All of it. The answers are those to the text, and must be those that the
/// calls were given when they were made.
pub fn make() -> Listing {
    let mut world = World::new(SEED, Text::default());
    HEADING.lines().for_each(|line| world.watch.put(line, &[]));
    world.listing();
    world.remark("Lines that can't be read. They change nothing.");
    world.as_they_stand(unreadable::first());
    for (remark, lines) in unreadable::sections() {
        world.remark(remark);
        world.as_they_stand(lines);
    }
    world.listed_shows();
    world.listed_explained();
    let World {
        mut watch,
        mut tally,
        ..
    } = world;
    // The line without an end that is behind the counts.
    tally.add(Count::Calls);
    tally.add(Count::Answer(DONE.name(), LAST.trim_end()));
    watch.counts.drain(..).for_each(|count| tally.add(count));
    watch.stdin += "\n# What the calls were answered with, and what was printed beside:\n";
    for line in tally.lines() {
        watch.stdin += &format!("# {line}\n");
    }
    let stdin = watch.stdin + LAST;
    let stdout = replay(&second, stdin.as_bytes());
    assert_eq!(
        stdout,
        watch.printed + &DONE.text(&[]) + "\n",
        "text and calls differ"
    );
    Listing {
        stdin,
        stdout,
        tally,
    }
}

const HEADING: &str = "\
# Calls to the engine of document 01, with K4 of document 02, one to a line:
# build UNIT METHOD TAG IDENTIFIER AUTHKEY GENKEY, keeper UNIT perhaps behind it
# open UNIT CLOCK COMMAND TOKEN
# close SLOT CLOCK DATA
# abort SLOT; reset
# poke units|slots|reply AT BYTES (damage; prints nothing)
# state (prints the SHA-1 of the unit table, the slot table and the reply)
# show unit UNIT, show slot SLOT, show all (prints records in plain lines)
# explain on|off (whether refusals carry their reason's words)
# The first are the document's examples that are run only.
";

impl World<Text> {
    /// Lines in any form. Those among them that can be read are carried out.
    fn as_they_stand(&mut self, texts: Vec<String>) {
        for text in texts {
            let printed = match lines::parse(text.as_bytes()) {
                Ok(None) => vec![],
                Ok(Some(line)) => {
                    let answer = self.tables.run(&Engine::new(Own), &line);
                    if let Some(answer) = answer {
                        self.tally.count(&line, answer, &Found::default());
                    }
                    let answer = answer.map(|answer| answer.packed());
                    self.watch.printer.print(&line, answer, &self.tables)
                }
                Err(fault) => vec![format!("line {}: {fault}", self.watch.lines + 1)],
            };
            self.watch.put(&text, &printed);
        }
    }
}

#[cfg(test)]
mod tests {
    use super::super::*;
    use super::{make, Listing};
    use crate::generate::sections::AT_CLOSE;
    use crate::generate::tally::ELSEWHERE;
    use std::sync::OnceLock;

    fn listing() -> &'static Listing {
        static MADE: OnceLock<Listing> = OnceLock::new();
        MADE.get_or_init(make)
    }

    /// Holds counts of the listing to the least that each is to be.
    fn at_least(least: usize, counts: impl IntoIterator<Item = Count>) {
        for count in counts {
            listing().tally.require(least, count);
        }
    }

    #[test]
    fn the_listing_holds_enough_of_everything() {
        let size = listing().stdin.len();
        assert!(size < 8_000_000, "{size} bytes");
        at_least(20_000, [Count::Calls]);
        at_least(100, AT_OPEN.map(|reason| Count::Reason(reason, "open")));
        at_least(100, AT_CLOSE.map(|reason| Count::Reason(reason, "close")));
        at_least(200, OUT_PAGES.map(Count::Page));
        let answer = |answer: &str, call| Count::Answer(answer.to_string(), call);
        at_least(50, [answer("A4", "open")]);
        at_least(20, [answer("H2", "open")]);
        at_least(50, ["close", "abort"].map(|call| answer("H3", call)));
        at_least(5, [answer("H5", "build")]);
    }

    #[test]
    fn the_listing_holds_enough_of_sharers() {
        at_least(2_000, [Count::AtSharers]);
        // The first is reason 1. No sharer is unused, so it is for none.
        let open = AT_OPEN.into_iter().skip(1);
        at_least(
            10,
            open.map(|reason| Count::ReasonAtSharers(reason, "open")),
        );
        let close = AT_CLOSE.into_iter().skip(1);
        at_least(
            10,
            close.map(|reason| Count::ReasonAtSharers(reason, "close")),
        );
        at_least(50, OUT_PAGES.map(Count::PageAtSharers));
        at_least(100, ELSEWHERE.map(Count::Elsewhere));
        at_least(20, KEEPER_FAULTS.map(Count::Lost));
        let others = KEEPER_FAULTS.into_iter();
        let others = others.filter(|fault| *fault != KeeperFault::Itself);
        let lost = others.map(|fault| listing().tally.of(Count::Lost(fault)));
        assert!(lost.sum::<usize>() >= 100);
        at_least(100, [Count::Damaged]);
        at_least(100, build_faults().into_iter().map(Count::BuildFault));
    }

    fn printed(kind: &str) -> Count {
        Count::Printed(kind.to_string())
    }

    /// The faults of lines by the words that can have them.
    #[test]
    fn every_fault_is_met_with() {
        let faults: [(&str, &[usize]); 9] = [
            ("unknown word", &[1, 2]),
            ("missing word", &[2, 3, 4, 5, 6, 7, 9]),
            ("surplus word", &[2, 3, 4, 5, 6, 8, 10]),
            ("not a number", &[2, 3, 4, 9]),
            ("number too large", &[2, 3, 4, 9]),
            ("not hex", &[4, 5, 6, 7]),
            ("identifier of the wrong length", &[5]),
            ("key of the wrong length", &[6, 7]),
            ("past the table's end", &[4]),
        ];
        for (fault, words) in faults {
            let words = words.iter();
            at_least(
                1,
                words.map(|word| printed(&format!("word {word}: {fault}"))),
            );
        }
        at_least(1, [printed("line too long")]);
    }

    /// The parts by which records are unsound, and the words of reasons.
    #[test]
    fn every_part_and_every_reason_is_met_with() {
        let keys = (0..16).map(|version| format!("key {version}"));
        let units = "check|layout|place|method|step|next pair|unnamed bytes|keeper".split('|');
        let units = units.map(str::to_string).chain(keys);
        at_least(
            2,
            units.map(|part| printed(&format!("unit: unsound: {part}"))),
        );
        let slots = "check|state|unit|token length|command|bytes past the command|\
                     bytes past the token|unnamed bytes";
        let slots = slots.split('|');
        at_least(
            2,
            slots.map(|part| printed(&format!("slot: unsound: {part}"))),
        );
        at_least(
            10,
            ["unit: unused", "unit: used", "slot: free", "slot: open"].map(printed),
        );
        let reasons = REASONS.map(reason_text);
        at_least(
            2,
            reasons.map(|reason| printed(&format!("words of reason {reason}"))),
        );
    }
}
