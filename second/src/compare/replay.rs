//! Runs a listing of calls on tables of its own: calls in, answers out.

use super::*;

/// What the lines of a listing print. Whether refusals are explained is all
/// that it keeps from line to line.
#[derive(Clone, Debug, Default)]
pub struct Printer {
    explains: bool,
}

impl Printer {
    /// What the line prints, once it is carried out; a call was given this
    /// answer.
    pub fn print(&mut self, line: &Line, answer: Option<u64>, tables: &Tables) -> Vec<String> {
        match line {
            Line::State => vec![state(tables)],
            Line::Show(shown) => show(tables, *shown),
            Line::Explain(on) => {
                self.explains = *on;
                vec![]
            }
            _ => {
                let texts = answer.map(|answer| self.answer(answer, &tables.reply));
                texts.into_iter().collect()
            }
        }
    }

    /// An answer in 64 bits as a line; one that is none by its number.
    fn answer(&self, number: u64, reply: &[u8]) -> String {
        match Answer::unpacked(number) {
            Some(answer @ Answer::A3(reason)) if self.explains => {
                format!("{}: {}", answer.text(reply), reason_words(reason))
            }
            Some(answer) => answer.text(reply),
            None => format!("no answer: {number:016x}"),
        }
    }
}

/// An answer's text where nothing is explained.
pub fn answer_text(number: u64, reply: &[u8]) -> String {
    Printer::default().answer(number, reply)
}

fn state(tables: &Tables) -> String {
    let digests = BUFFERS.map(|buffer| hex::encode(&sha1(tables.get(buffer))));
    format!("state {}", digests.join(" "))
}

/// What a whole listing prints.
pub fn replay(run: Run, listing: &[u8]) -> String {
    let mut tables = Tables::default();
    let mut printer = Printer::default();
    let mut printed = String::new();
    for (index, text) in listing.split(|byte| *byte == b'\n').enumerate() {
        let out = match lines::parse(text) {
            Ok(None) => vec![],
            Ok(Some(line)) => {
                let answer = run(&mut tables, &line);
                printer.print(&line, answer, &tables)
            }
            Err(fault) => vec![format!("line {}: {fault}", index + 1)],
        };
        out.iter().for_each(|line| printed += &format!("{line}\n"));
    }
    printed
}

#[cfg(test)]
mod tests {
    use super::*;
    use crate::compare::engines::second;

    fn printed(listing: &str) -> String {
        replay(&second, listing.as_bytes())
    }

    #[test]
    fn the_start() {
        let record = [vec![0; 492], sha1(&[0; 492]).to_vec()].concat();
        let digest = |bytes: &[u8]| hex::encode(&sha1(bytes));
        let (units, slots) = (digest(&record.repeat(8)), digest(&record.repeat(16)));
        let reply = digest(&[0; 512]);
        assert_eq!(printed("state"), format!("state {units} {slots} {reply}\n"));
        let unused = (0..8).map(|place| format!("unit {place}: unused\n"));
        let free = (0..16).map(|place| format!("slot {place}: free\n"));
        assert_eq!(printed("show all"), unused.chain(free).collect::<String>());
    }

    #[test]
    fn answers_and_faults() {
        let token = "00".repeat(16);
        let (id, key) = ("11".repeat(16), "22".repeat(20));
        let listing = format!(
            "# a unit\n\nbuild 0 0 7 {id} {key} {key}\nopen 0 0 000000000000 {token}\n\
             open 0 0 0A0000000000 {token} # parked\nopen 1 0 - {token}\nnonsense\n\
             open 0 0 A20700000000000000050000 {token}\nopen 0 0 - -\nabort 16\nbuild 8 0 0 {id} {key} {key}\n\
             close 0 0 -\npoke reply 0 ff\nexplain on\nopen 1 0 - {token}\nexplain\nexplain off\n\
             open 1\t0 - {token}\r\nreset\r"
        );
        let expected = "A0 00 0 -\nA2 00\nA1 0\nA3 02 5/25/00 1\nline 7: word 1: unknown word\n\
             A0 00 5 0000000c00\nH2\nH3\nH5\nA2 00\nA3 02 5/25/00 1: the unit is above 7, or its \
             record sound and unused\nline 16: word 2: missing word\nA3 02 5/25/00 1\nA0 00 0 -\n";
        assert_eq!(printed(&listing), expected);
    }

    #[test]
    fn a_line_that_cannot_be_read_changes_nothing() {
        let before = printed("state");
        let listing = "poke reply 511 ffff\npoke units 0 zz\nstate";
        let after = printed(listing);
        assert!(after.ends_with(&before));
        assert!(
            after.starts_with("line 1: word 4: past the table's end\nline 2: word 4: not hex\n")
        );
    }
}
