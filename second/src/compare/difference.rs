//! What two engines make of the same call, and where that differs.

use super::*;

/// Bytes that are told of a buffer from the first differing one on.
const TOLD: usize = 20;

/// Another length for a buffer, and what fills it where that is longer.
#[derive(Clone, Copy, Debug)]
pub struct Misfit {
    pub buffer: Buffer,
    pub length: usize,
    pub filler: u8,
}

/// Answers and tables, ours and theirs.
#[derive(Clone, Debug)]
pub struct Outcome {
    pub answers: [Option<u64>; 2],
    pub tables: [Tables; 2],
}

impl Outcome {
    /// The call made by both on tables of these lengths.
    pub fn of(engines: [Run; 2], before: &Tables, misfits: &[Misfit], line: &Line) -> Outcome {
        let mut tables = [before.clone(), before.clone()];
        let answers = [0, 1].map(|side| {
            for misfit in misfits {
                let buffer = tables[side].buffer(misfit.buffer);
                buffer.resize(misfit.length, misfit.filler);
            }
            engines[side](&mut tables[side], line)
        });
        Outcome { answers, tables }
    }

    pub fn differs(&self) -> bool {
        self.answers[0] != self.answers[1] || self.tables[0] != self.tables[1]
    }

    /// Both answers and, of each buffer that differs, the first byte that does.
    pub fn report(&self) -> Vec<String> {
        let [ours, theirs] = &self.tables;
        let mut told = Vec::new();
        if let [Some(our), Some(their)] = self.answers {
            told.push(format!("our answer:   {}", answer_text(our, &ours.reply)));
            told.push(format!(
                "their answer: {}",
                answer_text(their, &theirs.reply)
            ));
        }
        for buffer in BUFFERS {
            let (ours, theirs) = (ours.get(buffer), theirs.get(buffer));
            let mut pairs = ours.iter().zip(theirs);
            if let Some(at) = pairs.position(|(our, their)| our != their) {
                let (name, place) = (buffer.name(), places::name(buffer, at));
                told.push(format!("{name} differ, first at byte {at}: {place}"));
                for (whose, bytes) in [("ours:  ", ours), ("theirs:", theirs)] {
                    let bytes = &bytes[at..][..TOLD.min(bytes.len() - at)];
                    told.push(format!("  {whose} {}", hex::encode(bytes)));
                }
            }
        }
        told
    }
}
