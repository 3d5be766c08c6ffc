//! Engines that carry the lines of a listing out on tables.

use super::*;

/// An engine: it carries a line out on the tables, and gives a call's answer in
/// 64 bits.
pub type Run<'a> = &'a dyn Fn(&mut Tables, &Line) -> Option<u64>;

/// This crate's engine over its own hashes.
pub fn second(tables: &mut Tables, line: &Line) -> Option<u64> {
    over(&Engine::new(Own), tables, line)
}

/// The same over any hashes.
pub fn over(engine: &Engine<impl Hashes>, tables: &mut Tables, line: &Line) -> Option<u64> {
    let answer = tables.run(engine, line);
    answer.map(|answer| answer.packed())
}

impl Tables {
    pub fn get(&self, buffer: Buffer) -> &Vec<u8> {
        [&self.units, &self.slots, &self.reply][buffer as usize]
    }

    pub fn buffer(&mut self, buffer: Buffer) -> &mut Vec<u8> {
        match buffer {
            Buffer::Units => &mut self.units,
            Buffer::Slots => &mut self.slots,
            Buffer::Reply => &mut self.reply,
        }
    }

    /// Carries the line out; a call has an answer.
    pub fn run(&mut self, engine: &Engine<impl Hashes>, line: &Line) -> Option<Answer> {
        self.poke(line);
        match line {
            Line::Build(asked) => Some(engine.build(&mut self.units, asked)),
            Line::Open(request) => Some(engine.open(self, request)),
            Line::Close { slot, clock, data } => Some(engine.close(self, *slot, data, *clock)),
            Line::Abort { slot } => Some(engine.abort(&mut self.slots, *slot)),
            Line::Reset => Some(engine.reset(&mut self.slots)),
            Line::Poke { .. } | Line::State | Line::Show(_) | Line::Explain(_) => None,
        }
    }

    /// Lays the bytes of a poke into their buffer, where the line is one.
    pub fn poke(&mut self, line: &Line) {
        if let Line::Poke { buffer, at, bytes } = line {
            self.buffer(*buffer)[*at as usize..][..bytes.len()].copy_from_slice(bytes);
        }
    }
}
