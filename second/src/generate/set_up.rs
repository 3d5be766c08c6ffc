//! Units in all standings, for the sections to call on: NOSEC and CAPKEY, with
//! and without working keys, with and without a pending exchange, one unused
//! and one unsound.

use super::*;

/// Method, tag (0, or anything else for one by chance), working keys, and
/// whether an exchange is pending, for each of the units 0 to 5.
const STANDINGS: [(u32, u32, u8, bool); 6] = [
    (0, 0, 0, false),
    (0, 7, 3, false),
    (1, 0, 16, false),
    (1, 8, 3, true),
    (1, 9, 2, false),
    (0, 1, 1, true),
];
const UNUSED: u32 = 6;
const UNSOUND: u32 = 7;

/// Mostly by chance; else one that is zero or cancels a pad of HMAC.
fn master_key(rng: &mut Rng) -> Key {
    match rng.below(12) {
        0 => [0; 20],
        1 => [0x36; 20],
        2 => [0x5c; 20],
        _ => rng.array(),
    }
}

impl<W: Watch> World<W> {
    /// Builds a unit of its own keys, which are by chance like its identifier.
    pub fn fresh(&mut self, unit: u32, method: u32, tag: u32) -> Answer {
        self.fresh_with(unit, method, tag, 0)
    }

    /// The same with this value for bytes 432-433.
    pub fn fresh_with(&mut self, unit: u32, method: u32, tag: u32, keeper: u32) -> Answer {
        let rng = &mut self.rng;
        let (identifier, master) = (rng.array(), Pair::new(master_key(rng), master_key(rng)));
        let asked = Build::new(unit, method, tag, identifier, master);
        self.build(asked.with_keeper(keeper))
    }

    /// Makes eight units, of which none is a sharer, and sixteen free slots.
    pub fn set_up(&mut self) {
        self.sharing = false;
        self.reset();
        for (unit, (method, tag, keys, pending)) in (0..).zip(STANDINGS) {
            let tag = match tag {
                0 => 0,
                _ => self.rng.pick(&[7, 8, 0x0700_0000, u32::MAX]),
            };
            self.fresh(unit, method, tag);
            self.set_keys_in_set(unit, keys);
            if pending {
                self.exchange(unit);
            }
        }
        self.make_unused(UNUSED);
        self.fresh(UNSOUND, 0, 0);
        let at = UNSOUND as usize * RECORD + self.rng.length(RECORD - 1);
        let byte = !self.tables.units[at];
        self.poke(Buffer::Units, at, vec![byte]);
    }

    /// Makes the unit an unused one, which no call can.
    pub fn make_unused(&mut self, unit: u32) {
        if self.unit(unit) != Record::Empty {
            self.rewrite(Buffer::Units, unit, &[0; BODY], Check::MadeRight);
        }
    }

    /// Fills the reply with chance, so that what a call keeps of it shows.
    pub fn stain_reply(&mut self) {
        let bytes = self.rng.bytes(512);
        self.poke(Buffer::Reply, 0, bytes);
    }
}
