//! How much stack the proved code's calls take, measured by painting: the
//! stack below a frame is filled with a pattern, a call is made from that
//! frame's depth, and the lowest word that is no longer the pattern shows how
//! deep the call wrote. That is what it wrote, the return address with it; a
//! word that it only set aside below the lowest it wrote is not seen.

use crate::compare::lines::Line;
use crate::compare::proved;
use crate::engine::answer::Answer;
use crate::engine::tables::Tables;
use crate::generate::{Watch, World};
use std::arch::asm;
use std::collections::BTreeMap;
use std::hint::black_box;
use std::mem::{size_of, MaybeUninit};
use std::ptr;

const PAINT: u64 = 0xa5c3_96e1_0f78_d24b;
/// Words painted: many times what a call was seen to take.
const WORDS: usize = 8192;

/// The deepest that each of the five calls went, in bytes.
#[derive(Default)]
pub struct Deepest {
    tables: Tables,
    pub by_call: BTreeMap<&'static str, usize>,
}

impl Watch for Deepest {
    fn saw(&mut self, line: &Line, _: Option<Answer>, _: &Tables) {
        let depth = depth(&mut self.tables, line);
        if let Some(name) = line.call_name() {
            let deepest = self.by_call.entry(name).or_default();
            *deepest = depth.max(*deepest);
        }
    }
}

/// Over calls made from this seed: at least so many, good and bad, of every
/// command and page.
pub fn deepest(seed: u64, calls: usize) -> Deepest {
    let mut world = World::new(seed, Deepest::default());
    world.run_only_examples();
    world.lettered_examples();
    world.go_on(calls);
    world.watch
}

/// The bytes of stack that the line's call takes. The three functions that it
/// calls are never inlined, so that their frames begin at the same place.
#[inline(never)]
fn depth(tables: &mut Tables, line: &Line) -> usize {
    let painted = paint();
    let top = call(tables, line);
    let lowest = lowest_written(painted);
    assert!(lowest > painted, "the call wrote below the paint");
    top.saturating_sub(lowest)
}

/// Paints, and gives the lowest painted address. It is a number, as the room
/// is no longer the program's own when this returns.
#[inline(never)]
fn paint() -> usize {
    let mut room = [MaybeUninit::<u64>::uninit(); WORDS];
    for word in &mut room {
        // SAFETY: the word is the room's. Volatile, or nothing would be
        // written that is not read.
        unsafe { ptr::write_volatile(word.as_mut_ptr(), PAINT) };
    }
    black_box(&room).as_ptr().expose_provenance()
}

/// Makes the call, and gives the stack pointer that it was made at.
#[inline(never)]
fn call(tables: &mut Tables, line: &Line) -> usize {
    let top = stack_pointer();
    black_box(proved::run(tables, line));
    top
}

/// In the frame of the caller, of which this becomes a part.
#[inline(always)]
fn stack_pointer() -> usize {
    let here: usize;
    // SAFETY: a register is read, and nothing else is touched.
    unsafe {
        #[cfg(target_arch = "x86_64")]
        asm!("mov {}, rsp", out(reg) here, options(nomem, nostack, preserves_flags));
        #[cfg(target_arch = "aarch64")]
        asm!("mov {}, sp", out(reg) here, options(nomem, nostack, preserves_flags));
    }
    here
}

/// The address of the lowest word that is not paint. Its own frame is smaller
/// than that of `call`, and so above what is looked for.
#[inline(never)]
fn lowest_written(painted: usize) -> usize {
    let is_paint = |address: &usize| {
        // SAFETY: the address is of this thread's stack, which stays mapped
        // below the stack pointer as far as it was once written.
        unsafe { ptr::read_volatile(ptr::with_exposed_provenance::<u64>(*address)) == PAINT }
    };
    let mut words = (0..WORDS).map(|index| painted + index * size_of::<u64>());
    let end = painted + WORDS * size_of::<u64>();
    words.find(|at| !is_paint(at)).unwrap_or(end)
}
