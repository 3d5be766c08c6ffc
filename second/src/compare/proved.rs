//! The C calls of the proved code, for the programs that are linked with it:
//! lines of a listing in, answers as 64 bits out.

use super::*;
use crate::engine::judge::Request;

extern "C" {
    fn nn_build(
        units: *mut u8,
        units_len: usize,
        unit: u32,
        method: u32,
        tag: u32,
        identifier: *const u8,
        auth: *const u8,
        gen: *const u8,
        keeper: u32,
    ) -> u64;
    fn nn_open(
        units: *const u8,
        units_len: usize,
        slots: *mut u8,
        slots_len: usize,
        reply: *mut u8,
        reply_len: usize,
        unit: u32,
        command: *const u8,
        command_len: usize,
        token: *const u8,
        token_len: usize,
        clock: u64,
    ) -> u64;
    fn nn_close(
        units: *mut u8,
        units_len: usize,
        slots: *mut u8,
        slots_len: usize,
        reply: *const u8,
        reply_len: usize,
        slot: u32,
        data: *const u8,
        data_len: usize,
        clock: u64,
    ) -> u64;
    fn nn_abort(slots: *mut u8, slots_len: usize, slot: u32) -> u64;
    fn nn_reset(slots: *mut u8, slots_len: usize) -> u64;
}

/// Carries the line out on these tables; a call has an answer. It is inlined,
/// like `open`, so that a bench knows the frame that a call is made from.
#[inline(always)]
pub fn run(tables: &mut Tables, line: &Line) -> Option<u64> {
    tables.poke(line);
    let (units, units_len) = (tables.units.as_mut_ptr(), tables.units.len());
    let (slots, slots_len) = (tables.slots.as_mut_ptr(), tables.slots.len());
    let (reply, reply_len) = (tables.reply.as_mut_ptr(), tables.reply.len());
    // SAFETY: each pointer goes with its buffer's length, or to an array of the
    // length that the function is declared with.
    unsafe {
        match line {
            Line::Build(asked) => Some(nn_build(
                units,
                units_len,
                asked.unit,
                asked.method,
                asked.tag,
                asked.identifier.as_ptr(),
                asked.master.authentication.as_ptr(),
                asked.master.generation.as_ptr(),
                asked.keeper,
            )),
            Line::Open(request) => Some(open(tables, request)),
            Line::Close { slot, clock, data } => Some(nn_close(
                units,
                units_len,
                slots,
                slots_len,
                reply,
                reply_len,
                *slot,
                data.as_ptr(),
                data.len(),
                *clock,
            )),
            Line::Abort { slot } => Some(nn_abort(slots, slots_len, *slot)),
            Line::Reset => Some(nn_reset(slots, slots_len)),
            Line::Poke { .. } | Line::State | Line::Show(_) | Line::Explain(_) => None,
        }
    }
}

#[inline(always)]
fn open(tables: &mut Tables, request: &Request) -> u64 {
    // SAFETY: each pointer goes with its buffer's length.
    unsafe {
        nn_open(
            tables.units.as_ptr(),
            tables.units.len(),
            tables.slots.as_mut_ptr(),
            tables.slots.len(),
            tables.reply.as_mut_ptr(),
            tables.reply.len(),
            request.unit,
            request.command.as_ptr(),
            request.command.len(),
            request.token.as_ptr(),
            request.token.len(),
            request.clock,
        )
    }
}
