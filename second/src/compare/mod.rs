//! What the two engines are compared by: listings of calls, which are read and
//! replayed here, and calls that both make in one process.

pub mod difference;
pub mod engines;
pub mod files;
pub mod fuzz;
pub mod lines;
pub mod outputs;
pub mod places;
#[cfg(any(feature = "fuzz", feature = "bench"))]
pub mod proved;
pub mod replay;
pub mod shorten;
pub mod show;

// What these share.
use crate::engine::answer::{reason_words, Answer};
use crate::engine::codes::{cdb_length, is_data_out, OUT};
use crate::engine::descriptor::WRAPPING;
use crate::engine::hashes::{Hashes, Own};
use crate::engine::records::{bytes, BODY, KEEPER, RECORD, SLOTS, UNITS};
use crate::engine::sha1::sha1;
use crate::engine::tables::Tables;
use crate::engine::{hex, Engine};
use crate::generate::rng::Rng;
use crate::generate::Watch;
use difference::{Misfit, Outcome};
use engines::Run;
use lines::{parse, Buffer, Line, Shown, BUFFERS};
use places::UNIT;
use replay::answer_text;
use shorten::History;
use show::show;
