//! Tests of the engine as a whole, from the text of documents 01 and 02:
//! records are laid out by hand here, so that the engine's own layout is tested
//! as well.

mod buffers;
mod effects;
mod examples;
mod page_replies;
mod reasons;
mod reasons_at_close;
mod sets;
mod sharers;
mod soundness;
mod stand;

// What the tests share.
use super::answer::Answer::{self, A3 as refused};
use super::answer::{Reason, DONE};
use super::codes::page_cdb;
use super::descriptor::{Descriptor, TAG};
use super::hashes::Own;
use super::hmac::hmac_sha1;
use super::records::Pair;
use super::sha1::sha1;
use super::tables::Tables;
use super::{codes, hex, Build, Engine};
use crate::compare::lines::{Buffer, Line, Shown, BUFFERS};
use crate::compare::show::show;
use crate::generate::{lists, World};
use sets::*;
use stand::*;
