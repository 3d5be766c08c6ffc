//! SHA-1 and HMAC-SHA1 written from the published standards, and an engine
//! written from document 01, K4 of document 02 and the readings of them that
//! docs/DECISIONS.md names ("How far the second engine is independent"), with
//! none of Nectarnook's proved code seen: a second program to compare it with.
//! On those readings agreement says less than on the rest.

pub mod bench;
pub mod compare;
pub mod engine;
pub mod generate;
