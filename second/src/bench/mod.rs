//! What the benches share, and the stack that the proved code's calls take.

pub mod desk;
#[cfg(feature = "bench")]
pub mod stack;
pub mod timing;
