//! Part of the crate `tune`, commit cce584cfc4, as given: see NOTICE. Only the two calls of `exp2` and `log2` in pitch.rs
//! are changed; they go through [`powers`], which is ours.

pub mod key;
pub mod math;
pub mod note;
pub mod parse;
pub mod pitch;
pub mod powers;
pub mod scala;
pub mod tuning;
