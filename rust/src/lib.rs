//! A tuning loader: it reads Scala scales (SCL) and keyboard mappings (KBM), tells the degree and the pitch of a key, and finds the degree
//! or key nearest to a pitch. The code behind it is proved: no input stops a call or draws a made-up answer, and a refusal leaves what was
//! lent as it was. This crate is a safe wrapper, with no dependencies; without the feature `alloc` it is `no_std` and allocates nothing.
//!
//! ```
//! use telbijan::{number, Mapping, Scale};
//!
//! let scale = Scale::read(b"A just third and a fifth\n3\n5/4\n3/2\n2/1\n")?;
//! let mapping = Mapping::read(b"0\n0\n127\n60\n60\n264.0\n0\n")?;
//! let tuning = mapping.over(&scale);
//! assert_eq!(tuning.pitch_of(62)?, 396.0);
//! assert_eq!(tuning.pitch_of(128).unwrap_err().number(), number::KEY_OUT_OF_RANGE);
//! # Ok::<(), telbijan::Refusal>(())
//! ```
//!
//! Keys are counted from the reference key, as the Rust crate `tune` does; or, by the calls `.._from_middle`, from the middle key, as
//! Scala does: take these for files made for Scala. The searches count from the reference key.
//!
//! With tables that the caller lends:
//!
//! ```
//! use telbijan::Columns;
//!
//! let (mut kind, mut cents, mut numer, mut denom) = ([0; 8], [0.0; 8], [0; 8], [0; 8]);
//! let (mut place, mut ratio, mut wraps) = ([0; 8], [0.0; 8], [0; 8]);
//! let mut columns = Columns {
//!     kind: &mut kind, cents: &mut cents, numer: &mut numer, denom: &mut denom, place: &mut place, ratio: &mut ratio, wraps: &mut wraps,
//! };
//! let (count, _) = columns.read(b"fifths\n2\n3/2\n2/1\n")?;
//! assert_eq!(columns.scale(count).find(3.1)?.number, 3);
//! # Ok::<(), telbijan::Refusal>(())
//! ```
#![no_std]
#![warn(missing_docs)]
#[cfg(feature = "alloc")]
extern crate alloc;

mod mapping;
mod mapping_builder;
#[cfg(feature = "alloc")]
mod owned;
pub mod ratio;
mod raw;
mod refusal;
mod scale;

pub use mapping::{read_mapping, MappingRef, Numbers, Root, Tuning, UNMAPPED};
pub use mapping_builder::MappingBuilder;
#[cfg(feature = "alloc")]
pub use owned::{Mapping, Scale};
pub use refusal::{number, reason, Refusal};
pub use scale::{Builder, Columns, Found, ScaleRef};
