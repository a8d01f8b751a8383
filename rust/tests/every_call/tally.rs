//! Answers held to the flat call's, and counted: a function is done when it was both accepted and refused.

use std::collections::BTreeMap;
use std::ops::Range;
use telbijan::ratio::{BestFraction, NearestFraction};
use telbijan::{Found, Numbers, Refusal};

/// An answer as the bits of all its parts.
pub trait Bits {
    fn bits(&self) -> Vec<u64>;
}

macro_rules! bits {
    ($($type:ty: $x:ident => [$($part:expr),*];)+) => {
        $(impl Bits for $type {
            fn bits(&self) -> Vec<u64> {
                let $x = self;
                vec![$($part),*]
            }
        })+
    };
}

bits! {
    (): _x => [];
    f64: x => [x.to_bits()];
    i32: x => [*x as u64];
    bool: x => [u64::from(*x)];
    u16: x => [u64::from(*x)];
    usize: x => [*x as u64];
    (u16, Range<usize>): x => [x.0.into(), x.1.start as u64, x.1.end as u64];
    Found: x => [x.number as u64, x.deviation.to_bits()];
    NearestFraction: x => [x.numer.into(), x.denom.into(), x.deviation.to_bits(), x.octaves as u64];
    BestFraction: x => [x.numer.into(), x.denom.into(), x.deviation.to_bits()];
    Numbers: x => [x.count.into(), x.start as u64, x.end as u64, x.root.reference as u64, x.root.hz.to_bits(), x.root.offset as u64, x.octave as u64];
}

/// How often each function was accepted, and how often refused.
#[derive(Default)]
pub struct Tally(BTreeMap<&'static str, [u32; 2]>);

impl Tally {
    /// The crate's answer is the flat call's; whether it was accepted.
    pub fn agree<T: Bits>(&mut self, name: &'static str, ours: Result<T, Refusal>, result: u64, theirs: T) -> bool {
        match ours {
            Ok(x) => assert_eq!((0, x.bits()), (result, theirs.bits()), "{name}"),
            Err(x) => assert_eq!((x.number().into(), x.detail()), (result & 0xff, result >> 8), "{name}"),
        }
        self.0.entry(name).or_default()[usize::from(result != 0)] += 1;
        result == 0
    }

    /// Every function that was asked was both accepted and refused.
    pub fn done(self, functions: usize) {
        assert_eq!(self.0.len(), functions);
        for (name, sides) in self.0 {
            counted(name, sides);
        }
    }
}

/// A function that was both accepted and refused; tools/rust sees that each is.
pub fn counted(name: &str, [accepted, refused]: [u32; 2]) {
    assert!(accepted > 0 && refused > 0, "{name}: {accepted} accepted, {refused} refused");
    println!("counted {name}: {accepted} accepted, {refused} refused");
}
