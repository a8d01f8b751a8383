//! Columns to lend, with memory behind each that no call may touch.

use telbijan::Columns;

/// Places of each column, more than are ever lent.
pub const PLACES: usize = 32;

/// How many places of each column are lent.
pub type Lengths = [usize; 7];

/// Seven columns.
#[derive(Clone)]
pub struct Memory {
    pub kind: Vec<u8>,
    pub cents: Vec<f64>,
    pub numer: Vec<u32>,
    pub denom: Vec<u32>,
    pub place: Vec<u32>,
    pub ratio: Vec<f64>,
    pub wraps: Vec<i32>,
}

/// The flat call on the four columns of the items, or on all seven, after its first arguments and before the others.
macro_rules! items {
    ($call:ident, $m:expr, $n:expr $(, $more:expr)*) => {
        // Safety: no column is shorter than what is lent of it.
        unsafe {
            crate::raw::$call(
                $m.kind.as_mut_ptr(), $n[0], $m.cents.as_mut_ptr(), $n[1], $m.numer.as_mut_ptr(), $n[2], $m.denom.as_mut_ptr(), $n[3], $($more),*
            )
        }
    };
}

macro_rules! columns {
    ($call:ident, ($($first:expr),*), $m:expr, $n:expr $(, $more:expr)*) => {
        // Safety: no column is shorter than what is lent of it.
        unsafe {
            crate::raw::$call(
                $($first,)* $m.kind.as_mut_ptr(), $n[0], $m.cents.as_mut_ptr(), $n[1], $m.numer.as_mut_ptr(), $n[2], $m.denom.as_mut_ptr(), $n[3],
                $m.place.as_mut_ptr(), $n[4], $m.ratio.as_mut_ptr(), $n[5], $m.wraps.as_mut_ptr(), $n[6], $($more),*
            )
        }
    };
}

impl Memory {
    /// Another number in every place.
    pub fn new() -> Memory {
        let places = 0..PLACES as u32;
        Memory {
            kind: (100..100 + PLACES as u8).collect(),
            cents: places.clone().map(|i| 50_000.5 + f64::from(i)).collect(),
            numer: places.clone().map(|i| 60_000 + i).collect(),
            denom: places.clone().map(|i| 70_000 + i).collect(),
            place: places.clone().map(|i| 80_000 + i).collect(),
            ratio: places.clone().map(|i| 0.25 + f64::from(i)).collect(),
            wraps: places.map(|i| 90_000 + i as i32).collect(),
        }
    }

    /// The scale of a text, and its count.
    pub fn with(text: &[u8]) -> (Memory, u16) {
        let (mut memory, mut count, mut start, mut end) = (Memory::new(), 0, 0, 0);
        let whole = [PLACES; 7];
        assert_eq!(columns!(telbijan_read_scl, (text.as_ptr(), text.len()), memory, whole, &mut count, &mut start, &mut end), 0);
        (memory, count)
    }

    pub fn lend(&mut self, n: Lengths) -> Columns<'_> {
        Columns {
            kind: &mut self.kind[..n[0]],
            cents: &mut self.cents[..n[1]],
            numer: &mut self.numer[..n[2]],
            denom: &mut self.denom[..n[3]],
            place: &mut self.place[..n[4]],
            ratio: &mut self.ratio[..n[5]],
            wraps: &mut self.wraps[..n[6]],
        }
    }

    /// The bits of all seven, what is not lent too.
    pub fn bits(&self) -> [Vec<u64>; 7] {
        let (floats, words) = (|x: &[f64]| x.iter().map(|x| x.to_bits()).collect(), |x: &[u32]| x.iter().map(|&x| x.into()).collect());
        [
            self.kind.iter().map(|&x| x.into()).collect(),
            floats(&self.cents),
            words(&self.numer),
            words(&self.denom),
            words(&self.place),
            floats(&self.ratio),
            self.wraps.iter().map(|&x| x as u64).collect(),
        ]
    }
}

/// Two calls left the same; a refusal left all as it was.
pub fn same(ours: &Memory, theirs: &Memory, before: &Memory, accepted: bool) {
    assert_eq!(ours.bits(), theirs.bits());
    assert!(accepted || ours.bits() == before.bits());
}

/// Lengths around `most`: each column in turn the shortest, from none to one place more than that; all others longer, and no two the same.
pub fn lengths(most: usize) -> impl Iterator<Item = Lengths> {
    (0..7).flat_map(move |column| {
        (0..most + 2).map(move |places| {
            let mut n = [most + 2, most + 3, most + 4, most + 5, most + 6, most + 7, most + 8];
            n[column] = places;
            n
        })
    })
}
