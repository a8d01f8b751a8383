//! The interface for scales, in the same way as `ffi`. Float columns are lent as their raw bits.

use crate::ffi::{OLD_U8, OLD_U16, OLD_U32, OLD_I32};
use crate::lent;
use crate::tally::Code;

mod raw {
    crate::calls::counted! {
        fn telbijan_item_as_ratio(kind: u8, cents: f64, numer: u32, denom: u32, ratio: *mut f64) -> u64;
        fn telbijan_read_scl(
            text: *const u8, text_length: usize, kind: *mut u8, kind_length: usize, cents: *mut f64, cents_length: usize, numer: *mut u32, numer_length: usize, denom: *mut u32, denom_length: usize,
            place: *mut u32, place_length: usize, ratio: *mut f64, ratio_length: usize, wraps: *mut i32, wraps_length: usize, count: *mut u16, start: *mut usize, end: *mut usize,
        ) -> u64;
        fn telbijan_new_scl(
            kind: *mut u8, kind_length: usize, cents: *mut f64, cents_length: usize, numer: *mut u32, numer_length: usize, denom: *mut u32, denom_length: usize, place: *const u32, place_length: usize,
            ratio: *const f64, ratio_length: usize, wraps: *const i32, wraps_length: usize, room: *mut usize,
        ) -> u64;
        fn telbijan_push_cents(
            kind: *mut u8, kind_length: usize, cents: *mut f64, cents_length: usize, numer: *mut u32, numer_length: usize, denom: *mut u32, denom_length: usize, room: usize, count: usize, value: f64,
            after: *mut usize,
        ) -> u64;
        fn telbijan_push_ratio(
            kind: *mut u8, kind_length: usize, cents: *mut f64, cents_length: usize, numer: *mut u32, numer_length: usize, denom: *mut u32, denom_length: usize, room: usize, count: usize, value: f64,
            after: *mut usize,
        ) -> u64;
        fn telbijan_push_int(
            kind: *mut u8, kind_length: usize, cents: *mut f64, cents_length: usize, numer: *mut u32, numer_length: usize, denom: *mut u32, denom_length: usize, room: usize, count: usize, value: u32,
            after: *mut usize,
        ) -> u64;
        fn telbijan_push_fraction(
            kind: *mut u8, kind_length: usize, cents: *mut f64, cents_length: usize, numer: *mut u32, numer_length: usize, denom: *mut u32, denom_length: usize, room: usize, count: usize, above: u32,
            below: u32, after: *mut usize,
        ) -> u64;
        fn telbijan_build_scl(
            kind: *const u8, kind_length: usize, cents: *const f64, cents_length: usize, numer: *const u32, numer_length: usize, denom: *const u32, denom_length: usize, place: *mut u32,
            place_length: usize, ratio: *mut f64, ratio_length: usize, wraps: *mut i32, wraps_length: usize, room: usize, count: usize, items: *mut u16,
        ) -> u64;
        fn telbijan_export_scl(
            description: *const u8, description_length: usize, kind: *const u8, kind_length: usize, cents: *const f64, cents_length: usize, numer: *const u32, numer_length: usize, denom: *const u32,
            denom_length: usize, count: u16, out: *mut u8, out_length: usize, written: *mut usize,
        ) -> u64;
    }
}

/// An item of a scale; floats by their bits.
#[derive(Clone, Copy, Debug, Eq, PartialEq)]
pub enum Item {
    Cents(u64),
    Fraction(u32, Option<u32>),
}

impl Item {
    pub fn cents(x: f64) -> Item {
        Item::Cents(x.to_bits())
    }

    /// Kind, cents, numerator and denominator, as the columns have them.
    pub fn row(self) -> (u8, u64, u32, u32) {
        match self {
            Item::Cents(bits) => (0, bits, 0, 0),
            Item::Fraction(numer, Some(denom)) => (1, 0, numer, denom),
            Item::Fraction(numer, None) => (2, 0, numer, 0),
        }
    }
}

/// An entry of the sorted list: place, the bits of its ratio, wraparounds.
pub type Entry = (u32, u64, i32);

/// The seven columns of a scale, each with its own length.
#[derive(Clone, Eq, PartialEq)]
pub struct Columns {
    pub kind: Vec<u8>,
    pub cents: Vec<u64>,
    pub numer: Vec<u32>,
    pub denom: Vec<u32>,
    pub place: Vec<u32>,
    pub ratio: Vec<u64>,
    pub wraps: Vec<i32>,
}

impl Columns {
    /// Columns of these lengths, with a pattern in every place: what no item and no entry is.
    pub fn new(lengths: [usize; 7]) -> Columns {
        let [kind, cents, numer, denom, place, ratio, wraps] = lengths;
        Columns {
            kind: vec![OLD_U8; kind],
            cents: lent::column(cents),
            numer: vec![OLD_U32; numer],
            denom: vec![OLD_U32; denom],
            place: vec![OLD_U32; place],
            ratio: lent::column(ratio),
            wraps: vec![OLD_I32; wraps],
        }
    }

    /// The places of the shortest column.
    pub fn room(&self) -> usize {
        [self.kind.len(), self.cents.len(), self.numer.len(), self.denom.len(), self.place.len(), self.ratio.len(), self.wraps.len()].into_iter().min().unwrap()
    }

    pub fn put_items(&mut self, from: usize, items: &[Item]) {
        for (k, item) in items.iter().enumerate() {
            (self.kind[from + k], self.cents[from + k], self.numer[from + k], self.denom[from + k]) = item.row();
        }
    }

    /// The item at a place that the items' columns have; none of an unknown kind.
    pub fn item(&self, k: usize) -> Option<Item> {
        match self.kind[k] {
            0 => Some(Item::Cents(self.cents[k])),
            1 => Some(Item::Fraction(self.numer[k], Some(self.denom[k]))),
            2 => Some(Item::Fraction(self.numer[k], None)),
            _ => None,
        }
    }

    pub fn put_list(&mut self, list: &[Entry]) {
        for (k, &entry) in list.iter().enumerate() {
            (self.place[k], self.ratio[k], self.wraps[k]) = entry;
        }
    }

    pub fn list(&self, entries: usize) -> Vec<Entry> {
        (0..entries).map(|k| (self.place[k], self.ratio[k], self.wraps[k])).collect()
    }
}

/// The first places of a scale: the columns are compared whole, and shown short.
impl std::fmt::Debug for Columns {
    fn fmt(&self, f: &mut std::fmt::Formatter<'_>) -> std::fmt::Result {
        let shown = self.kind.len().min(self.cents.len()).min(self.numer.len()).min(self.denom.len()).min(6);
        let rows: Vec<_> = (0..shown).map(|k| (self.kind[k], f64::from_bits(self.cents[k]), self.numer[k], self.denom[k])).collect();
        let shown = self.place.len().min(self.ratio.len()).min(self.wraps.len()).min(6);
        let list: Vec<_> = self.list(shown).into_iter().map(|(place, bits, wraps)| (place, f64::from_bits(bits), wraps)).collect();
        write!(f, "{rows:?} {list:?}")
    }
}

pub const OLD_USIZE: usize = usize::MAX;

/// What a read stores beside the columns: count, and start and end of the description.
pub type Stored = (u16, usize, usize);
pub const OLD_STORED: Stored = (OLD_U16, OLD_USIZE, OLD_USIZE);

pub fn read_scl(text: &[u8], c: &mut Columns) -> (Code, Stored) {
    let (mut count, mut start, mut end) = OLD_STORED;
    let code = unsafe {
        raw::telbijan_read_scl(
            text.as_ptr(), text.len(), c.kind.as_mut_ptr(), c.kind.len(), c.cents.as_mut_ptr().cast(), c.cents.len(), c.numer.as_mut_ptr(), c.numer.len(), c.denom.as_mut_ptr(), c.denom.len(),
            c.place.as_mut_ptr(), c.place.len(), c.ratio.as_mut_ptr().cast(), c.ratio.len(), c.wraps.as_mut_ptr(), c.wraps.len(), &mut count, &mut start, &mut end,
        )
    };
    (Code(code), (count, start, end))
}

pub fn new_scl(c: &mut Columns) -> (Code, usize) {
    let mut room = OLD_USIZE;
    let code = unsafe {
        raw::telbijan_new_scl(
            c.kind.as_mut_ptr(), c.kind.len(), c.cents.as_mut_ptr().cast(), c.cents.len(), c.numer.as_mut_ptr(), c.numer.len(), c.denom.as_mut_ptr(), c.denom.len(), c.place.as_ptr(), c.place.len(),
            c.ratio.as_ptr().cast(), c.ratio.len(), c.wraps.as_ptr(), c.wraps.len(), &mut room,
        )
    };
    (Code(code), room)
}

/// One push of a builder.
#[derive(Clone, Copy, Debug)]
pub enum Push {
    Cents(f64),
    Ratio(f64),
    Int(u32),
    Fraction(u32, u32),
}

pub fn push(c: &mut Columns, room: usize, count: usize, item: Push) -> (Code, usize) {
    let mut after = OLD_USIZE;
    let (kind, kinds, cents, cents_length) = (c.kind.as_mut_ptr(), c.kind.len(), c.cents.as_mut_ptr().cast(), c.cents.len());
    let (numer, numers, denom, denoms) = (c.numer.as_mut_ptr(), c.numer.len(), c.denom.as_mut_ptr(), c.denom.len());
    let code = unsafe {
        match item {
            Push::Cents(x) => raw::telbijan_push_cents(kind, kinds, cents, cents_length, numer, numers, denom, denoms, room, count, x, &mut after),
            Push::Ratio(x) => raw::telbijan_push_ratio(kind, kinds, cents, cents_length, numer, numers, denom, denoms, room, count, x, &mut after),
            Push::Int(n) => raw::telbijan_push_int(kind, kinds, cents, cents_length, numer, numers, denom, denoms, room, count, n, &mut after),
            Push::Fraction(n, d) => raw::telbijan_push_fraction(kind, kinds, cents, cents_length, numer, numers, denom, denoms, room, count, n, d, &mut after),
        }
    };
    (Code(code), after)
}

pub fn build_scl(c: &mut Columns, room: usize, count: usize) -> (Code, u16) {
    let mut items = OLD_U16;
    let code = unsafe {
        raw::telbijan_build_scl(
            c.kind.as_ptr(), c.kind.len(), c.cents.as_ptr().cast(), c.cents.len(), c.numer.as_ptr(), c.numer.len(), c.denom.as_ptr(), c.denom.len(), c.place.as_mut_ptr(), c.place.len(),
            c.ratio.as_mut_ptr().cast(), c.ratio.len(), c.wraps.as_mut_ptr(), c.wraps.len(), room, count, &mut items,
        )
    };
    (Code(code), items)
}

pub fn export_scl(description: &[u8], c: &mut Columns, count: u16, out: &mut [u8]) -> (Code, usize) {
    let mut written = OLD_USIZE;
    let code = unsafe {
        raw::telbijan_export_scl(
            description.as_ptr(), description.len(), c.kind.as_mut_ptr(), c.kind.len(), c.cents.as_mut_ptr().cast(), c.cents.len(), c.numer.as_mut_ptr(), c.numer.len(), c.denom.as_mut_ptr(), c.denom.len(),
            count, out.as_mut_ptr(), out.len(), &mut written,
        )
    };
    (Code(code), written)
}

pub fn item_as_ratio(kind: u8, cents: f64, numer: u32, denom: u32) -> (Code, lent::Float) {
    let (code, ratio, ()) = lent::lend(|ratio| (Code(unsafe { raw::telbijan_item_as_ratio(kind, cents, numer, denom, ratio) }), ()));
    (code, ratio)
}
