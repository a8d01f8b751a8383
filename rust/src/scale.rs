//! Scales: seven columns that a caller lends or owns, and what is asked of them.

use crate::{raw, Refusal, Root};
use core::ops::Range;

/// The columns of a scale, lent to be written: place 0 holds the implicit unison, so that n items need n + 1 places.
#[derive(Debug)]
pub struct Columns<'a> {
    /// Of an item: 0 for `cents`, 1 for the fraction `numer` / `denom`, 2 for the integer `numer`.
    pub kind: &'a mut [u8],
    /// Of an item of kind 0, from -38,400 to 38,400; else 0.
    pub cents: &'a mut [f64],
    /// Of an item of kind 1 or 2, at least 1; else 0.
    pub numer: &'a mut [u32],
    /// Of an item of kind 1, at least 1; else 0.
    pub denom: &'a mut [u32],
    /// Of an entry of the sorted list: the place of its item.
    pub place: &'a mut [u32],
    /// Of an entry: the item's ratio, reduced by the period.
    pub ratio: &'a mut [f64],
    /// Of an entry: how many periods that took away.
    pub wraps: &'a mut [i32],
}

/// A scale in borrowed columns: what is asked of a scale is asked here.
#[derive(Clone, Copy, Debug)]
pub struct ScaleRef<'a> {
    pub(crate) kind: &'a [u8],
    pub(crate) cents: &'a [f64],
    pub(crate) numer: &'a [u32],
    pub(crate) denom: &'a [u32],
    pub(crate) place: &'a [u32],
    pub(crate) ratio: &'a [f64],
    pub(crate) wraps: &'a [i32],
    pub(crate) count: u16,
}

/// The nearest degree or key, and how far the target lies above it, a ratio.
#[derive(Clone, Copy, Debug, PartialEq)]
pub struct Found {
    /// The degree, or the key where a key was asked for.
    pub number: i32,
    /// How far the target lies above it, a ratio.
    pub deviation: f64,
}

/// The items' columns as a call takes them.
macro_rules! items {
    ($c:expr) => {
        ($c.kind.as_ptr(), $c.kind.len(), $c.cents.as_ptr(), $c.cents.len(), $c.numer.as_ptr(), $c.numer.len(), $c.denom.as_ptr(), $c.denom.len())
    };
}

/// A call that reads the items.
macro_rules! ask_items {
    ($call:ident, $c:expr $(, $more:expr)* $(,)?) => {{
        let (a, b, c, d, e, f, g, h) = items!($c);
        // Safety: each pointer comes with its slice's length, and nothing is written but the out-values, which stand apart.
        Refusal::of(unsafe { raw::$call(a, b, c, d, e, f, g, h, $($more),*) })
    }};
}

/// A call that reads items and list.
macro_rules! ask_scale {
    ($call:ident, $c:expr $(, $more:expr)* $(,)?) => {{
        let (a, b, c, d, e, f, g, h) = items!($c);
        // Safety: as above.
        Refusal::of(unsafe {
            raw::$call(
                a, b, c, d, e, f, g, h, $c.place.as_ptr(), $c.place.len(), $c.ratio.as_ptr(), $c.ratio.len(), $c.wraps.as_ptr(), $c.wraps.len(), $($more),*
            )
        })
    }};
}

/// A call that writes all seven columns, between its first and its last arguments.
macro_rules! write_columns {
    ($call:ident, ($($first:expr),*), $c:expr $(, $more:expr)* $(,)?) => {
        // Safety: each pointer comes with its slice's length; the seven are borrowed for writing, and so do not overlap.
        Refusal::of(unsafe {
            raw::$call(
                $($first,)* $c.kind.as_mut_ptr(), $c.kind.len(), $c.cents.as_mut_ptr(), $c.cents.len(), $c.numer.as_mut_ptr(), $c.numer.len(), $c.denom.as_mut_ptr(),
                $c.denom.len(), $c.place.as_mut_ptr(), $c.place.len(), $c.ratio.as_mut_ptr(), $c.ratio.len(), $c.wraps.as_mut_ptr(), $c.wraps.len(), $($more),*
            )
        })
    };
}

pub(crate) use {ask_items, items};

/// Each call but `count` and `room_for_export` gives 10 where the columns are no scale of this count, or not usable.
impl<'a> ScaleRef<'a> {
    /// How many items it has, place 0 not counted.
    pub fn count(self) -> u16 {
        self.count
    }

    /// The ratio of the last item; 1.0 in a scale without items.
    pub fn period(self) -> Result<f64, Refusal> {
        let mut x = 0.0;
        ask_items!(telbijan_period, self, self.count, &mut x).map(|()| x)
    }

    /// The ratio of a degree to degree 0; 18 outside 2^-900..2^900.
    pub fn relative_pitch_of(self, degree: i32) -> Result<f64, Refusal> {
        let mut x = 0.0;
        ask_items!(telbijan_relative_pitch_of, self, self.count, degree, &mut x).map(|()| x)
    }

    /// The same, the degree counted in ascending order.
    pub fn sorted_relative_pitch_of(self, degree: i32) -> Result<f64, Refusal> {
        let mut x = 0.0;
        ask_scale!(telbijan_sorted_relative_pitch_of, self, self.count, degree, &mut x).map(|()| x)
    }

    /// The degree that comes nearest to a ratio; 10 for a ratio outside 2^-64..2^64, 18 in a scale of one item with period 1.0, 11 where the
    /// degree passes 32 bits.
    pub fn find(self, target: f64) -> Result<Found, Refusal> {
        let mut found = Found { number: 0, deviation: 0.0 };
        ask_scale!(telbijan_find_by_relative_pitch, self, self.count, target, &mut found.number, &mut found.deviation).map(|()| found)
    }

    /// The same, the degree counted in ascending order.
    pub fn find_sorted(self, target: f64) -> Result<Found, Refusal> {
        let mut found = Found { number: 0, deviation: 0.0 };
        ask_scale!(telbijan_find_by_relative_pitch_sorted, self, self.count, target, &mut found.number, &mut found.deviation).map(|()| found)
    }

    /// The pitch of a degree above a root, in Hz; 10 for a root's pitch outside 2^-10..2^20, 11 for the root offset -2147483648, 18 for a pitch
    /// or ratio outside 2^-900..2^900.
    pub fn pitch_of(self, root: Root, degree: i32) -> Result<f64, Refusal> {
        let mut x = 0.0;
        ask_items!(telbijan_pitch_of, self, self.count, root.reference, root.hz, root.offset, degree, &mut x).map(|()| x)
    }

    /// The pitch of a key, whose degree is its distance from the root's reference key: as `pitch_of`, and 11 where the distance passes 32 bits.
    pub fn pitch_of_key(self, root: Root, key: i32) -> Result<f64, Refusal> {
        let mut x = 0.0;
        ask_items!(telbijan_pitch_of_key, self, self.count, root.reference, root.hz, root.offset, key, &mut x).map(|()| x)
    }

    /// As `pitch_of`, the degree counted in ascending order.
    pub fn sorted_pitch_of(self, root: Root, degree: i32) -> Result<f64, Refusal> {
        let mut x = 0.0;
        ask_scale!(telbijan_sorted_pitch_of, self, self.count, root.reference, root.hz, root.offset, degree, &mut x).map(|()| x)
    }

    /// The degree whose pitch above a root comes nearest; 10 for either pitch outside 2^-10..2^20, 11 for the root offset -2147483648, 18 for a
    /// ratio between them outside 2^-64..2^64, and as `find`.
    pub fn find_by_pitch(self, root: Root, hz: f64) -> Result<Found, Refusal> {
        let mut found = Found { number: 0, deviation: 0.0 };
        ask_scale!(telbijan_find_by_pitch, self, self.count, root.reference, root.hz, root.offset, hz, &mut found.number, &mut found.deviation).map(|()| found)
    }

    /// The same, the degree counted in ascending order.
    pub fn find_by_pitch_sorted(self, root: Root, hz: f64) -> Result<Found, Refusal> {
        let mut found = Found { number: 0, deviation: 0.0 };
        ask_scale!(telbijan_find_by_pitch_sorted, self, self.count, root.reference, root.hz, root.offset, hz, &mut found.number, &mut found.deviation).map(|()| found)
    }

    /// The key whose pitch comes nearest, that degree above the reference key; 11 where the key passes 32 bits too. Each key counts as one degree:
    /// no mapping plays a part.
    pub fn find_key_by_pitch(self, root: Root, hz: f64) -> Result<Found, Refusal> {
        let mut found = Found { number: 0, deviation: 0.0 };
        ask_scale!(telbijan_find_key_by_pitch, self, self.count, root.reference, root.hz, root.offset, hz, &mut found.number, &mut found.deviation).map(|()| found)
    }

    /// The text of the scale, written into the first bytes of `out`: how many they are; the others stay. 12 where the text is longer than `out`;
    /// `room_for_export` bytes are always enough.
    pub fn export(self, description: &str, out: &mut [u8]) -> Result<usize, Refusal> {
        let mut written = 0;
        let (a, b, c, d, e, f, g, h) = items!(self);
        // Safety: each pointer comes with its slice's length; `out` is borrowed for writing, and so apart from the rest.
        let result = unsafe { raw::telbijan_export_scl(description.as_ptr(), description.len(), a, b, c, d, e, f, g, h, self.count, out.as_mut_ptr(), out.len(), &mut written) };
        Refusal::of(result).map(|()| written)
    }

    /// So many bytes are enough for an export under this description (proved).
    pub fn room_for_export(self, description: &str) -> usize {
        description.len() + 7 + 22 * usize::from(self.count)
    }

    pub(crate) fn columns(&self) -> (&'a [u8], &'a [f64], &'a [u32], &'a [u32]) {
        (self.kind, self.cents, self.numer, self.denom)
    }
}

impl<'a> Columns<'a> {
    /// Reads a scale file into the columns: the count of its items, and where its description stands in the text. The places behind keep their
    /// values; 12 where a column has no place for an item or place 0.
    pub fn read(&mut self, text: &[u8]) -> Result<(u16, Range<usize>), Refusal> {
        let (mut count, mut start, mut end) = (0, 0, 0);
        write_columns!(telbijan_read_scl, (text.as_ptr(), text.len()), self, &mut count, &mut start, &mut end).map(|()| (count, start..end))
    }

    /// A segment of the harmonic series, whole or in so many equal divisions: the count of its items. 10 for start 0, 12 where the columns are
    /// too short, 18 for 0 divisions and where two or more items have the period 1.0.
    pub fn create_harmonics(&mut self, otonal: bool, start: u16, size: u16, divisions: Option<u16>) -> Result<u16, Refusal> {
        let mut count = 0;
        write_columns!(telbijan_create_harmonics_scale, (otonal, start, size, divisions.is_some(), divisions.unwrap_or(0)), self, &mut count).map(|()| count)
    }

    /// A rank-2 temperament, the period and so many generations of the generator up and down: the count of its items. 13 for over 65,535, 10 for
    /// a generator or a period outside 2^-32..2^32 or a period of 1.0, 12 where the columns are too short, 18 as above.
    pub fn create_rank2(&mut self, generator: f64, positive: u16, negative: u16, period: f64) -> Result<u16, Refusal> {
        let mut count = 0;
        write_columns!(telbijan_create_rank2_temperament_scale, (generator, positive, negative, period), self, &mut count).map(|()| count)
    }

    /// A builder on these columns; what they hold is lost. 12 where one has no place.
    pub fn builder(mut self) -> Result<Builder<'a>, Refusal> {
        let mut room = 0;
        write_columns!(telbijan_new_scl, (), &mut self, &mut room).map(|()| Builder { columns: self, room, count: 0 })
    }

    /// The scale of this many items in the columns. Whether they are one is tested by every call.
    pub fn scale(&self, count: u16) -> ScaleRef<'_> {
        ScaleRef { kind: self.kind, cents: self.cents, numer: self.numer, denom: self.denom, place: self.place, ratio: self.ratio, wraps: self.wraps, count }
    }
}

/// Items pushed one by one. A push gives 10 for a number that cannot be used, 12 with no place left, and then pushes nothing.
#[derive(Debug)]
pub struct Builder<'a> {
    columns: Columns<'a>,
    room: usize,
    count: usize,
}

/// A push of one or two numbers.
macro_rules! push {
    ($builder:ident, $call:ident, $($value:expr),*) => {{
        let c = &mut $builder.columns;
        let mut after = $builder.count;
        // Safety: each pointer comes with its slice's length; the columns are borrowed for writing, and so do not overlap.
        let result = unsafe {
            raw::$call(
                c.kind.as_mut_ptr(), c.kind.len(), c.cents.as_mut_ptr(), c.cents.len(), c.numer.as_mut_ptr(), c.numer.len(), c.denom.as_mut_ptr(), c.denom.len(),
                $builder.room, $builder.count, $($value,)* &mut after,
            )
        };
        Refusal::of(result).map(|()| $builder.count = after)
    }};
}

impl<'a> Builder<'a> {
    /// Cents, from -38,400 to 38,400.
    pub fn push_cents(&mut self, cents: f64) -> Result<(), Refusal> {
        push!(self, telbijan_push_cents, cents)
    }

    /// A ratio, kept as its cents, which are within the same limits.
    pub fn push_ratio(&mut self, ratio: f64) -> Result<(), Refusal> {
        push!(self, telbijan_push_ratio, ratio)
    }

    /// An integer, at least 1: a fraction whose denominator is lacking.
    pub fn push_int(&mut self, number: u32) -> Result<(), Refusal> {
        push!(self, telbijan_push_int, number)
    }

    /// A fraction, both numbers at least 1.
    pub fn push_fraction(&mut self, numer: u32, denom: u32) -> Result<(), Refusal> {
        push!(self, telbijan_push_fraction, numer, denom)
    }

    /// The sorted list of what was pushed: the columns, and the count of their items. 13 over 65,535 items, 18 where two or more have the
    /// period 1.0.
    pub fn build(self) -> Result<(Columns<'a>, u16), Refusal> {
        let (mut count, c) = (0, self.columns);
        // Safety: as in `push!`.
        let result = unsafe {
            raw::telbijan_build_scl(
                c.kind.as_ptr(), c.kind.len(), c.cents.as_ptr(), c.cents.len(), c.numer.as_ptr(), c.numer.len(), c.denom.as_ptr(), c.denom.len(), c.place.as_mut_ptr(), c.place.len(),
                c.ratio.as_mut_ptr(), c.ratio.len(), c.wraps.as_mut_ptr(), c.wraps.len(), self.room, self.count, &mut count,
            )
        };
        Refusal::of(result).map(|()| (c, count))
    }
}
