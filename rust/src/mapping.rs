//! Keyboard mappings: a table of entries that a caller lends or owns, and the numbers beside it.

use crate::scale::{ask_items, items};
use crate::{number, raw, Refusal, ScaleRef};

/// What stands in a mapping's table for a key that is unmapped.
pub const UNMAPPED: i32 = i32::MIN;

/// The key that a tuning hangs on, its pitch in Hz, and the root's distance from the key.
#[derive(Clone, Copy, Debug, PartialEq)]
pub struct Root {
    /// The reference key.
    pub reference: i32,
    /// Its pitch in Hz, from 2^-10 to 2^20.
    pub hz: f64,
    /// The middle key minus the reference key.
    pub offset: i32,
}

/// A mapping's numbers: how many entries its table has, the keys from `start` up to, not including, `end`, the root, and how many degrees
/// make a formal octave. What was read or built has a key in its range, `start` below `end`; other numbers are taken too, and with them
/// every key is outside (16).
#[derive(Clone, Copy, Debug, PartialEq)]
pub struct Numbers {
    /// The entries, from the table's first place on.
    pub count: u16,
    /// The first key.
    pub start: i32,
    /// The key after the last.
    pub end: i32,
    /// What the keys hang on.
    pub root: Root,
    /// The formal octave.
    pub octave: i16,
}

/// A mapping in a borrowed table.
#[derive(Clone, Copy, Debug)]
pub struct MappingRef<'a> {
    /// The table: degrees from -32768 to 32767, and `UNMAPPED`.
    pub map: &'a [i32],
    /// What stands beside it.
    pub numbers: Numbers,
}

/// The mapping as a call takes it.
macro_rules! mapping {
    ($m:expr) => {{
        let n = $m.numbers;
        ($m.map.as_ptr(), $m.map.len(), n.count, n.start, n.end, n.root.reference, n.root.hz, n.root.offset, n.octave)
    }};
}

/// Reads a mapping file into a table; the places behind its entries keep their values. 25 where the last key is below the first, at the
/// last key's line; 12 where an entry has no place.
pub fn read_mapping(text: &[u8], map: &mut [i32]) -> Result<Numbers, Refusal> {
    let mut n = Numbers { count: 0, start: 0, end: 0, root: Root { reference: 0, hz: 0.0, offset: 0 }, octave: 0 };
    // Safety: each pointer comes with its slice's length; `map` is borrowed for writing, and the numbers stand apart.
    let result = unsafe {
        raw::telbijan_read_kbm(
            text.as_ptr(), text.len(), map.as_mut_ptr(), map.len(), &mut n.count, &mut n.start, &mut n.end, &mut n.root.reference, &mut n.root.hz, &mut n.root.offset, &mut n.octave,
        )
    };
    Refusal::of(result).map(|()| n)
}

/// Each call but `room_for_export` gives 10 where the table has fewer entries than the count, or others than degrees and `UNMAPPED`.
impl MappingRef<'_> {
    /// The degree of a key, counted from the reference key as the Rust crate `tune` does; 16 outside the range, 17 for a key that is
    /// unmapped, 11 where a number passes 32 bits.
    pub fn degree_of(self, key: i32) -> Result<i32, Refusal> {
        let (mut degree, (a, b, c, d, e, f, g, h, i)) = (0, mapping!(self));
        // Safety: the pointer comes with its slice's length.
        Refusal::of(unsafe { raw::telbijan_scale_degree_of(a, b, c, d, e, f, g, h, i, key, &mut degree) }).map(|()| degree)
    }

    /// The degree of a key, counted from the middle key, the exact sum of reference and offset, as Scala does; refused as `degree_of`.
    /// Take this one for files made for Scala: there the first entry belongs to the middle key. Where the offset is 0 both answer alike.
    ///
    /// ```
    /// use telbijan::read_mapping;
    ///
    /// // a harp with seven strings to the octave: the lowest, degree 0, on key 62; key 69 is tuned to 440 Hz
    /// let (text, mut map) = (b"12\n0\n127\n62\n69\n440.0\n7\n0\nx\n1\n2\nx\n3\nx\n4\nx\n5\n6\nx\n", [0; 12]);
    /// let numbers = read_mapping(text, &mut map)?;
    /// let harp = telbijan::MappingRef { map: &map, numbers };
    /// assert_eq!((harp.degree_from_middle(62)?, harp.degree_from_middle(69)?), (0, 4));
    /// assert_eq!((harp.degree_of(62)?, harp.degree_of(69)?), (-4, 0));
    /// # Ok::<(), telbijan::Refusal>(())
    /// ```
    pub fn degree_from_middle(self, key: i32) -> Result<i32, Refusal> {
        let (mut degree, (a, b, c, d, e, f, g, h, i)) = (0, mapping!(self));
        // Safety: the pointer comes with its slice's length.
        Refusal::of(unsafe { raw::telbijan_scale_degree_from_middle(a, b, c, d, e, f, g, h, i, key, &mut degree) }).map(|()| degree)
    }

    /// The text of the mapping, written into the first bytes of `out`: how many they are; the others stay. 10 for a pitch outside 2^-10..2^20, 11
    /// where the last or the middle key passes 32 bits, 12 where the text is longer than `out`; `room_for_export` bytes are always enough.
    /// A mapping whose last key is below its first is written too; `read_mapping` refuses that text (25).
    pub fn export(self, out: &mut [u8]) -> Result<usize, Refusal> {
        let (mut written, (a, b, c, d, e, f, g, h, i)) = (0, mapping!(self));
        // Safety: each pointer comes with its slice's length; `out` is borrowed for writing.
        Refusal::of(unsafe { raw::telbijan_export_kbm(a, b, c, d, e, f, g, h, i, out.as_mut_ptr(), out.len(), &mut written) }).map(|()| written)
    }

    /// So many bytes are enough for an export (proved).
    pub fn room_for_export(self) -> usize {
        73 + 7 * usize::from(self.numbers.count)
    }
}

/// A scale and a mapping: what a player asks.
#[derive(Clone, Copy, Debug)]
pub struct Tuning<'a> {
    /// The pitches of the degrees.
    pub scale: ScaleRef<'a>,
    /// The degrees of the keys.
    pub mapping: MappingRef<'a>,
}

struct Items<'a> {
    kind: &'a [u8],
    cents: &'a [f64],
    numer: &'a [u32],
    denom: &'a [u32],
}

impl Tuning<'_> {
    fn items(&self) -> Items<'_> {
        let (kind, cents, numer, denom) = self.scale.columns();
        Items { kind, cents, numer, denom }
    }

    /// The pitch of a key, in Hz, counted from the reference key as the Rust crate `tune` does; 10 for tables or a root's pitch that
    /// cannot be used, 16 outside the range, 17 for a key that is unmapped, 11 where a number passes 32 bits and for the root offset
    /// -2147483648, 18 for a pitch or ratio outside 2^-900..2^900.
    pub fn pitch_of(self, key: i32) -> Result<f64, Refusal> {
        let (mut hz, s, (a, b, c, d, e, f, g, h, i)) = (0.0, self.items(), mapping!(self.mapping));
        ask_mapped(|x| ask_items!(telbijan_maybe_pitch_of, s, self.scale.count(), a, b, c, d, e, f, g, h, i, key, x), &mut hz)
    }

    /// The same of the key so many steps above the reference key; 11 where that key passes 32 bits.
    pub fn pitch_of_degree(self, degree: i32) -> Result<f64, Refusal> {
        let (mut hz, s, (a, b, c, d, e, f, g, h, i)) = (0.0, self.items(), mapping!(self.mapping));
        ask_mapped(|x| ask_items!(telbijan_maybe_pitch_of_degree, s, self.scale.count(), a, b, c, d, e, f, g, h, i, degree, x), &mut hz)
    }

    /// The pitches of a run of keys, as many as `hz` has places, and beside each 0 or the number of its refusal; the pitch of a refused key
    /// stays as it was. The tables are tested once. 10 where they cannot be used, 12 where `numbers` has fewer places than `hz`; before
    /// both, 12 where `hz` has over 4,294,967,295 places.
    pub fn pitches_of(self, first: i32, hz: &mut [f64], numbers: &mut [u32]) -> Result<(), Refusal> {
        let (s, (a, b, c, d, e, f, g, h, i)) = (self.items(), mapping!(self.mapping));
        let Ok(keys) = u32::try_from(hz.len()) else { return Refusal::of(u64::from(number::NO_ROOM)) };
        ask_items!(telbijan_pitches_of, s, self.scale.count(), a, b, c, d, e, f, g, h, i, first, keys, hz.as_mut_ptr(), hz.len(), numbers.as_mut_ptr(), numbers.len())
    }

    /// The pitch of a key, in Hz, counted from the middle key as Scala does: the reference pitch over the ratio of the reference key's own
    /// degree, times that of the key's degree. Take this one for files made for Scala: whichever key is the middle one, the reference key
    /// sounds its frequency, but for rounding. Both countings sound alike where the offset is 0 and the first entry is 0 or there are no
    /// entries.
    ///
    /// 10 for tables or a root's pitch that cannot be used; 16 outside the range, 17 for a key that is unmapped, 11 where a number passes
    /// 32 bits; then, of the reference key, which the range does not limit, 11 where its distance passes 32 bits, 19 where it is unmapped,
    /// 11 where its degree passes 32 bits; 18 for a pitch or ratio outside 2^-900..2^900.
    ///
    /// ```
    /// use telbijan::{number, Mapping, Scale};
    ///
    /// // a harp with seven strings to the octave, the lowest on key 62, and key 69 tuned to 440 Hz
    /// let scale = Scale::read(b"From D to D\n7\n9/8\n6/5\n4/3\n3/2\n5/3\n9/5\n2/1\n")?;
    /// let harp = Mapping::read(b"12\n0\n127\n62\n69\n440.0\n7\n0\nx\n1\n2\nx\n3\nx\n4\nx\n5\n6\nx\n")?;
    /// let tuning = harp.over(&scale);
    /// assert_eq!(tuning.pitch_from_middle(69)?, 440.0);
    /// assert_eq!(tuning.pitch_from_middle(74)?, 2.0 * tuning.pitch_from_middle(62)?);
    /// assert_eq!(tuning.pitch_of(69)?, 220.0);
    ///
    /// // with key 68 for the reference key, which has no string, there is nothing to tune by
    /// let harp = Mapping::read(b"12\n0\n127\n62\n68\n415.0\n7\n0\nx\n1\n2\nx\n3\nx\n4\nx\n5\n6\nx\n")?;
    /// assert_eq!(harp.over(&scale).pitch_from_middle(69).unwrap_err().number(), number::REFERENCE_UNMAPPED);
    /// assert_eq!(harp.view().degree_from_middle(69)?, 4);
    /// # Ok::<(), telbijan::Refusal>(())
    /// ```
    pub fn pitch_from_middle(self, key: i32) -> Result<f64, Refusal> {
        let (mut hz, s, (a, b, c, d, e, f, g, h, i)) = (0.0, self.items(), mapping!(self.mapping));
        let count = self.scale.count();
        ask_mapped(|x| ask_items!(telbijan_maybe_pitch_from_middle, s, count, a, b, c, d, e, f, g, h, i, key, x), &mut hz)
    }

    /// The same of a run of keys, as many as `hz` has places, and beside each 0 or the number of its refusal, 19 too; in all else as
    /// `pitches_of`.
    pub fn pitches_from_middle(self, first: i32, hz: &mut [f64], numbers: &mut [u32]) -> Result<(), Refusal> {
        let (s, (a, b, c, d, e, f, g, h, i)) = (self.items(), mapping!(self.mapping));
        let Ok(keys) = u32::try_from(hz.len()) else { return Refusal::of(u64::from(number::NO_ROOM)) };
        let (pitches, beside) = ((hz.as_mut_ptr(), hz.len()), (numbers.as_mut_ptr(), numbers.len()));
        let count = self.scale.count();
        ask_items!(
            telbijan_pitches_from_middle, s, count, a, b, c, d, e, f, g, h, i, first, keys, pitches.0, pitches.1, beside.0, beside.1
        )
    }
}

fn ask_mapped(call: impl FnOnce(&mut f64) -> Result<(), Refusal>, hz: &mut f64) -> Result<f64, Refusal> {
    call(hz).map(|()| *hz)
}
