//! Scales and mappings that own their tables.

use crate::{read_mapping, Builder, Columns, MappingBuilder, MappingRef, Numbers, Refusal, Root, ScaleRef, Tuning};
use alloc::string::String;
use alloc::vec;
use alloc::vec::Vec;
use core::ops::Range;

/// The most items or entries that a builder can hold and a build then refuses (13).
const MOST: usize = 65_536;

/// No text has more lines than this.
fn lines(text: &[u8]) -> usize {
    text.iter().filter(|&&b| b == b'\n').count() + 1
}

/// A scale with its own columns.
#[derive(Clone, Debug)]
pub struct Scale {
    kind: Vec<u8>,
    cents: Vec<f64>,
    numer: Vec<u32>,
    denom: Vec<u32>,
    place: Vec<u32>,
    ratio: Vec<f64>,
    wraps: Vec<i32>,
    count: u16,
    description: String,
}

impl Scale {
    /// Columns for so many items, all of them empty.
    fn empty(items: usize) -> Scale {
        let room = items + 1;
        Scale {
            kind: vec![0; room],
            cents: vec![0.0; room],
            numer: vec![0; room],
            denom: vec![0; room],
            place: vec![0; room],
            ratio: vec![0.0; room],
            wraps: vec![0; room],
            count: 0,
            description: String::new(),
        }
    }

    fn columns(&mut self) -> Columns<'_> {
        Columns {
            kind: &mut self.kind,
            cents: &mut self.cents,
            numer: &mut self.numer,
            denom: &mut self.denom,
            place: &mut self.place,
            ratio: &mut self.ratio,
            wraps: &mut self.wraps,
        }
    }

    /// Keeps the places of its items alone.
    fn trim(&mut self) {
        fn cut<T>(column: &mut Vec<T>, places: usize) {
            column.truncate(places);
            column.shrink_to_fit();
        }
        let places = usize::from(self.count) + 1;
        cut(&mut self.kind, places);
        cut(&mut self.cents, places);
        cut(&mut self.numer, places);
        cut(&mut self.denom, places);
        cut(&mut self.place, places);
        cut(&mut self.ratio, places);
        cut(&mut self.wraps, places);
    }

    /// Reads a scale file. There is always room: over 65,535 items give 13, never 12.
    ///
    /// ```
    /// let scale = telbijan::Scale::read(b"fifths\n2\n3/2\n2/1\n")?;
    /// assert_eq!(scale.description(), "fifths");
    /// assert_eq!(scale.view().relative_pitch_of(3)?, 3.0);
    ///
    /// let refusal = telbijan::Scale::read(b"fifths\n2\n3/\n2/1\n").unwrap_err();
    /// assert_eq!((refusal.number(), refusal.line()), (6, Some(3)));
    /// assert_eq!(refusal.to_string(), "line 3: not a denominator");
    /// # Ok::<(), telbijan::Refusal>(())
    /// ```
    pub fn read(text: &[u8]) -> Result<Scale, Refusal> {
        // every item stands on a line of its own
        let mut scale = Scale::empty(lines(text));
        let (count, description) = scale.columns().read(text)?;
        scale.count = count;
        scale.trim();
        scale.description = core::str::from_utf8(&text[description]).unwrap_or("").into();
        Ok(scale)
    }

    /// Builds a scale of at most so many items from what `push` pushes into the builder that it is given; what it refuses is handed on, and so is what
    /// `Builder::build` does; 10 where it puts another builder in the place of its own.
    ///
    /// ```
    /// let scale = telbijan::Scale::build(3, |b| {
    ///     b.push_cents(100.0)?;
    ///     b.push_fraction(3, 2)?;
    ///     b.push_int(2)
    /// })?;
    /// assert_eq!(scale.view().count(), 3);
    /// # Ok::<(), telbijan::Refusal>(())
    /// ```
    pub fn build(items: usize, push: impl FnOnce(&mut Builder<'_>) -> Result<(), Refusal>) -> Result<Scale, Refusal> {
        let mut scale = Scale::empty(items.min(MOST));
        let own = scale.kind.as_ptr();
        let mut builder = scale.columns().builder()?;
        push(&mut builder)?;
        let (columns, count) = builder.build()?;
        if columns.kind.as_ptr() != own {
            return Err(Refusal::UNUSABLE);
        }
        scale.count = count;
        scale.trim();
        Ok(scale)
    }

    /// A segment of the harmonic series, whole or in so many equal divisions: as `Columns::create_harmonics`, and never 12.
    pub fn harmonics(otonal: bool, start: u16, size: u16, divisions: Option<u16>) -> Result<Scale, Refusal> {
        let mut scale = Scale::empty(divisions.unwrap_or(size).into());
        scale.count = scale.columns().create_harmonics(otonal, start, size, divisions)?;
        Ok(scale)
    }

    /// A rank-2 temperament: as `Columns::create_rank2`, and never 12.
    ///
    /// ```
    /// let scale = telbijan::Scale::rank2(1.5, 5, 1, 2.0)?;
    /// assert_eq!(scale.view().count(), 7);
    /// # Ok::<(), telbijan::Refusal>(())
    /// ```
    pub fn rank2(generator: f64, positive: u16, negative: u16, period: f64) -> Result<Scale, Refusal> {
        let mut scale = Scale::empty(usize::from(positive) + usize::from(negative) + 1);
        scale.count = scale.columns().create_rank2(generator, positive, negative, period)?;
        Ok(scale)
    }

    /// What the file said above its notes; empty where there was no file.
    pub fn description(&self) -> &str {
        &self.description
    }

    /// The scale, to ask of it.
    pub fn view(&self) -> ScaleRef<'_> {
        ScaleRef {
            kind: &self.kind,
            cents: &self.cents,
            numer: &self.numer,
            denom: &self.denom,
            place: &self.place,
            ratio: &self.ratio,
            wraps: &self.wraps,
            count: self.count,
        }
    }

    /// The text of the scale under a description.
    pub fn export(&self, description: &str) -> Result<String, Refusal> {
        let mut out = vec![0; self.view().room_for_export(description)];
        let written = self.view().export(description, &mut out)?;
        out.truncate(written);
        Ok(String::from_utf8(out).unwrap_or_default())
    }
}

/// A mapping with its own table.
#[derive(Clone, Debug)]
pub struct Mapping {
    map: Vec<i32>,
    numbers: Numbers,
}

impl Mapping {
    /// Reads a mapping file. There is always room: over 65,535 entries give 13, never 12.
    ///
    /// ```
    /// let mapping = telbijan::Mapping::read(b"3\n0\n127\n60\n60\n261.6256\n3\n0\nx\n2\n")?;
    /// assert_eq!(mapping.view().degree_of(62)?, 2);
    /// assert_eq!(mapping.view().degree_of(61).unwrap_err().number(), 17);
    ///
    /// // first and last key swapped: exchange the two lines
    /// let refusal = telbijan::Mapping::read(b"3\n127\n0\n60\n60\n261.6256\n3\n0\nx\n2\n").unwrap_err();
    /// assert_eq!(refusal.to_string(), "line 3: the last key is below the first");
    /// # Ok::<(), telbijan::Refusal>(())
    /// ```
    pub fn read(text: &[u8]) -> Result<Mapping, Refusal> {
        // a map may be larger than the entries that the file writes, up to its size, which is at most 65,535
        let mut map = vec![0; lines(text).max(65_535)];
        let numbers = read_mapping(text, &mut map)?;
        map.truncate(numbers.count.into());
        map.shrink_to_fit();
        Ok(Mapping { map, numbers })
    }

    /// Builds a mapping of at most so many entries above a root, for the keys of a range, from what `push` pushes into the builder that it
    /// is given; 10 where it puts another in its place. Only a mapping without entries needs no formal octave (15), and each needs a key in
    /// its range (25).
    ///
    /// ```
    /// use telbijan::{Mapping, Root};
    ///
    /// let root = Root { reference: 60, hz: 261.6256, offset: 0 };
    /// let mapping = Mapping::build(3, root, 0..128, Some(5), |b| {
    ///     b.push(0)?;
    ///     b.push_unmapped()?;
    ///     b.push(2)
    /// })?;
    /// assert_eq!(mapping.view().degree_of(63)?, 5);
    /// assert_eq!(mapping.export()?, "3\n0\n127\n60\n60\n261.626\n5\n0\nx\n2\n");
    ///
    /// let linear = Mapping::build(0, root, 0..128, None, |_| Ok(()))?;
    /// assert_eq!(linear.view().degree_of(72)?, 12);
    /// let refusal = Mapping::build(1, root, 0..128, None, |b| b.push(0)).unwrap_err();
    /// assert_eq!(refusal.number(), 15);
    /// let refusal = Mapping::build(0, root, 60..60, None, |_| Ok(())).unwrap_err();
    /// assert_eq!(refusal.number(), 25);
    /// # Ok::<(), telbijan::Refusal>(())
    /// ```
    pub fn build(
        entries: usize,
        root: Root,
        keys: Range<i32>,
        octave: Option<i16>,
        push: impl FnOnce(&mut MappingBuilder<'_>) -> Result<(), Refusal>,
    ) -> Result<Mapping, Refusal> {
        let mut map = vec![0; entries.min(MOST)];
        let own = (map.as_ptr(), map.len());
        let mut builder = MappingBuilder::new(&mut map, root, keys)?;
        push(&mut builder)?;
        let built = builder.build(octave)?;
        if (built.map.as_ptr(), built.map.len()) != own {
            return Err(Refusal::UNUSABLE);
        }
        let numbers = built.numbers;
        map.truncate(numbers.count.into());
        Ok(Mapping { map, numbers })
    }

    /// The mapping, to ask of it.
    pub fn view(&self) -> MappingRef<'_> {
        MappingRef { map: &self.map, numbers: self.numbers }
    }

    /// The text of the mapping; 11 where its last or its middle key passes 32 bits.
    pub fn export(&self) -> Result<String, Refusal> {
        let mut out = vec![0; self.view().room_for_export()];
        let written = self.view().export(&mut out)?;
        out.truncate(written);
        Ok(String::from_utf8(out).unwrap_or_default())
    }

    /// The mapping over a scale.
    ///
    /// ```
    /// let scale = telbijan::Scale::read(b"octaves\n1\n2/1\n")?;
    /// let mapping = telbijan::Mapping::read(b"0\n0\n127\n69\n69\n440.0\n0\n")?;
    /// let tuning = mapping.over(&scale);
    /// assert_eq!(tuning.pitch_of(70)?, 880.0);
    /// # Ok::<(), telbijan::Refusal>(())
    /// ```
    pub fn over<'a>(&'a self, scale: &'a Scale) -> Tuning<'a> {
        Tuning { scale: scale.view(), mapping: self.view() }
    }
}
