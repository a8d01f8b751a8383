//! Mappings that are built, entry by entry, in a table that a caller lends or owns.

use crate::{raw, MappingRef, Numbers, Refusal, Root};
use core::ops::Range;

/// Entries pushed one by one.
///
/// ```
/// use telbijan::{MappingBuilder, Root};
///
/// let mut map = [0; 4];
/// let root = Root { reference: 60, hz: 261.6256, offset: 0 };
/// let mut builder = MappingBuilder::new(&mut map, root, 0..128)?;
/// builder.push(0)?;
/// builder.push_unmapped()?;
/// builder.push(1)?;
/// let mapping = builder.build(Some(2))?;
/// assert_eq!(mapping.degree_of(65)?, 3);
/// assert_eq!(mapping.degree_of(61).unwrap_err().number(), 17);
/// # Ok::<(), telbijan::Refusal>(())
/// ```
#[derive(Debug)]
pub struct MappingBuilder<'a> {
    map: &'a mut [i32],
    root: Root,
    keys: Range<i32>,
    count: usize,
}

impl<'a> MappingBuilder<'a> {
    /// A builder on a table; what it holds is lost. `keys` has the mapping's keys; where it has none, `build` says so. 10 for a root whose
    /// pitch cannot be used.
    pub fn new(map: &'a mut [i32], root: Root, keys: Range<i32>) -> Result<MappingBuilder<'a>, Refusal> {
        // Safety: no memory is lent.
        Refusal::of(unsafe { raw::telbijan_kbm_root(root.reference, root.hz, root.offset) })?;
        Ok(MappingBuilder { map, root, keys, count: 0 })
    }

    /// A key that has a degree; 12 where the table is full.
    pub fn push(&mut self, degree: i16) -> Result<(), Refusal> {
        let (map, room) = (self.map.as_mut_ptr(), self.map.len());
        let mut after = self.count;
        // Safety: the pointer comes with its slice's length, and the table is borrowed for writing.
        Refusal::of(unsafe { raw::telbijan_push_mapped_key(map, room, room, self.count, degree, &mut after) }).map(|()| self.count = after)
    }

    /// A key that has none, in the same way.
    pub fn push_unmapped(&mut self) -> Result<(), Refusal> {
        let (map, room) = (self.map.as_mut_ptr(), self.map.len());
        let mut after = self.count;
        // Safety: as in `push`.
        Refusal::of(unsafe { raw::telbijan_push_unmapped_key(map, room, room, self.count, &mut after) }).map(|()| self.count = after)
    }

    /// The mapping of what was pushed, with a formal octave or without: 15 for entries without one, 25 where there are no keys, so that the
    /// last is below the first, 13 over 65,535 entries. To mend what was refused, push again in a new builder.
    pub fn build(self, octave: Option<i16>) -> Result<MappingRef<'a>, Refusal> {
        let (map, root, keys) = (self.map, self.root, self.keys);
        let (mut count, mut formal) = (0, 0);
        // Safety: the pointer comes with its slice's length.
        let result = unsafe {
            raw::telbijan_build_kbm(
                map.as_ptr(), map.len(), map.len(), self.count, keys.start, keys.end, root.reference, root.hz, root.offset, octave.is_some(), octave.unwrap_or(0),
                &mut count, &mut formal,
            )
        };
        Refusal::of(result).map(|()| MappingRef { map, numbers: Numbers { count, start: keys.start, end: keys.end, root, octave: formal } })
    }
}
