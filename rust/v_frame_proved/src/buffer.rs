//! The buffer of a plane: a list of fixed length.
//!
//! This module is written by hand. The proved source uses raw memory behind five functions with pointers, and this module uses
//! a `Vec` without `unsafe` code. The first entry is aligned to 64 bytes: the `Vec` has some additional entries, and the buffer
//! begins at its first aligned entry.

use crate::support::AllocError;
use alloc::vec::Vec;
use core::fmt;

/// The alignment of the first entry in bytes.
const ALIGNMENT: usize = 64;

/// The number of entries that are copied at once. A single copy of several megabytes took up to 1.3 times as long.
const BLOCK: usize = 2048;

/// The entries of a buffer.
pub struct AlignedData<T> {
    // The buffer consists of the entries from index `start` on.
    entries: Vec<T>,
    start: usize,
}

/// Returns the largest number of entries in front of the first aligned one. Together with one more entry, their size is a
/// multiple of the alignment, whatever the size of an entry.
#[inline]
fn slack<T>() -> usize {
    let common_twos = size_of::<T>().trailing_zeros().min(ALIGNMENT.trailing_zeros());
    (ALIGNMENT >> common_twos) - 1
}

/// Returns an empty list with capacity for `count` entries.
#[inline]
fn room<T>(count: usize) -> Result<Vec<T>, AllocError> {
    let mut entries = Vec::new();
    entries.try_reserve_exact(count).map_err(|_| AllocError)?;
    Ok(entries)
}

impl<T> AlignedData<T> {
    /// Returns a buffer that is filled by `fill`, which extends a list to a given length within its capacity.
    #[inline]
    fn filled(len: usize, fill: impl Fn(&mut Vec<T>, usize)) -> Result<Self, AllocError> {
        if len == 0 {
            return Ok(AlignedData { entries: Vec::new(), start: 0 });
        }
        let slack = slack::<T>();
        let mut entries = room::<T>(len.checked_add(slack).ok_or(AllocError)?)?;
        let offset = entries.as_ptr().align_offset(ALIGNMENT);
        let start = if offset <= slack { offset } else { 0 };
        fill(&mut entries, start);
        Ok(AlignedData { entries, start })
    }

    /// Returns a buffer of `len` copies of `value`. No memory is allocated if `len` is 0.
    #[inline]
    pub fn new(value: T, len: usize) -> Result<Self, AllocError>
    where
        T: Copy,
    {
        Self::filled(len, |entries, start| entries.resize(start + len, value))
    }

    /// Returns a copy of the buffer. No memory is allocated if the buffer is empty.
    #[inline]
    pub fn try_clone(&self) -> Result<Self, AllocError>
    where
        T: Copy,
    {
        let source = self.as_slice();
        Self::filled(source.len(), |entries, start| {
            entries.resize(start, source[0]);
            source.chunks(BLOCK).for_each(|block| entries.extend_from_slice(block));
        })
    }

    /// Returns the entries.
    #[inline]
    pub fn as_slice(&self) -> &[T] {
        // `start` is at most the length. A slice expression would add a second exit to each loop that reads a pixel, and the
        // compiler would not vectorize some of these loops.
        self.entries.get(self.start..).unwrap_or_default()
    }

    /// Returns the entries for writing.
    #[inline]
    pub fn as_mut_slice(&mut self) -> &mut [T] {
        &mut self.entries[self.start..]
    }

    /// Returns the entries from index `start` up to, but not including, index `end` for writing.
    #[inline]
    pub fn part_mut(&mut self, start: usize, end: usize) -> &mut [T] {
        &mut self.as_mut_slice()[start..end]
    }

    /// Returns the entry at index `place` for writing.
    #[inline]
    pub fn entry_mut(&mut self, place: usize) -> &mut T {
        &mut self.as_mut_slice()[place]
    }

    /// Returns the entry `offset` places after index `start` for writing, or `None` if the buffer ends before that entry.
    ///
    /// # Panics
    ///
    /// Panics if `start` is greater than the length of the buffer.
    #[inline]
    pub fn get_mut_after(&mut self, start: usize, offset: usize) -> Option<&mut T> {
        self.as_mut_slice()[start..].get_mut(offset)
    }
}

impl<T> AlignedData<Option<T>> {
    /// Returns a buffer of `len` entries without a value. No memory is allocated if `len` is 0.
    #[inline]
    pub fn without_values(len: usize) -> Result<Self, AllocError> {
        Self::filled(len, |entries, start| entries.resize_with(start + len, || None))
    }

    /// Moves the values, in their order, to a new buffer. The new buffer is not aligned, because no values are available to
    /// fill the entries in front of it. If the allocation fails, nothing is moved and the buffer is returned.
    #[inline]
    pub fn into_values(self) -> Result<AlignedData<T>, Self> {
        match room(self.as_slice().len()) {
            Ok(mut entries) => {
                entries.extend(self.entries.into_iter().skip(self.start).flatten());
                Ok(AlignedData { entries, start: 0 })
            }
            Err(AllocError) => Err(self),
        }
    }
}

impl<T: Copy> AlignedData<T> {
    /// Returns a buffer with these entries, without a copy. The first entry is aligned only if the list happens to be.
    #[inline]
    pub fn from_vec(entries: Vec<T>) -> Self {
        AlignedData { entries, start: 0 }
    }

    /// Returns a list of `count` parts of the buffer, each with `len` entries. The first part begins at index `origin`, and each
    /// following part begins `stride` entries later. No memory is allocated.
    #[inline]
    pub fn into_parts(self, origin: usize, len: usize, stride: usize, count: usize) -> Vec<T> {
        let (mut entries, first) = (self.entries, self.start + origin);
        if first > 0 || len < stride {
            for part in 0..count {
                let start = first + part * stride;
                entries.copy_within(start..start + len, part * len);
            }
        }
        entries.truncate(len * count);
        entries
    }
}

impl<T: PartialEq> PartialEq for AlignedData<T> {
    #[inline]
    fn eq(&self, other: &Self) -> bool {
        self.as_slice() == other.as_slice()
    }
}

impl<T: Eq> Eq for AlignedData<T> {}

/// The number of entries that the debug text of a buffer shows.
const SHOWN_ENTRIES: usize = 5;

/// Shows the first entries, and two dots if there are more.
impl<T: fmt::Debug> fmt::Debug for AlignedData<T> {
    fn fmt(&self, f: &mut fmt::Formatter<'_>) -> fmt::Result {
        let entries = self.as_slice();
        if entries.len() <= SHOWN_ENTRIES {
            return fmt::Debug::fmt(entries, f);
        }
        f.debug_list().entries(&entries[..SHOWN_ENTRIES]).finish_non_exhaustive()
    }
}

/// Tests buffers without entries, which planes never have.
#[cfg(test)]
mod tests {
    use super::AlignedData;

    #[test]
    fn an_empty_buffer_is_an_empty_slice() {
        let zeros = AlignedData::new(0_u16, 0).expect("no memory is needed");
        assert_eq!(zeros.as_slice(), []);
        assert_eq!(zeros.try_clone().expect("no memory is needed").as_slice(), []);
        let options = AlignedData::<Option<u16>>::without_values(0).expect("no memory is needed");
        assert_eq!(options.as_slice(), []);
        assert_eq!(options.into_values().expect("no memory is needed").as_slice(), []);
    }

    #[test]
    fn entries_equal_their_clone_until_one_is_changed() {
        let mut entries = AlignedData::new(0_u16, 512).expect("memory");
        assert_eq!(entries.as_slice(), [0; 512]);
        let copy = entries.try_clone().expect("memory");
        assert_eq!(copy, entries);
        *entries.get_mut_after(0, 5).expect("an entry") = 7;
        assert_ne!(copy, entries);
        assert_eq!((copy.as_slice()[5], entries.as_slice()[5]), (0, 7));
        assert!(entries.get_mut_after(0, 512).is_none());
    }
}
