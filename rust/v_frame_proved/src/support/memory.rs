//! Methods for `Vec` and `String` of `alloc` that return an error if a memory allocation fails.

use alloc::string::String;
use alloc::vec::Vec;
use core::fmt;

/// The error of a failed memory allocation.
#[derive(Debug, Clone, Copy, PartialEq, Eq, Hash)]
pub struct AllocError;

impl fmt::Display for AllocError {
    fn fmt(&self, f: &mut fmt::Formatter<'_>) -> fmt::Result {
        f.write_str("memory allocation failed")
    }
}

impl core::error::Error for AllocError {}

/// Formatting into a `String` fails only if a memory allocation fails.
impl From<fmt::Error> for AllocError {
    #[inline]
    fn from(_refused: fmt::Error) -> Self {
        AllocError
    }
}

#[cfg(feature = "std")]
impl From<AllocError> for std::io::Error {
    #[inline]
    fn from(_refused: AllocError) -> Self {
        std::io::Error::from(std::io::ErrorKind::OutOfMemory)
    }
}

/// Reserves capacity for `more` additional items.
#[inline]
fn reserve<T>(items: &mut Vec<T>, more: usize) -> Result<(), AllocError> {
    items.try_reserve(more).map_err(|_| AllocError)
}

/// Appends an item to a list, or a character to a text.
pub trait TryPush<T> {
    /// Appends `item`.
    fn try_push(&mut self, item: T) -> Result<(), AllocError>;
}

impl<T> TryPush<T> for Vec<T> {
    #[inline]
    fn try_push(&mut self, item: T) -> Result<(), AllocError> {
        reserve(self, 1)?;
        self.push(item);
        Ok(())
    }
}

impl TryPush<char> for String {
    #[inline]
    fn try_push(&mut self, item: char) -> Result<(), AllocError> {
        self.try_reserve(item.len_utf8()).map_err(|_| AllocError)?;
        self.push(item);
        Ok(())
    }
}

/// Creates and extends lists.
pub trait TryVec<T>: Sized {
    /// Returns an empty list with capacity for `count` items.
    fn with_room_for(count: usize) -> Result<Self, AllocError>;

    /// Returns a list of copies of `items`.
    fn try_from_slice(items: &[T]) -> Result<Self, AllocError>
    where
        T: Copy;

    /// Appends copies of `items`.
    fn try_extend_from_slice(&mut self, items: &[T]) -> Result<(), AllocError>
    where
        T: Copy;

    /// Sets the length to `count`, appending copies of `item` if the list is shorter.
    fn try_resize(&mut self, count: usize, item: T) -> Result<(), AllocError>
    where
        T: Copy;
}

impl<T> TryVec<T> for Vec<T> {
    #[inline]
    fn with_room_for(count: usize) -> Result<Self, AllocError> {
        let mut list = Vec::new();
        list.try_reserve_exact(count).map_err(|_| AllocError)?;
        Ok(list)
    }

    #[inline]
    fn try_from_slice(items: &[T]) -> Result<Self, AllocError>
    where
        T: Copy,
    {
        let mut list = Self::with_room_for(items.len())?;
        list.extend_from_slice(items);
        Ok(list)
    }

    #[inline]
    fn try_extend_from_slice(&mut self, items: &[T]) -> Result<(), AllocError>
    where
        T: Copy,
    {
        reserve(self, items.len())?;
        self.extend_from_slice(items);
        Ok(())
    }

    #[inline]
    fn try_resize(&mut self, count: usize, item: T) -> Result<(), AllocError>
    where
        T: Copy,
    {
        reserve(self, count.saturating_sub(self.len()))?;
        self.resize(count, item);
        Ok(())
    }
}

/// Returns a list of `count` copies of `item`.
#[inline]
pub fn repeated<T: Copy>(item: T, count: usize) -> Result<Vec<T>, AllocError> {
    let mut list = Vec::with_room_for(count)?;
    list.resize(count, item);
    Ok(list)
}

/// Collects the items of an iterator into a list.
pub trait TryCollect: Iterator + Sized {
    /// Returns the remaining items.
    fn try_collect_vec(self) -> Result<Vec<Self::Item>, AllocError>;
}

impl<I: Iterator> TryCollect for I {
    #[inline]
    fn try_collect_vec(self) -> Result<Vec<I::Item>, AllocError> {
        let mut list = Vec::with_room_for(self.size_hint().0)?;
        for item in self {
            list.try_push(item)?;
        }
        Ok(list)
    }
}

/// Creates and extends texts.
pub trait TryString: Sized {
    /// Returns a copy of `text`.
    fn try_from_str(text: &str) -> Result<Self, AllocError>;

    /// Appends `text`.
    fn try_push_str(&mut self, text: &str) -> Result<(), AllocError>;

    /// Appends formatted text, as `write!` does.
    fn write_fmt(&mut self, arguments: fmt::Arguments<'_>) -> Result<(), AllocError>;
}

impl TryString for String {
    #[inline]
    fn try_from_str(text: &str) -> Result<Self, AllocError> {
        let mut made = String::new();
        made.try_push_str(text)?;
        Ok(made)
    }

    #[inline]
    fn try_push_str(&mut self, text: &str) -> Result<(), AllocError> {
        self.try_reserve(text.len()).map_err(|_| AllocError)?;
        self.push_str(text);
        Ok(())
    }

    #[inline]
    fn write_fmt(&mut self, arguments: fmt::Arguments<'_>) -> Result<(), AllocError> {
        Ok(fmt::write(&mut Growing(self), arguments)?)
    }
}

/// A text as the target of `write!` that reports failed memory allocations.
struct Growing<'a>(&'a mut String);

impl fmt::Write for Growing<'_> {
    fn write_str(&mut self, text: &str) -> fmt::Result {
        self.0.try_push_str(text).map_err(|_| fmt::Error)
    }
}

/// Converts values to texts.
pub trait TryToString {
    /// Returns the displayed text of the value.
    fn try_to_string(&self) -> Result<String, AllocError>;
}

impl<T: fmt::Display> TryToString for T {
    #[inline]
    fn try_to_string(&self) -> Result<String, AllocError> {
        try_format(format_args!("{self}"))
    }
}

/// Returns the text that `format!` would return.
#[inline]
pub fn try_format(arguments: fmt::Arguments<'_>) -> Result<String, AllocError> {
    let mut text = String::new();
    text.write_fmt(arguments)?;
    Ok(text)
}

/// Tests requests that exceed every memory, so that they fail without special preparation.
#[cfg(test)]
mod tests {
    use super::{AllocError, TryCollect, TryPush, TryVec, repeated};
    use alloc::vec;
    use alloc::vec::Vec;

    #[test]
    fn lists_that_would_be_too_long_are_refused() {
        let most = usize::MAX;
        assert_eq!(Vec::<u16>::with_room_for(most), Err(AllocError));
        assert_eq!(repeated(0_u16, most), Err(AllocError));
        assert_eq!((0..most).try_collect_vec(), Err(AllocError));
        let mut numbers = vec![7_u16, 8, 9];
        assert_eq!(numbers.try_resize(most, 0), Err(AllocError));
        assert_eq!(numbers, [7, 8, 9]);
        // The entries of this list take no memory, and its length is at the maximum.
        let mut full = vec![(); most];
        assert_eq!(full.try_push(()), Err(AllocError));
        assert_eq!(full.try_extend_from_slice(&[()]), Err(AllocError));
        assert_eq!(full.len(), most);
    }

    #[test]
    fn lists_are_made_longer_and_shorter() {
        let mut numbers = vec![7_u16, 8];
        for (count, wanted) in [(4, &[7, 8, 9, 9][..]), (4, &[7, 8, 9, 9]), (1, &[7]), (0, &[])] {
            assert_eq!(numbers.try_resize(count, 9), Ok(()));
            assert_eq!(numbers, wanted);
        }
    }
}
