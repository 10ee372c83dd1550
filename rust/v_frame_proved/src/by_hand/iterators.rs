//! Calls of the iterators over rows, pixels and bytes that skip whole rows, for `nth` and `nth_back`, and that have a loop for
//! each row, for `fold` and `rfold`. The iterators themselves are generated from proved sources.

use crate::pixel::Pixel;
use crate::plane::{ByteData, Pixels, PixelsMut, Rows, RowsMut};
use core::mem;

/// Implements the calls of an iterator over rows. `$cut` splits a slice, and `$row` is a row.
macro_rules! of_rows {
    ($rows:ident, $row:ty, $cut:ident) => {
        impl<'a, T> $rows<'a, T> {
            /// Skips `n` rows from the top, or all rows if there are fewer.
            #[inline]
            pub(crate) fn skip_front(&mut self, n: usize) {
                let skipped = n.min(self.count);
                if skipped > 0 {
                    let end = self.start + (skipped - 1) * (self.width + self.gap) + self.width;
                    (_, self.rest) = mem::take(&mut self.rest).$cut(end);
                    self.start = self.gap;
                    self.count -= skipped;
                }
            }

            /// Skips `n` rows from the bottom, or all rows if there are fewer.
            #[inline]
            pub(crate) fn skip_back(&mut self, n: usize) {
                let skipped = n.min(self.count);
                if skipped > 0 {
                    self.count -= skipped;
                    let end = self.start + self.count * (self.width + self.gap);
                    (self.rest, _) = mem::take(&mut self.rest).$cut(end);
                }
            }

            /// Folds the remaining rows from the top.
            #[inline]
            pub(crate) fn fold_front<A>(mut self, first: A, mut call: impl FnMut(A, $row) -> A) -> A {
                let mut value = first;
                while let Some(row) = self.next() {
                    value = call(value, row);
                }
                value
            }

            /// Folds the remaining rows from the bottom.
            #[inline]
            pub(crate) fn fold_back<A>(mut self, first: A, mut call: impl FnMut(A, $row) -> A) -> A {
                let mut value = first;
                while let Some(row) = self.next_back() {
                    value = call(value, row);
                }
                value
            }
        }
    };
}

of_rows!(Rows, &'a [T], split_at);
of_rows!(RowsMut, &'a mut [T], split_at_mut);

/// Implements the calls of an iterator over pixels. `$cut` splits a slice, and `$items` iterates over the pixels of a row.
macro_rules! of_pixels {
    ($pixels:ident, [$($bounds:tt)*], $pixel:ty, $cut:ident, $row:ident: $slice:ty => $items:expr) => {
        impl<'a, T: $($bounds)*> $pixels<'a, T> {
            /// Skips `n` pixels from the front, or all pixels if there are fewer.
            #[inline]
            pub(crate) fn skip_front(&mut self, n: usize) {
                let front = mem::take(&mut self.front);
                if n < front.len() {
                    (_, self.front) = front.$cut(n);
                    return;
                }
                let (n, in_rows) = (n - front.len(), self.rows.pixel_count());
                if n < in_rows {
                    self.rows.skip_front(n / self.rows.width);
                    let (within, row) = (n % self.rows.width, self.rows.next().unwrap_or_default());
                    (_, self.front) = row.$cut(within);
                } else {
                    self.rows.skip_front(self.rows.count);
                    let back = mem::take(&mut self.back);
                    let within = (n - in_rows).min(back.len());
                    (_, self.back) = back.$cut(within);
                }
            }

            /// Skips `n` pixels from the back, or all pixels if there are fewer.
            #[inline]
            pub(crate) fn skip_back(&mut self, n: usize) {
                let back = mem::take(&mut self.back);
                if n < back.len() {
                    let left = back.len() - n;
                    (self.back, _) = back.$cut(left);
                    return;
                }
                let (n, in_rows) = (n - back.len(), self.rows.pixel_count());
                if n < in_rows {
                    self.rows.skip_back(n / self.rows.width);
                    let (left, row) = (self.rows.width - n % self.rows.width, self.rows.next_back().unwrap_or_default());
                    (self.back, _) = row.$cut(left);
                } else {
                    self.rows.skip_back(self.rows.count);
                    let front = mem::take(&mut self.front);
                    let left = front.len().saturating_sub(n - in_rows);
                    (self.front, _) = front.$cut(left);
                }
            }

            /// Folds the remaining pixels from the front.
            #[inline]
            pub(crate) fn fold_front<A>(self, first: A, mut call: impl FnMut(A, $pixel) -> A) -> A {
                let mut fold = |value, $row: $slice| Iterator::fold($items, value, &mut call);
                let value = fold(first, self.front);
                let value = self.rows.fold_front(value, &mut fold);
                fold(value, self.back)
            }

            /// Folds the remaining pixels from the back.
            #[inline]
            pub(crate) fn fold_back<A>(self, first: A, mut call: impl FnMut(A, $pixel) -> A) -> A {
                let mut fold = |value, $row: $slice| DoubleEndedIterator::rfold($items, value, &mut call);
                let value = fold(first, self.back);
                let value = self.rows.fold_back(value, &mut fold);
                fold(value, self.front)
            }
        }
    };
}

of_pixels!(Pixels, [Copy], T, split_at, row: &'a [T] => row.iter().copied());
of_pixels!(PixelsMut, [Sized], &'a mut T, split_at_mut, row: &'a mut [T] => row.iter_mut());

impl<T: Pixel> ByteData<'_, T> {
    /// Skips `n` bytes from the front, or all bytes if there are fewer.
    #[inline]
    pub(crate) fn skip_front(&mut self, n: usize) {
        let n = match n {
            0 => return,
            n => n - usize::from(self.front.take().is_some()),
        };
        let (pixels, within) = (n / T::PIXEL_BYTES, n % T::PIXEL_BYTES);
        if pixels < self.pixels.len() {
            self.pixels.skip_front(pixels);
            if within > 0 {
                self.front = self.pixels.next();
            }
        } else {
            let left = n - self.pixels.len() * T::PIXEL_BYTES;
            self.pixels.skip_front(pixels);
            self.back = self.back.take().filter(|_| left == 0);
        }
    }

    /// Skips `n` bytes from the back, or all bytes if there are fewer.
    #[inline]
    pub(crate) fn skip_back(&mut self, n: usize) {
        let n = match n {
            0 => return,
            n => n - usize::from(self.back.take().is_some()),
        };
        let (pixels, within) = (n / T::PIXEL_BYTES, n % T::PIXEL_BYTES);
        if pixels < self.pixels.len() {
            self.pixels.skip_back(pixels);
            if within > 0 {
                self.back = self.pixels.next_back();
            }
        } else {
            let left = n - self.pixels.len() * T::PIXEL_BYTES;
            self.pixels.skip_back(pixels);
            self.front = self.front.take().filter(|_| left == 0);
        }
    }

    /// Folds the remaining bytes from the front.
    #[inline]
    pub(crate) fn fold_front<A>(self, first: A, mut call: impl FnMut(A, u8) -> A) -> A {
        let mut value = first;
        if let Some(pixel) = self.front {
            value = call(value, pixel.pixel_le_byte(1));
        }
        value = self.pixels.fold_front(value, |mut value, pixel| {
            for place in 0..T::PIXEL_BYTES {
                value = call(value, pixel.pixel_le_byte(place));
            }
            value
        });
        match self.back {
            Some(pixel) => call(value, pixel.pixel_le_byte(0)),
            None => value,
        }
    }

    /// Folds the remaining bytes from the back.
    #[inline]
    pub(crate) fn fold_back<A>(self, first: A, mut call: impl FnMut(A, u8) -> A) -> A {
        let mut value = first;
        if let Some(pixel) = self.back {
            value = call(value, pixel.pixel_le_byte(0));
        }
        value = self.pixels.fold_back(value, |mut value, pixel| {
            for place in (0..T::PIXEL_BYTES).rev() {
                value = call(value, pixel.pixel_le_byte(place));
            }
            value
        });
        match self.front {
            Some(pixel) => call(value, pixel.pixel_le_byte(1)),
            None => value,
        }
    }
}
