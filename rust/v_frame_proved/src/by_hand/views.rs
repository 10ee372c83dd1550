//! Traits for everything that can be read as a plane or as rows, or written as rows; views of planes as values; planes as lists
//! of rows. This module is written by hand and not generated from proved sources.
//!
//! A function that reads a plane can take planes, references to planes and views alike, if its parameter is an [`AsPlaneRef`].
//! If it does not need the padding, [`AsRowsRef`] accepts even more:
//!
//! ```
//! use v_frame_proved::pixel::Pixel;
//! use v_frame_proved::plane::{Plane, PlaneGeometry};
//! use v_frame_proved::views::AsRowsRef;
//!
//! fn brightest<T: Pixel>(picture: impl AsRowsRef<Pixel = T>) -> Option<T> {
//!     picture.as_rows_ref().rows().flatten().copied().max()
//! }
//!
//! let geometry = PlaneGeometry::new(2, 2, 0, 0, 0, 0, 1, 1).unwrap();
//! let mut plane = Plane::<u8>::new(geometry)?;
//! plane[1].copy_from_slice(&[7, 9]);
//! assert_eq!(brightest(&plane), Some(9));
//! assert_eq!(plane.as_plane_ref().region(0, 0, 1, 2).and_then(brightest), Some(7));
//! # Ok::<(), v_frame_proved::AllocError>(())
//! ```

use crate::plane::{Plane, PlaneRef, Rows, RowsMut, RowsRef, VisibleMut, rows_fit};
use crate::support::conditions::is_inside;
use alloc::boxed::Box;
use core::iter::FusedIterator;
use core::ops::{Index, IndexMut};

/// A type that can be read as a plane: [`Plane`], [`PlaneRef`], references to them, and your own types that hold a picture.
///
/// ```
/// use v_frame_proved::plane::{PlaneGeometry, PlaneRef};
/// use v_frame_proved::statistics::maximum;
/// use v_frame_proved::views::AsPlaneRef;
///
/// /// A picture of 4 by 4 pixels of 10 bits, as another library stores it.
/// struct Thumbnail([u16; 16]);
///
/// impl AsPlaneRef for Thumbnail {
///     type Pixel = u16;
///
///     fn as_plane_ref(&self) -> PlaneRef<'_, u16> {
///         let geometry = PlaneGeometry::unpadded(4, 4, 1, 1).expect("it has pixels");
///         PlaneRef::new(geometry, &self.0).expect("it has as many as the geometry")
///     }
/// }
///
/// assert_eq!(maximum(Thumbnail([1023; 16])), 1023);
/// ```
pub trait AsPlaneRef {
    /// The type of the pixels.
    type Pixel;

    /// Returns a view of the plane.
    fn as_plane_ref(&self) -> PlaneRef<'_, Self::Pixel>;
}

/// A type that can be read as rows of pixels without padding: every type that can be read as a plane, and [`RowsRef`].
pub trait AsRowsRef {
    /// The type of the pixels.
    type Pixel;

    /// Returns a view of the visible rows.
    fn as_rows_ref(&self) -> RowsRef<'_, Self::Pixel>;
}

/// A type whose visible pixels can be written: [`Plane`], [`VisibleMut`], which is a part of a plane or a lent buffer, references
/// to them, and your own types that hold a picture. The functions of `ops`, `convert`, `resize`, `turn`, `rgb` and `semi_planar`
/// that write only visible pixels accept every such type.
///
/// ```
/// use v_frame_proved::ops::{fill, map_pixels};
/// use v_frame_proved::plane::{Plane, VisibleMut};
/// use v_frame_proved::turn::rotate_90;
/// use v_frame_proved::views::AsRowsMut;
///
/// let mut plane = Plane::from_slice(4, 2, &[1_u8, 2, 3, 4, 5, 6, 7, 8])?;
/// // A region of two columns and two rows, whose top left pixel is in column 1 of row 0.
/// map_pixels(&mut plane.visible_region_mut(1, 0, 2, 2), |pixel| 10 * pixel);
/// assert_eq!([&plane[0], &plane[1]], [[1, 20, 30, 4], [5, 60, 70, 8]]);
///
/// // A buffer of another library: four rows of two pixels with a stride of three.
/// let mut buffer = [0_u8; 12];
/// let mut picture = VisibleMut::new(&mut buffer, 2, 4, 3).ok_or("the buffer is too short")?;
/// rotate_90(&plane, &mut picture);
/// fill(&mut picture.visible_region_mut(0, 3, 2, 1), 9);
/// assert_eq!(buffer, [5, 1, 0, 60, 20, 0, 70, 30, 0, 9, 9, 0]);
/// # Ok::<(), Box<dyn std::error::Error>>(())
/// ```
pub trait AsRowsMut {
    /// The type of the pixels.
    type Pixel;

    /// Returns the width in pixels.
    fn width(&self) -> usize;

    /// Returns the height in pixels.
    fn height(&self) -> usize;

    /// Returns the visible pixels for writing. They have the width and the height that [`width`](Self::width) and
    /// [`height`](Self::height) return.
    fn visible_mut(&mut self) -> VisibleMut<'_, Self::Pixel>;

    /// Returns the rectangle of `width` by `height` pixels, whose top left pixel is in column `x` and row `y`, for writing.
    ///
    /// # Panics
    ///
    /// Panics if the rectangle is empty or not inside the visible pixels.
    #[track_caller]
    #[inline]
    fn visible_region_mut(&mut self, x: usize, y: usize, width: usize, height: usize) -> VisibleMut<'_, Self::Pixel> {
        let size = (self.width(), self.height());
        assert!(
            is_inside((x, y), (width, height), size),
            "region {width}x{height} at ({x}, {y}) is empty or outside of {}x{}",
            size.0,
            size.1
        );
        let VisibleMut { entries, stride, .. } = self.visible_mut();
        VisibleMut { entries: &mut entries[stride * y + x..], width, height, stride }
    }
}

/// Implements a trait with a view of `self`.
macro_rules! read_by {
    ($name:ident :: $call:ident -> $result:ident: $([$($bounds:tt)*] $owner:ty, $pixel:ty, $self:ident => $view:expr;)*) => {$(
        impl<$($bounds)*> $name for $owner {
            type Pixel = $pixel;

            #[inline]
            fn $call(&$self) -> $result<'_, $pixel> {
                $view
            }
        }
    )*};
}

read_by! { AsPlaneRef::as_plane_ref -> PlaneRef:
    [T] Plane<T>, T, self => Plane::as_plane_ref(self);
    [T] PlaneRef<'_, T>, T, self => *self;
    [V: AsPlaneRef + ?Sized] &V, V::Pixel, self => (**self).as_plane_ref();
    [V: AsPlaneRef + ?Sized] &mut V, V::Pixel, self => (**self).as_plane_ref();
}

read_by! { AsRowsRef::as_rows_ref -> RowsRef:
    [V: AsPlaneRef + ?Sized] V, V::Pixel, self => self.as_plane_ref().as_rows_ref();
    [T] RowsRef<'_, T>, T, self => *self;
    [T] &RowsRef<'_, T>, T, self => **self;
    [T] VisibleMut<'_, T>, T, self => VisibleMut::as_rows_ref(self);
    [T] &VisibleMut<'_, T>, T, self => VisibleMut::as_rows_ref(self);
}

/// Implements `AsRowsMut` by the calls of another type.
macro_rules! write_by {
    ($([$($bounds:tt)*] $owner:ty, $pixel:ty, $self:ident => $target:expr;)*) => {$(
        impl<$($bounds)*> AsRowsMut for $owner {
            type Pixel = $pixel;

            #[inline]
            fn width(&$self) -> usize {
                $target.width()
            }

            #[inline]
            fn height(&$self) -> usize {
                $target.height()
            }

            #[inline]
            fn visible_mut(&mut $self) -> VisibleMut<'_, $pixel> {
                $target.visible_mut()
            }

            #[track_caller]
            #[inline]
            fn visible_region_mut(&mut $self, x: usize, y: usize, width: usize, height: usize) -> VisibleMut<'_, $pixel> {
                $target.visible_region_mut(x, y, width, height)
            }
        }
    )*};
}

write_by! {
    // The methods of a type come before those of a trait.
    [T] Plane<T>, T, self => self;
    [V: AsRowsMut + ?Sized] &mut V, V::Pixel, self => (**self);
    [V: AsRowsMut + ?Sized] Box<V>, V::Pixel, self => (**self);
}

impl<T> AsRowsMut for VisibleMut<'_, T> {
    type Pixel = T;

    #[inline]
    fn width(&self) -> usize {
        self.width
    }

    #[inline]
    fn height(&self) -> usize {
        self.height
    }

    #[inline]
    fn visible_mut(&mut self) -> VisibleMut<'_, T> {
        VisibleMut { entries: &mut *self.entries, width: self.width, height: self.height, stride: self.stride }
    }
}

/// These methods are written by hand and not generated from proved sources.
///
/// All fields are public. The methods panic if the rows that the fields state do not fit into `entries`, which
/// [`rows_fit`](crate::plane::rows_fit) tests.
impl<'a, T> VisibleMut<'a, T> {
    /// Returns the picture of `width` by `height` pixels whose row `y` begins at index `stride * y` of `entries`, for writing. The
    /// last row may end at its width. Returns `None` if `entries` is too short, if `width` or `height` is 0, or if `stride` is
    /// less than `width`. [`RowsRef::new`] returns the same picture for reading.
    ///
    /// ```
    /// use v_frame_proved::plane::VisibleMut;
    ///
    /// // Two rows of two pixels with a stride of three.
    /// let mut buffer = [0_u8; 5];
    /// let mut picture = VisibleMut::new(&mut buffer, 2, 2, 3).unwrap();
    /// picture[1][0] = 7;
    /// assert_eq!(buffer, [0, 0, 0, 7, 0]);
    /// assert!(VisibleMut::new(&mut buffer, 2, 2, 4).is_none());
    /// ```
    #[inline]
    #[must_use]
    pub fn new(entries: &'a mut [T], width: usize, height: usize, stride: usize) -> Option<Self> {
        rows_fit(width, height, stride, entries.len()).then_some(VisibleMut { entries, width, height, stride })
    }

    /// Returns the pixels for reading.
    ///
    /// ```
    /// use v_frame_proved::plane::Plane;
    ///
    /// let mut plane = Plane::from_slice(3, 2, &[1_u8, 2, 3, 4, 5, 6])?;
    /// let region = plane.visible_region_mut(1, 0, 2, 2);
    /// assert_eq!(region.as_rows_ref().rows().flatten().max(), Some(&6));
    /// # Ok::<(), v_frame_proved::lists::ListError>(())
    /// ```
    #[track_caller]
    #[inline]
    #[must_use]
    pub fn as_rows_ref(&self) -> RowsRef<'_, T> {
        match RowsRef::new(self.entries, self.width, self.height, self.stride) {
            Some(rows) => rows,
            None => self.refuse(),
        }
    }

    /// Returns a double-ended iterator over the rows for writing, from the top.
    ///
    /// ```
    /// use v_frame_proved::plane::Plane;
    ///
    /// let mut plane = Plane::from_slice(3, 2, &[1_u8, 2, 3, 4, 5, 6])?;
    /// for (y, row) in plane.visible_region_mut(1, 0, 2, 2).rows_mut().enumerate() {
    ///     row.fill(y as u8);
    /// }
    /// assert_eq!(plane.into_vec(), [1, 0, 0, 4, 1, 1]);
    /// # Ok::<(), v_frame_proved::lists::ListError>(())
    /// ```
    #[track_caller]
    #[inline]
    pub fn rows_mut(&mut self) -> RowsMut<'_, T> {
        self.visible_mut().into_iter()
    }

    /// Panics, because the rows do not fit into the entries.
    #[track_caller]
    #[cold]
    fn refuse(&self) -> ! {
        let VisibleMut { entries, width, height, stride } = self;
        panic!("{height} rows of {width} pixels with a stride of {stride} do not fit into {} entries", entries.len())
    }
}

/// Returns the pixels of the row with this index.
impl<T> Index<usize> for VisibleMut<'_, T> {
    type Output = [T];

    /// # Panics
    ///
    /// Panics if `y` is not below the height.
    #[track_caller]
    #[inline]
    fn index(&self, y: usize) -> &[T] {
        assert!(y < self.height, "y ({y}) is not below the height ({})", self.height);
        &self.entries[self.stride * y..][..self.width]
    }
}

/// Returns the pixels of the row with this index for writing.
impl<T> IndexMut<usize> for VisibleMut<'_, T> {
    /// # Panics
    ///
    /// Panics if `y` is not below the height.
    #[track_caller]
    #[inline]
    fn index_mut(&mut self, y: usize) -> &mut [T] {
        assert!(y < self.height, "y ({y}) is not below the height ({})", self.height);
        &mut self.entries[self.stride * y..][..self.width]
    }
}

/// Implements the traits of a view that make it a value and give access to its rows with `[y]`.
macro_rules! view {
    ($view:ident) => {
        impl<T> Copy for $view<'_, T> {}

        impl<T> Clone for $view<'_, T> {
            #[inline]
            fn clone(&self) -> Self {
                *self
            }
        }

        impl<T: Eq> Eq for $view<'_, T> {}

        /// Returns the visible pixels of the row with this index.
        impl<T> Index<usize> for $view<'_, T> {
            type Output = [T];

            /// # Panics
            ///
            /// Panics if `y` is not below the height.
            #[track_caller]
            #[inline]
            fn index(&self, y: usize) -> &[T] {
                self.visible_row(y)
            }
        }

        impl<'a, T> From<&'a Plane<T>> for $view<'a, T> {
            #[inline]
            fn from(plane: &'a Plane<T>) -> Self {
                Self::from(plane.as_plane_ref())
            }
        }
    };
}

view!(PlaneRef);
view!(RowsRef);

/// Two views are equal if their geometries and their whole buffers are equal, padding included. Planes are compared in the same
/// way. The view of a region has the pixels around it as padding. To compare only the visible pixels, compare the results of
/// [`as_rows_ref`](PlaneRef::as_rows_ref).
impl<T: PartialEq> PartialEq for PlaneRef<'_, T> {
    #[inline]
    fn eq(&self, other: &Self) -> bool {
        self.geometry() == other.geometry() && self.data() == other.data()
    }
}

/// Two views are equal if their sizes and all their pixels are equal. Their strides may differ.
impl<T: PartialEq> PartialEq for RowsRef<'_, T> {
    #[inline]
    fn eq(&self, other: &Self) -> bool {
        self.rows().eq(other.rows())
    }
}

impl<'a, T> From<PlaneRef<'a, T>> for RowsRef<'a, T> {
    #[inline]
    fn from(plane: PlaneRef<'a, T>) -> Self {
        plane.as_rows_ref()
    }
}

impl<'a, T> RowsRef<'a, T> {
    /// Returns a double-ended iterator over the rows, from the top. This method is written by hand.
    #[inline]
    pub fn rows(
        self,
    ) -> impl DoubleEndedIterator<Item = &'a [T]> + ExactSizeIterator + FusedIterator + Clone + use<'a, T> {
        (0..self.height()).map(move |y| self.visible_row_proved(y))
    }
}

/// Iterates over the visible rows, from the top.
impl<'a, T> IntoIterator for &'a Plane<T> {
    type Item = &'a [T];
    type IntoIter = Rows<'a, T>;

    #[inline]
    fn into_iter(self) -> Rows<'a, T> {
        self.rows()
    }
}

/// Iterates over the visible rows for writing, from the top.
impl<'a, T> IntoIterator for &'a mut Plane<T> {
    type Item = &'a mut [T];
    type IntoIter = RowsMut<'a, T>;

    #[inline]
    fn into_iter(self) -> RowsMut<'a, T> {
        self.rows_mut()
    }
}

/// Iterates over the rows for writing, from the top.
impl<'a, T> IntoIterator for VisibleMut<'a, T> {
    type Item = &'a mut [T];
    type IntoIter = RowsMut<'a, T>;

    /// # Panics
    ///
    /// Panics if the rows do not fit into the entries.
    #[track_caller]
    #[inline]
    fn into_iter(self) -> RowsMut<'a, T> {
        if !rows_fit(self.width, self.height, self.stride, self.entries.len()) {
            self.refuse();
        }
        let VisibleMut { entries, width, height, stride } = self;
        RowsMut { rest: entries, start: 0, width, gap: stride - width, count: height }
    }
}

/// Iterates over the visible rows, from the top.
impl<'a, T> IntoIterator for PlaneRef<'a, T> {
    type Item = &'a [T];
    type IntoIter = Rows<'a, T>;

    #[inline]
    fn into_iter(self) -> Rows<'a, T> {
        self.rows()
    }
}

/// Returns the visible pixels of the row with this index.
impl<T> Index<usize> for Plane<T> {
    type Output = [T];

    /// # Panics
    ///
    /// Panics if `y` is not below the height.
    #[track_caller]
    #[inline]
    fn index(&self, y: usize) -> &[T] {
        self.visible_row(y)
    }
}

/// Returns the visible pixels of the row with this index for writing.
impl<T> IndexMut<usize> for Plane<T> {
    /// # Panics
    ///
    /// Panics if `y` is not below the height.
    #[track_caller]
    #[inline]
    fn index_mut(&mut self, y: usize) -> &mut [T] {
        self.visible_row_mut(y)
    }
}
