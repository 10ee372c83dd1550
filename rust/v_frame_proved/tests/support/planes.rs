//! Planes whose entries are numbered, padding included, and tests of their contents.

use v_frame_proved::chroma::ChromaSubsampling::{self, Monochrome, Yuv411, Yuv420, Yuv422, Yuv444};
use v_frame_proved::pixel::Pixel;
use v_frame_proved::plane::{Plane, PlaneGeometry};

/// The width and the height of a plane, and its padding on the left, right, top and bottom.
pub type Layout = [usize; 6];

/// All formats.
pub const FORMATS: [ChromaSubsampling; 5] = [Yuv420, Yuv422, Yuv411, Yuv444, Monochrome];

/// Returns the format with this name.
pub fn format(name: &str) -> ChromaSubsampling {
    FORMATS.into_iter().find(|format| format!("{format:?}") == name).expect("a format")
}

/// Returns the geometry of a luma plane.
pub fn geometry([width, height, left, right, top, bottom]: Layout) -> PlaneGeometry {
    PlaneGeometry::new(width, height, left, right, top, bottom, 1, 1).expect("a geometry")
}

/// Returns a plane of zeros.
pub fn blank<T: Pixel>(layout: Layout) -> Plane<T> {
    Plane::new(geometry(layout)).expect("memory")
}

/// Returns a plane with this buffer.
pub fn plane_of<T: Pixel>(layout: Layout, buffer: &[T]) -> Plane<T> {
    let mut plane = blank(layout);
    plane.data_mut().copy_from_slice(buffer);
    plane
}

/// Returns a plane whose entries count from `first` on, modulo 256.
pub fn counted<T: Pixel>(layout: Layout, first: u8) -> Plane<T> {
    let mut plane = blank(layout);
    count(plane.data_mut(), first);
    plane
}

/// Returns the number of an entry: its index plus 100, or plus 0xA100 if a pixel has two bytes.
pub fn number_at<T: Pixel>(place: usize) -> T {
    let first = if size_of::<T>() == 1 { 100 } else { 0xA100 };
    T::try_from((first + place) as u16).expect("a small buffer")
}

/// Returns a buffer with these visible pixels, row by row. Each entry of the padding has its number.
pub fn in_numbered_border<T: Pixel>([width, height, left, right, top, bottom]: Layout, pixels: &[T]) -> Vec<T> {
    let stride = left + width + right;
    let mut buffer: Vec<T> = (0..stride * (top + height + bottom)).map(number_at).collect();
    for (y, row) in pixels.chunks(width).enumerate() {
        let start = (top + y) * stride + left;
        buffer[start..start + width].copy_from_slice(row);
    }
    buffer
}

/// Returns a plane with these pixels and numbered padding.
pub fn showing<T: Pixel>(layout: Layout, pixels: &[T]) -> Plane<T> {
    plane_of(layout, &in_numbered_border(layout, pixels))
}

/// Tests that a plane has these pixels, and that each entry of its padding is its number.
#[track_caller]
pub fn must_be<T: Pixel>(plane: &Plane<T>, layout: Layout, pixels: &[T]) {
    assert_eq!(pixels.len(), layout[0] * layout[1]);
    assert_eq!(plane.data(), in_numbered_border(layout, pixels));
    assert!(plane.rows().eq(pixels.chunks(layout[0])), "{plane:?}");
    assert_eq!(plane.row(layout[1]), None);
}

/// Three by two pixels in a buffer of 18 entries.
pub const BORDERED: Layout = [3, 2, 1, 2, 1, 0];

/// Writes numbers to a buffer that count from `first` on, modulo 256.
pub fn count<T: Pixel>(entries: &mut [T], first: u8) {
    let mut number = first;
    for entry in entries {
        *entry = T::from(number);
        number = number.wrapping_add(1);
    }
}

/// Returns entry `i` of a numbered buffer: `(i * factor + i / 13 * 31) % 65536`, modulo `size` unless that is 0, and modulo the
/// number of values of the type.
pub fn entry<T: Pixel>(i: usize, factor: usize, size: u16) -> T {
    let value = ((i * factor + i / 13 * 31) % 65536) as u16;
    let value = value.checked_rem(size).unwrap_or(value);
    T::try_from(value).unwrap_or(T::from((value % 256) as u8))
}

/// Numbers the entries of a buffer.
pub fn number<T: Pixel>(entries: &mut [T], factor: usize, size: u16) {
    for (i, place) in entries.iter_mut().enumerate() {
        *place = entry(i, factor, size);
    }
}

/// Returns a plane whose entries are numbered.
pub fn numbered<T: Pixel>(layout: Layout, factor: usize, size: u16) -> Plane<T> {
    let mut plane = blank(layout);
    number(plane.data_mut(), factor, size);
    plane
}

/// Returns the values of pixels.
pub fn values<T: Pixel>(pixels: &[T]) -> Vec<u16> {
    pixels.iter().map(|&pixel| pixel.into()).collect()
}

/// Returns pixels of these values.
pub fn pixels<T: Pixel>(values: &[u16]) -> Vec<T> {
    values.iter().map(|&value| T::try_from(value).expect("a value of the type")).collect()
}

/// Returns the sum of all entries, each multiplied by its position from 1 on.
pub fn weighted<T: Pixel>(entries: &[T]) -> u64 {
    (1..).zip(entries).map(|(number, &pixel)| number * u64::from(pixel.into())).sum()
}

/// Returns pixel `x` of row `y` of the picture with this number. All values of the type occur.
pub fn sample<T: Pixel>(picture: usize, x: usize, y: usize) -> T {
    let mixed = x * 7919 + y * 104_729 + picture * 15_487_469;
    let levels = if size_of::<T>() == 1 { 256 } else { 65_536 };
    T::try_from((mixed % levels) as u16).expect("a value of the type")
}

/// Copies the picture with this number into a plane. The padding is unchanged.
pub fn paint<T: Pixel>(plane: &mut Plane<T>, picture: usize) {
    for (y, row) in plane.rows_mut().enumerate() {
        for (x, pixel) in row.iter_mut().enumerate() {
            *pixel = sample(picture, x, y);
        }
    }
}

/// The value of each entry of the padding.
pub const BORDER: u8 = 77;

/// Returns a plane that is [`BORDER`] everywhere.
pub fn bordered<T: Pixel>(layout: Layout) -> Plane<T> {
    let mut plane = blank(layout);
    plane.data_mut().fill(T::from(BORDER));
    plane
}

/// Tests that a plane has these pixels, and that each entry of its padding is [`BORDER`].
#[track_caller]
pub fn must_show<T: Pixel>(plane: &Plane<T>, wanted: impl Fn(usize, usize) -> T) {
    let geometry = plane.geometry();
    let origin = (geometry.pad_left(), geometry.pad_top());
    must_hold(plane.data(), geometry.stride(), origin, (plane.width(), plane.height()), wanted);
}

/// Tests that the rows of a buffer from `origin` on have these pixels, and that all other entries are [`BORDER`].
#[track_caller]
pub fn must_hold<T: Pixel>(
    buffer: &[T],
    stride: usize,
    (left, top): (usize, usize),
    (width, height): (usize, usize),
    wanted: impl Fn(usize, usize) -> T,
) {
    for (place, entry) in buffer.iter().enumerate() {
        let (x, y) = ((place % stride).wrapping_sub(left), (place / stride).wrapping_sub(top));
        let expected = if x < width && y < height { wanted(x, y) } else { T::from(BORDER) };
        assert_eq!(*entry, expected, "entry {place}");
    }
}
