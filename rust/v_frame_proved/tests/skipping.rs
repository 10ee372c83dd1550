//! `nth`, `nth_back`, `fold`, `rfold`, `count` and `last` of the iterators over planes, compared with those of a list of the same
//! items, after items were taken from either end.

mod support;

use support::planes::{blank, paint, sample};
use v_frame_proved::pixel::Pixel;
use v_frame_proved::plane::{Plane, PlaneGeometry};

/// The layouts: width, height, and the padding on the left, on the right, at the top and at the bottom.
const LAYOUTS: [[usize; 6]; 6] =
    [[1, 1, 0, 0, 0, 0], [3, 4, 0, 0, 0, 0], [3, 4, 2, 1, 1, 2], [1, 6, 0, 3, 0, 0], [6, 1, 1, 0, 2, 0], [4, 3, 0, 0, 0, 1]];

/// Takes `front` items with `next` and `back` items with `next_back`.
fn begun<I: DoubleEndedIterator>(mut items: I, front: usize, back: usize) -> I {
    (0..front).for_each(|_| drop(items.next()));
    (0..back).for_each(|_| drop(items.next_back()));
    items
}

/// Returns the list without its first `front` and its last `back` items.
fn middle<V: Clone>(list: &[V], front: usize, back: usize) -> Vec<V> {
    list.iter().skip(front).take(list.len().saturating_sub(front + back)).cloned().collect()
}

/// Returns the remaining items, which `next` returns one by one.
fn rest<I: ExactSizeIterator, V>(mut items: I, value: impl Fn(I::Item) -> V) -> Vec<V> {
    let mut list = Vec::new();
    for item in items.by_ref() {
        list.push(value(item));
    }
    assert!(items.next().is_none() && items.len() == 0);
    list
}

/// Appends the value of an item to a list.
fn append<I, V>(value: impl Fn(I) -> V) -> impl FnMut(Vec<V>, I) -> Vec<V> {
    move |mut list, item| {
        list.push(value(item));
        list
    }
}

/// Tests the calls of an iterator. `$items` returns it anew, and `$value` returns the value of an item.
macro_rules! check {
    ($wanted:expr, $items:expr, $value:expr) => {{
        let wanted = $wanted;
        let len = wanted.len();
        assert_eq!($items.count(), len);
        assert_eq!($items.last().map($value), wanted.last().cloned());
        assert_eq!($items.fold(Vec::new(), append($value)), wanted);
        let reversed: Vec<_> = wanted.iter().rev().cloned().collect();
        assert_eq!($items.rfold(Vec::new(), append($value)), reversed);
        for n in (0..len + 3).chain([usize::MAX - 1, usize::MAX]) {
            let left = len.saturating_sub(n.saturating_add(1));
            let mut items = $items;
            assert_eq!(items.nth(n).map($value), wanted.get(n).cloned());
            assert_eq!(items.len(), left);
            assert_eq!(rest(items, $value), wanted[len - left..]);
            let mut items = $items;
            assert_eq!(items.nth_back(n).map($value), reversed.get(n).cloned());
            assert_eq!(items.len(), left);
            assert_eq!(rest(items, $value), wanted[..left]);
            // From one end, from the other, and from both again.
            let (mut items, mut list, n) = ($items, wanted.iter().cloned(), n / 3);
            assert_eq!(items.nth(n).map($value), list.nth(n));
            assert_eq!(items.nth_back(n).map($value), list.nth_back(n));
            assert_eq!(items.nth_back(0).map($value), list.nth_back(0));
            assert_eq!(items.nth(1).map($value), list.nth(1));
            assert_eq!(rest(items, $value), list.collect::<Vec<_>>());
        }
    }};
}

/// Tests the iterators of planes of this pixel type.
fn check_planes<T: Pixel>() {
    for layout in LAYOUTS {
        let mut plane: Plane<T> = blank(layout);
        paint(&mut plane, 0);
        let rows: Vec<Vec<T>> =
            (0..layout[1]).map(|y| (0..layout[0]).map(|x| sample(0, x, y)).collect()).collect();
        let pixels = rows.concat();
        let bytes: Vec<u8> =
            pixels.iter().flat_map(|&pixel| pixel.into().to_le_bytes().into_iter().take(size_of::<T>())).collect();
        for (front, back) in (0..6).flat_map(|front| (0..6).map(move |back| (front, back))) {
            let wanted = middle(&rows, front, back);
            check!(&wanted[..], begun(plane.rows(), front, back), <[T]>::to_vec);
            check!(&wanted[..], begun(plane.rows_mut(), front, back), |row: &mut [T]| row.to_vec());
            let wanted = middle(&pixels, front, back);
            check!(&wanted[..], begun(plane.pixels(), front, back), |pixel: T| pixel);
            check!(&wanted[..], begun(plane.pixels_mut(), front, back), |pixel: &mut T| *pixel);
            let wanted = middle(&bytes, front, back);
            check!(&wanted[..], begun(plane.byte_data(), front, back), |byte: u8| byte);
        }
    }
}

#[test]
fn calls_skip_like_those_of_a_list() {
    check_planes::<u8>();
    check_planes::<u16>();
}

/// Calls that walked over the pixels would take nine thousand million steps, which a test build needs minutes for.
#[test]
fn calls_do_not_walk() {
    let geometry = PlaneGeometry::unpadded(1000, 1000, 1, 1).expect("a geometry");
    let plane = Plane::<u8>::new(geometry).expect("memory");
    let total: usize = (0..3000).map(|n| plane.pixels().nth(999_999 - n).map_or(0, |_| 1)).sum();
    let back: usize = (0..3000).map(|n| plane.byte_data().nth_back(999_999 - n).map_or(0, |_| 1)).sum();
    let counted: usize = (0..3000).map(|_| plane.pixels().count() / 1_000_000).sum();
    assert_eq!([total, back, counted], [3000; 3]);
}

#[test]
fn pixels_are_written_through_a_fold() {
    let mut plane = blank::<u8>([2, 2, 1, 1, 1, 1]);
    let last = plane.pixels_mut().fold(0, |number, pixel| {
        *pixel = number + 1;
        *pixel
    });
    assert_eq!(last, 4);
    *plane.pixels_mut().nth(2).expect("a pixel") = 9;
    *plane.pixels_mut().nth_back(2).expect("a pixel") = 8;
    assert_eq!(plane.pixels().collect::<Vec<_>>(), [1, 8, 9, 4]);
}
