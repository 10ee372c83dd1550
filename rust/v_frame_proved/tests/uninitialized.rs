//! Planes of any type that are filled entry by entry, and that drop each entry once.

mod support;

use std::cell::Cell;
use std::rc::Rc;
use support::planes::plane_of;
use v_frame_proved::plane::{Plane, PlaneGeometry};

/// Returns a plane of one row without any value.
fn vacant<T>(width: usize) -> Plane<Option<T>> {
    Plane::new_uninit(PlaneGeometry::unpadded(width, 1, 1, 1).expect("a geometry")).expect("memory")
}

/// Returns a plane of one row with these entries.
fn holding<T: Copy>(entries: &[Option<T>]) -> Plane<Option<T>> {
    let mut plane = vacant(entries.len());
    plane.data_mut().copy_from_slice(entries);
    plane
}

/// Returns the plane of the values. Each entry must have one.
fn values<T>(plane: Plane<Option<T>>) -> Plane<T> {
    assert!(plane.is_init());
    plane.assume_init().ok().expect("memory")
}

#[test]
fn new_entries_are_vacant_and_filled_ones_become_values() {
    let fresh = vacant::<u8>(2);
    assert!(!fresh.is_init());
    assert_eq!(fresh.data(), [None; 2]);
    for (entries, is_filled) in
        [([None, None], false), ([Some(5), None], false), ([None, Some(6)], false), ([Some(5), Some(6)], true)]
    {
        assert_eq!(holding::<u8>(&entries).is_init(), is_filled, "{entries:?}");
    }
    let plane = values(holding(&[Some(5_u8), Some(6)]));
    assert_eq!(plane.data(), [5, 6]);
    let mut copy = plane.clone();
    assert_eq!(copy, plane);
    *copy.pixel_mut(0, 0).expect("a pixel") = 9;
    assert_ne!(copy, plane);
    assert_eq!(plane.data(), [5, 6]);
}

#[test]
fn sixteen_entries_are_read_back() {
    let count: Vec<u8> = (0..16).collect();
    let geometry = PlaneGeometry::new(2, 2, 1, 1, 1, 1, 1, 1).expect("a geometry");
    let mut plane = Plane::new_uninit(geometry).expect("memory");
    plane.data_mut().iter_mut().zip(&count).for_each(|(entry, number)| *entry = Some(*number));
    let plane = values(plane);
    assert_eq!(plane.data(), count);
    assert_eq!(plane.row(1), Some(&[9, 10][..]));
    assert_eq!(plane, plane_of([2, 2, 1, 1, 1, 1], &count));
}

#[test]
fn texts_that_are_filled_are_read_back() {
    let texts = ["Hello World", "", "This is a test"];
    let mut plane = vacant(3);
    plane.data_mut().iter_mut().zip(texts).for_each(|(entry, text)| *entry = Some(String::from(text)));
    assert_eq!(values(plane).data(), texts);
}

#[test]
fn elements_without_a_size_are_counted() {
    let mut plane = vacant::<()>(2);
    assert!(!plane.is_init());
    plane.data_mut().fill(Some(()));
    assert_eq!(values(plane).data().len(), 2);
}

#[test]
fn options_are_shown() {
    let shown = "Plane { data: [Some(5), None], geometry: PlaneGeometry { width: 2, height: 1, stride: 2, pad_left: 0, \
                 pad_right: 0, pad_top: 0, pad_bottom: 0, subsampling_x: 1, subsampling_y: 1 } }";
    assert_eq!(format!("{:?}", holding(&[Some(5), None])), shown);
}

/// An element that counts its drop.
struct Counted(Rc<Cell<usize>>);

impl Drop for Counted {
    fn drop(&mut self) {
        self.0.set(self.0.get() + 1);
    }
}

/// Returns three entries. The first `count` of them have an element.
fn held(drops: &Rc<Cell<usize>>, count: usize) -> Plane<Option<Counted>> {
    let mut plane = vacant(3);
    plane.data_mut().iter_mut().take(count).for_each(|entry| *entry = Some(Counted(drops.clone())));
    plane
}

#[test]
fn each_element_is_dropped_once() {
    let drops = Rc::new(Cell::new(0));
    for count in [0, 3] {
        drops.set(0);
        let options = held(&drops, count);
        assert_eq!(drops.get(), 0);
        drop(options);
        assert_eq!(drops.get(), count);
    }
    drops.set(0);
    let values = values(held(&drops, 3));
    assert_eq!(drops.get(), 0);
    drop(values);
    assert_eq!(drops.get(), 3);
}

/// Returns a plane of this shape with these entries.
fn shaped(
    ([width, height, left, right], [x, y]): ([usize; 4], [u8; 2]),
    entries: [Option<u8>; 4],
) -> Plane<Option<u8>> {
    let geometry = PlaneGeometry::new(width, height, left, right, 0, 0, x, y).expect("a geometry");
    let mut plane = Plane::new_uninit(geometry).expect("memory");
    plane.data_mut().copy_from_slice(&entries);
    plane
}

#[test]
fn planes_are_equal_in_geometry_and_in_each_entry() {
    let (shape, entries) = (([2, 1, 1, 1], [1, 1]), [Some(1), Some(2), Some(3), Some(4)]);
    let plane = shaped(shape, entries);
    assert_eq!(plane, shaped(shape, entries));
    for other in [
        [Some(9), Some(2), Some(3), Some(4)],
        [Some(1), Some(2), Some(3), Some(9)],
        [Some(1), Some(9), Some(3), Some(4)],
        [Some(1), None, Some(3), Some(4)],
    ] {
        assert_ne!(plane, shaped(shape, other));
    }
    for other in [
        ([2, 1, 2, 0], [1, 1]),
        ([4, 1, 0, 0], [1, 1]),
        ([2, 2, 0, 0], [1, 1]),
        ([2, 1, 1, 1], [2, 1]),
        ([2, 1, 1, 1], [1, 2]),
    ] {
        assert_ne!(plane, shaped(other, entries));
    }
}

#[test]
fn entries_without_values_begin_at_addresses_that_64_divides() {
    for width in [1, 33, 5000, 300_000] {
        let addresses = [
            vacant::<u8>(width).data().as_ptr().addr(),
            vacant::<u16>(width).data().as_ptr().addr(),
            // Each of these entries has three bytes.
            vacant::<[u8; 2]>(width).data().as_ptr().addr(),
        ];
        assert_eq!(addresses.map(|address| address % 64), [0; 3], "{width} entries");
    }
}
