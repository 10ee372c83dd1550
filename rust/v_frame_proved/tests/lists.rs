//! Planes made from lists, and lists made from planes.

use v_frame_proved::lists::ListError;
use v_frame_proved::pixel::Pixel;
use v_frame_proved::plane::{Plane, PlaneGeometry};

/// Returns the pixels 1, 2 and so on, modulo 251.
fn pixels<T: Pixel + From<u8>>(count: usize) -> Vec<T> {
    (1..=count).map(|number| T::from((number % 251) as u8)).collect()
}

/// Tests planes of this size, made in both ways and with several paddings.
fn check<T: Pixel + From<u8>>(width: usize, height: usize) {
    let list = pixels::<T>(width * height);
    let address = list.as_ptr();
    let plane = Plane::from_vec(width, height, list.clone()).expect("a plane");
    let copy = Plane::from_slice(width, height, &list).expect("a plane");
    assert!(plane == copy && copy.data() == list);
    assert_eq!(plane.geometry(), PlaneGeometry::unpadded(width, height, 1, 1).expect("a geometry"));
    assert!(plane.rows().eq(list.chunks(width)));
    assert_eq!(copy.data().as_ptr().align_offset(64), 0);
    assert!(copy.into_vec() == list && plane.clone().into_vec() == list);

    // No pixel is copied on the way from a list to a plane and back.
    let plane = Plane::from_vec(width, height, list).expect("a plane");
    assert_eq!(plane.data().as_ptr(), address);
    let list = plane.into_vec();
    assert_eq!(list.as_ptr(), address);

    for (left, right, top, bottom) in [(0, 0, 0, 1), (0, 1, 0, 0), (1, 0, 0, 0), (0, 0, 1, 0), (3, 2, 4, 5), (64, 64, 0, 9)] {
        let geometry = PlaneGeometry::new(width, height, left, right, top, bottom, 1, 1).expect("a geometry");
        let mut plane = Plane::<T>::new(geometry).expect("memory");
        plane.data_mut().fill(T::from(255));
        plane.copy_from_slice(&pixels(width * height)).expect("as many pixels");
        assert!(plane.into_vec() == pixels(width * height), "{geometry:?}");
    }
}

#[test]
fn lists_become_planes_and_planes_lists() {
    for (width, height) in [(1, 1), (1, 7), (7, 1), (2, 3), (31, 5), (64, 64), (129, 67)] {
        check::<u8>(width, height);
        check::<u16>(width, height);
    }
}

#[test]
fn lists_of_another_length_are_rejected() {
    for (width, height, found, error) in [
        (2, 3, 5, ListError::Length { expected: 6, found: 5 }),
        (2, 3, 7, ListError::Length { expected: 6, found: 7 }),
        (2, 3, 0, ListError::Length { expected: 6, found: 0 }),
        (0, 3, 0, ListError::Size { width: 0, height: 3 }),
        (3, 0, 0, ListError::Size { width: 3, height: 0 }),
        (0, 0, 1, ListError::Size { width: 0, height: 0 }),
        (usize::MAX, 2, 1, ListError::Size { width: usize::MAX, height: 2 }),
        (1 << 32, 1 << 32, 0, ListError::Size { width: 1 << 32, height: 1 << 32 }),
        (1 << 62, 1, 1, ListError::Size { width: 1 << 62, height: 1 }),
        ((1 << 62) - 1, 1, 1, ListError::Length { expected: (1 << 62) - 1, found: 1 }),
    ] {
        assert_eq!(Plane::from_vec(width, height, vec![0_u8; found]), Err(error));
        assert_eq!(Plane::from_slice(width, height, &vec![0_u16; found]), Err(error));
    }
}

#[test]
fn the_errors_have_texts() {
    let of_size = ListError::Size { width: 0, height: 3 };
    assert_eq!(of_size.to_string(), "no plane has 0 by 3 pixels");
    assert_eq!(ListError::Length { expected: 6, found: 5 }.to_string(), "expected 6 pixels, found 5");
    let error: Box<dyn std::error::Error> = ListError::from(v_frame_proved::AllocError).into();
    assert_eq!(error.to_string(), "out of memory");
}
