//! Uses the layout of planes.

use crate::formats::FORMATS;
use v_frame::plane::{PlaneGeometry, SubsamplingError};

/// The getters, each as a function.
const GETTERS: [(&str, fn(&PlaneGeometry) -> usize); 10] = [
    ("width", PlaneGeometry::width),
    ("height", PlaneGeometry::height),
    ("stride", PlaneGeometry::stride),
    ("pad_left", PlaneGeometry::pad_left),
    ("pad_right", PlaneGeometry::pad_right),
    ("pad_top", PlaneGeometry::pad_top),
    ("pad_bottom", PlaneGeometry::pad_bottom),
    ("data_origin", PlaneGeometry::data_origin),
    ("alloc_height", PlaneGeometry::alloc_height),
    ("alloc_size", PlaneGeometry::alloc_size),
];

/// Prints valid geometries, numbers without a geometry, and geometries of chroma.
pub fn print() {
    let padded = PlaneGeometry::new(12, 6, 4, 8, 2, 6, 1, 1);
    let odd = PlaneGeometry::new(12, 6, 3, 8, 1, 6, 2, 4);
    let plain = PlaneGeometry::unpadded(7, 5, 2, 2);
    for geometry in [padded, odd, plain].into_iter().flatten() {
        print_getters(&geometry);
        for format in FORMATS {
            match geometry.for_subsampling(format) {
                Ok(Some(chroma)) => print_getters(&chroma),
                Ok(None) => println!("{format:?}: none"),
                Err(SubsamplingError) => println!("{format:?}: refused"),
            }
        }
    }
    println!("{}", padded == padded.clone() && padded != odd && plain.is_some());
    println!("{:?} {:#?}", plain, odd);
    print_refused();
}

fn print_getters(geometry: &PlaneGeometry) {
    for (name, getter) in GETTERS {
        print!("{name} {} ", getter(geometry));
    }
    let ratio: (u8, u8) = (geometry.subsampling_x(), geometry.subsampling_y());
    println!("{ratio:?}");
}

/// Prints that these numbers have no geometry.
fn print_refused() {
    let refused = [
        PlaneGeometry::new(0, 1, 0, 0, 0, 0, 1, 1),
        PlaneGeometry::new(1, 0, 0, 0, 0, 0, 1, 1),
        PlaneGeometry::new(1, 1, 0, 0, 0, 0, 0, 1),
        PlaneGeometry::new(1, 1, 0, 0, 0, 0, 1, 0),
        PlaneGeometry::new(2, 1, usize::MAX, 0, 0, 0, 1, 1),
        PlaneGeometry::new(2, 1, 1, usize::MAX - 2, 0, 0, 1, 1),
        PlaneGeometry::unpadded(0, 0, 1, 1),
    ];
    println!("{refused:?} {}", refused.iter().all(Option::is_none));
    let widest = PlaneGeometry::unpadded(usize::MAX, 1, u8::MAX, u8::MAX);
    println!("{widest:?} {:?}", widest.map(|it| it.stride()));
    let error = SubsamplingError;
    let copied = error;
    println!("{error:?} {}", copied == error.clone());
}
