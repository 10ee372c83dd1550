//! Geometries of planes and subsampling ratios of formats: derived values and rejections.

use v_frame_proved::chroma::ChromaSubsampling::{self, Monochrome, Yuv411, Yuv420, Yuv422, Yuv444};
use v_frame_proved::plane::{PlaneGeometry, SubsamplingError};

/// Returns the size, the stride, the padding on the left, right, top and bottom, and the ratios.
fn numbers_of(geometry: &PlaneGeometry) -> [usize; 9] {
    [
        geometry.width(),
        geometry.height(),
        geometry.stride(),
        geometry.pad_left(),
        geometry.pad_right(),
        geometry.pad_top(),
        geometry.pad_bottom(),
        geometry.subsampling_x().into(),
        geometry.subsampling_y().into(),
    ]
}

#[test]
fn sizes_follow_from_the_paddings() {
    let geometry = PlaneGeometry::new(4, 3, 2, 2, 1, 1, 1, 1).expect("a geometry");
    assert_eq!(geometry.checked_alloc_size(), Some(40));
    let sizes = [geometry.stride(), geometry.data_origin(), geometry.alloc_height(), geometry.alloc_size()];
    assert_eq!(sizes, [8, 10, 5, 40]);
    let padded = PlaneGeometry::new(1920, 1080, 40, 30, 20, 10, 1, 1).expect("padded");
    assert_eq!(numbers_of(&padded), [1920, 1080, 1990, 40, 30, 20, 10, 1, 1]);
    let unpadded = PlaneGeometry::unpadded(1920, 1080, 1, 1).expect("unpadded");
    assert_eq!(numbers_of(&unpadded), [1920, 1080, 1920, 0, 0, 0, 0, 1, 1]);
}

/// The stride of a geometry, and the size of its buffer if it can have one.
type Sizes = (usize, Option<usize>);

fn sizes(geometry: Option<PlaneGeometry>) -> Option<Sizes> {
    geometry.map(|geometry| (geometry.stride(), geometry.checked_alloc_size()))
}

/// A width, a height, the padding on the left, right, top and bottom, and the ratios, with the sizes of the geometry.
///
/// There is no geometry if a size or a ratio is zero, or if the stride overflows `usize`.
const PADDED: [([usize; 6], [u8; 2], Option<Sizes>); 13] = [
    ([0, 1080, 40, 30, 20, 10], [1, 1], None),
    ([1920, 0, 40, 30, 20, 10], [1, 1], None),
    ([1920, 1080, 40, 30, 20, 10], [0, 1], None),
    ([1920, 1080, 40, 30, 20, 10], [1, 0], None),
    ([usize::MAX - 50, 1080, 30, 30, 0, 0], [1, 1], None),
    ([1, 1, usize::MAX, 0, 0, 0], [1, 1], None),
    ([1, 1, 0, usize::MAX, 0, 0], [1, 1], None),
    ([1, 1, usize::MAX, usize::MAX, 0, 0], [1, 1], None),
    ([1, 1, usize::MAX - 2, 2, 0, 0], [1, 1], None),
    ([usize::MAX - 50, 1080, 25, 25, 0, 0], [1, 1], Some((usize::MAX, None))),
    ([1, 1, usize::MAX - 1, 0, 0, 0], [1, 1], Some((usize::MAX, None))),
    ([1, 1, usize::MAX - 2, 1, 0, 0], [1, 1], Some((usize::MAX, None))),
    ([1, usize::MAX, 0, 0, usize::MAX, usize::MAX], [1, 1], Some((1, None))),
];

/// The same values for planes without padding. The size of the third one is 2^64, which overflows `usize`.
const UNPADDED: [([usize; 2], [u8; 2], Option<Sizes>); 9] = [
    ([4611686018427387903, 1], [1, 1], Some((4611686018427387903, Some(4611686018427387903)))),
    ([4611686018427387904, 1], [1, 1], Some((4611686018427387904, None))),
    ([4294967296, 4294967296], [1, 1], Some((4294967296, None))),
    ([2147483648, 2147483648], [1, 1], Some((2147483648, None))),
    ([2147483648, 2147483647], [1, 1], Some((2147483648, Some(4611686016279904256)))),
    ([0, 1080], [1, 1], None),
    ([1920, 0], [1, 1], None),
    ([1920, 1080], [0, 1], None),
    ([1920, 1080], [1, 0], None),
];

#[test]
fn strides_and_buffers_are_as_large_as_numbers_go() {
    for (numbers, [x, y], wanted) in PADDED {
        let [width, height, left, right, top, bottom] = numbers;
        let found = sizes(PlaneGeometry::new(width, height, left, right, top, bottom, x, y));
        assert_eq!(found, wanted, "{numbers:?}, {x}, {y}");
    }
    for ([width, height], [x, y], wanted) in UNPADDED {
        assert_eq!(sizes(PlaneGeometry::unpadded(width, height, x, y)), wanted, "{width} by {height}, {x}, {y}");
    }
}

/// The width and the height, the padding on the left, right, top and bottom, and the ratios.
type Shape = ([usize; 2], [usize; 4], [u8; 2]);

fn geometry(([width, height], [left, right, top, bottom], [x, y]): Shape) -> PlaneGeometry {
    PlaneGeometry::new(width, height, left, right, top, bottom, x, y).expect("a geometry")
}

/// A padded plane. Its width, its height and its padding are all even.
const EVEN: Shape = ([1920, 1080], [40, 30, 20, 10], [1, 1]);

/// A plane with an odd number of padding rows at the bottom.
const ODD_BELOW: Shape = ([1920, 1080], [10, 10, 40, 15], [1, 1]);

/// The chroma geometry of the padded plane in 4:2:0.
const HALVED: Shape = ([960, 540], [20, 15, 10, 5], [2, 2]);

/// A geometry of that size whose padding on the right is a multiple of 4.
const QUARTERED: Shape = ([960, 540], [20, 16, 10, 5], [2, 2]);

/// The chroma geometry of the padded plane in 4:2:2.
const HALF_AS_WIDE: Shape = ([960, 1080], [20, 15, 20, 10], [2, 1]);

/// A plane whose ratios are not 1.
const SMALL: Shape = ([8, 8], [0; 4], [2, 2]);

/// Planes, a format, and the chroma geometry in that format.
const DIVIDED: [(Shape, ChromaSubsampling, Shape); 7] = [
    (EVEN, Yuv444, EVEN),
    (EVEN, Yuv422, HALF_AS_WIDE),
    (EVEN, Yuv420, HALVED),
    (ODD_BELOW, Yuv422, ([960, 1080], [5, 5, 40, 15], [2, 1])),
    (QUARTERED, Yuv411, ([240, 540], [5, 4, 10, 5], [4, 1])),
    (SMALL, Yuv422, ([4, 8], [0; 4], [2, 1])),
    (SMALL, Yuv444, SMALL),
];

#[test]
fn sizes_and_paddings_are_divided() {
    for (luma, format, chroma) in DIVIDED {
        let found = geometry(luma).for_subsampling(format);
        assert_eq!(found, Ok(Some(geometry(chroma))), "{luma:?} in {format:?}");
    }
    assert_eq!(geometry(HALVED).stride(), 995);
    assert_eq!(geometry(HALF_AS_WIDE).stride(), 995);
}

#[test]
fn what_is_around_a_region_is_its_border() {
    let plane = geometry(([20, 12], [4, 3, 2, 1], [2, 1]));
    let region = plane.region(5, 6, 7, 4).expect("a region");
    assert_eq!(numbers_of(&region), [7, 4, 27, 9, 11, 8, 3, 2, 1]);
    assert_eq!((region.data_origin(), region.checked_alloc_size()), (225, plane.checked_alloc_size()));
    assert_eq!(plane.region(0, 0, 20, 12), Some(plane));
    for [x, y, width, height] in [[0, 0, 0, 1], [0, 0, 1, 0], [14, 0, 7, 1], [0, 12, 1, 1], [usize::MAX, 0, 2, 1]] {
        assert_eq!(plane.region(x, y, width, height), None, "{width} by {height} at {x}, {y}");
    }
    let region = plane.region_with_border(-1, 11, 3, 2).expect("a region");
    assert_eq!(numbers_of(&region), [3, 2, 27, 3, 21, 13, 0, 2, 1]);
    assert_eq!(plane.region_with_border(-4, -2, 27, 15), Some(plane.whole_buffer()));
}

/// Planes, and whether each has a chroma geometry in 4:2:0, in 4:2:2 and in 4:1:1.
const HALVES: [(Shape, [bool; 3]); 7] = [
    (EVEN, [true, true, false]),
    (([1921, 1080], [0; 4], [1, 1]), [false; 3]),
    (([17, 41], [0; 4], [1, 1]), [false; 3]),
    (([1920, 1080], [10, 7, 40, 20], [1, 1]), [false; 3]),
    (([1920, 1081], [0; 4], [1, 1]), [false, true, true]),
    (ODD_BELOW, [false, true, false]),
    (HALVED, [false, false, false]),
];

#[test]
fn odd_sizes_and_paddings_have_no_half() {
    for (shape, wanted) in HALVES {
        let luma = geometry(shape);
        let found = [Yuv420, Yuv422, Yuv411].map(|format| luma.for_subsampling(format) != Err(SubsamplingError));
        assert_eq!(found, wanted, "{shape:?}");
        assert_eq!(luma.for_subsampling(Yuv444), Ok(Some(luma)));
        assert_eq!(luma.for_subsampling(Monochrome), Ok(None));
    }
}

/// A width and a height.
type Size = (usize, usize);

/// Formats, luma sizes and chroma sizes.
const SIZES: [(ChromaSubsampling, Size, Option<Size>); 19] = [
    (Yuv420, (1920, 1080), Some((960, 540))),
    (Yuv422, (1920, 1080), Some((960, 1080))),
    (Yuv411, (1920, 1080), Some((480, 1080))),
    (Yuv444, (1920, 1080), Some((1920, 1080))),
    (Monochrome, (1920, 1080), None),
    (Yuv420, (3840, 2160), Some((1920, 1080))),
    (Yuv422, (3840, 2160), Some((1920, 2160))),
    (Yuv444, (3840, 2160), Some((3840, 2160))),
    (Yuv420, (1921, 1080), None),
    (Yuv420, (1920, 1081), None),
    (Yuv420, (1921, 1081), None),
    (Yuv420, (2, 2), Some((1, 1))),
    (Yuv444, (1, 1), Some((1, 1))),
    (Yuv420, (0, 0), Some((0, 0))),
    (Yuv422, (2, 1), Some((1, 1))),
    (Yuv422, (1921, 1080), None),
    (Yuv411, (8, 3), Some((2, 3))),
    (Yuv411, (6, 2), None),
    (Yuv411, (usize::MAX, 2), None),
];

#[test]
fn formats_have_their_ratios_and_sizes() {
    let ratios = [
        (Yuv420, Some((2, 2))),
        (Yuv422, Some((2, 1))),
        (Yuv411, Some((4, 1))),
        (Yuv444, Some((1, 1))),
        (Monochrome, None),
    ];
    for (format, ratio) in ratios {
        let found = format.subsample_ratio().map(|(x, y)| (x.get(), y.get()));
        assert_eq!((found, format.has_chroma()), (ratio, ratio.is_some()), "{format:?}");
    }
    for (format, (width, height), chroma) in SIZES {
        assert_eq!(format.chroma_dimensions(width, height), chroma, "{width} by {height} in {format:?}");
    }
}
