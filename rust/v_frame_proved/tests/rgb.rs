//! Conversions between YUV and RGB of five by three pixels, in planes and in rows.

mod support;

use support::cases::{Case, cases, values};
use support::planes::{BORDER, blank, bordered, must_hold, must_show, numbered, plane_of, weighted};
use v_frame_proved::pixel::Pixel;
use v_frame_proved::plane::RowsRef;
use v_frame_proved::rgb::{
    Bgr, Bgra, Channel, ChromaU, ChromaV, Color, ColorOrder, ColorRange, ExactMatrix, Luma, Rgb, RgbMatrix, Rgba,
    Standard, YuvMatrix, rgb_to_channel, rgb_to_yuv444, rows, yuv444_to_rgb,
};

const CASES: &str = include_str!("data/colors.txt");

/// Returns the standard and the range that a case names.
fn standard(case: &mut Case<'_>) -> (Standard, ColorRange) {
    let standard = match case.word() {
        "Bt601" => Standard::Bt601,
        "Bt709" => Standard::Bt709,
        _ => Standard::Bt2020,
    };
    (standard, if case.word() == "Full" { ColorRange::Full } else { ColorRange::Limited })
}

/// Returns the samples of luma, Cb and Cr.
fn samples() -> [Vec<u8>; 3] {
    ["y", "u", "v"].map(|name| values(CASES, name))
}

fn decodes<O: ColorOrder>(case: &Case<'_>, matrix: RgbMatrix) {
    let wanted: Vec<u8> = case.wanted();
    let (width, stride) = (5 * O::BYTES, 5 * O::BYTES + 2);
    let holds = |buffer: &[u8]| must_hold(buffer, stride, (0, 0), (width, 3), |x, y| wanted[y * width + x]);
    let samples = samples();
    let mut buffer = [BORDER; 80];
    let [y, u, v] = [0, 1, 2].map(|index| RowsRef::new(&samples[index], 5, 3, 5).expect("rows"));
    rows::yuv444_to_rgb::<O>(&y, &u, &v, &mut buffer, width, 3, stride, matrix);
    holds(&buffer);
    buffer.fill(BORDER);
    let [y, u, v] = samples.map(|samples| plane_of([5, 3, 0, 0, 0, 0], &samples));
    let (y, u, v) = (y.as_plane_ref(), u.as_plane_ref(), v.as_plane_ref());
    yuv444_to_rgb::<O>(&y, &u, &v, &mut buffer, width, 3, stride, matrix);
    holds(&buffer);
}

#[test]
fn samples_become_colors() {
    for mut case in cases(CASES, "decode") {
        let (standard, range) = standard(&mut case);
        let matrix = RgbMatrix::new(standard, range);
        match case.word() {
            "Rgb" => decodes::<Rgb>(&case, matrix),
            "Bgr" => decodes::<Bgr>(&case, matrix),
            "Rgba" => decodes::<Rgba>(&case, matrix),
            _ => decodes::<Bgra>(&case, matrix),
        }
    }
}

/// Tests one channel of a converted picture, in rows and in a plane.
fn encodes_channel<O: ColorOrder, C: Channel>(source: &RowsRef<'_, u8>, matrix: YuvMatrix, wanted: &[u8]) {
    let mut buffer = [BORDER; 25];
    rows::rgb_to_channel::<O, C>(source, &mut buffer, 5, 3, 5, matrix);
    must_hold(&buffer, 5, (0, 0), (5, 3), |x, y| wanted[5 * y + x]);
    let mut plane = bordered([5, 3, 2, 1, 1, 2]);
    rgb_to_channel::<O, C>(source, &mut plane, matrix);
    must_show(&plane, |x, y| wanted[5 * y + x]);
}

fn encodes<O: ColorOrder>(case: &Case<'_>, matrix: YuvMatrix) {
    let wanted: Vec<u8> = case.wanted();
    let [luma, cb, cr] = [0, 15, 30].map(|start| &wanted[start..start + 15]);
    let colors: Vec<u8> = values(CASES, "colors");
    let source = RowsRef::new(&colors, 5 * O::BYTES, 3, 5 * O::BYTES).expect("rows");
    let [mut y, mut u, mut v] = [(); 3].map(|()| bordered([5, 3, 2, 1, 1, 2]));
    rgb_to_yuv444::<O>(&source, &mut y, &mut u, &mut v, matrix);
    for (plane, wanted) in [(&y, luma), (&u, cb), (&v, cr)] {
        must_show(plane, |x, y| wanted[5 * y + x]);
    }
    let (mut y, mut u, mut v) = ([BORDER; 21], [BORDER; 23], [BORDER; 25]);
    rows::rgb_to_yuv444::<O>(&source, &mut y, &mut u, &mut v, 5, 3, (6, 7, 5), matrix);
    for (buffer, stride, wanted) in [(&y[..], 6, luma), (&u, 7, cb), (&v, 5, cr)] {
        must_hold(buffer, stride, (0, 0), (5, 3), |x, y| wanted[5 * y + x]);
    }
    encodes_channel::<O, Luma>(&source, matrix, luma);
    encodes_channel::<O, ChromaU>(&source, matrix, cb);
    encodes_channel::<O, ChromaV>(&source, matrix, cr);
}

#[test]
fn colors_become_samples() {
    for mut case in cases(CASES, "encode") {
        let (standard, range) = standard(&mut case);
        let matrix = YuvMatrix::new(standard, range);
        match case.word() {
            "Rgb" => encodes::<Rgb>(&case, matrix),
            "Bgr" => encodes::<Bgr>(&case, matrix),
            "Rgba" => encodes::<Rgba>(&case, matrix),
            _ => encodes::<Bgra>(&case, matrix),
        }
    }
}

#[test]
fn coefficients_are_those_of_the_standards() {
    for mut case in cases(CASES, "rgb_matrix") {
        let (standard, range) = standard(&mut case);
        let RgbMatrix { black, luma, red_v, green_u, green_v, blue_u } = RgbMatrix::new(standard, range);
        case.expect(&[black.into(), luma, red_v, green_u, green_v, blue_u]);
    }
    for mut case in cases(CASES, "yuv_matrix") {
        let (standard, range) = standard(&mut case);
        let YuvMatrix { black, y_red, y_green, y_blue, u_red, u_green, u_blue, v_red, v_green, v_blue } =
            YuvMatrix::new(standard, range);
        case.expect(&[black.into(), y_red, y_green, y_blue, u_red, u_green, u_blue, v_red, v_green, v_blue]);
    }
}

#[test]
fn wide_pictures_become_colors_and_samples() {
    let layout = [67, 9, 0, 0, 0, 0];
    let factors: Vec<usize> = values(CASES, "factors");
    let samples = [0, 1, 2].map(|index| numbered::<u8>(layout, factors[index], 0));
    let [y, u, v] = [0, 1, 2].map(|index| samples[index].as_plane_ref());
    let colors: Vec<u8> = (0..67 * 9).flat_map(|i| [0, 1, 2].map(|index| samples[index].data()[i])).collect();
    let source = RowsRef::new(&colors, 3 * 67, 9, 3 * 67).expect("rows");
    for mut case in cases(CASES, "wide") {
        let (standard, range) = standard(&mut case);
        let mut buffer = vec![0; 3 * 67 * 9];
        yuv444_to_rgb::<Rgb>(&y, &u, &v, &mut buffer, 3 * 67, 9, 3 * 67, RgbMatrix::new(standard, range));
        let [mut luma, mut cb, mut cr] = [(); 3].map(|()| blank::<u8>(layout));
        rgb_to_yuv444::<Rgb>(&source, &mut luma, &mut cb, &mut cr, YuvMatrix::new(standard, range));
        case.expect(&[weighted(&buffer), weighted(luma.data()), weighted(cb.data()), weighted(cr.data())]);
    }
}

/// Returns the sum of the colors of a wide picture with this bit depth.
fn exact<T: Pixel>(matrix: &ExactMatrix, size: u16) -> u64 {
    let factors: Vec<usize> = values(CASES, "factors");
    let samples = [0, 1, 2].map(|index| numbered::<T>([67, 9, 0, 0, 0, 0], factors[index], size));
    let mut buffer = vec![0; 3 * 67 * 9];
    rows::yuv444_to_rgb_exactly::<T, Rgb>(&samples[0], &samples[1], &samples[2], &mut buffer, 3 * 67, 9, 3 * 67, matrix);
    weighted(&buffer)
}

#[test]
fn samples_of_any_depth_become_colors() {
    for mut case in cases(CASES, "exact") {
        let (standard, range) = standard(&mut case);
        let depth: u8 = case.number();
        let matrix = ExactMatrix::new(standard, range, depth);
        let size = if depth == 16 { 0 } else { 1 << depth };
        case.expect(&[if depth == 8 { exact::<u8>(&matrix, 0) } else { exact::<u16>(&matrix, size) }]);
    }
}

#[test]
fn colors_come_back_nearly() {
    for mut case in cases(CASES, "stored") {
        let (standard, range) = standard(&mut case);
        let color = Color { red: case.number(), green: case.number(), blue: case.number() };
        let matrix = YuvMatrix::new(standard, range);
        let (y, u, v) =
            (Luma::sample(matrix, color), ChromaU::sample(matrix, color), ChromaV::sample(matrix, color));
        let Color { red, green, blue } = RgbMatrix::new(standard, range).color(y, u, v);
        case.expect(&[red, green, blue]);
    }
}

/// 16-bit samples and their colors, computed with Python's fractions. One channel is exactly at a half, or barely above or
/// below one, so that a difference in the last digits of a coefficient changes the result.
const NEAR_HALVES: [(Standard, ColorRange, [u16; 3], [u8; 3]); 42] = {
    use ColorRange::{Full, Limited};
    use Standard::{Bt601, Bt709, Bt2020};
    [
        (Bt601, Limited, [51619, 32768, 10368], [77, 255, 216]),
        (Bt601, Limited, [12637, 32768, 55168], [179, 0, 39]),
        (Bt601, Limited, [7928, 1395, 0], [0, 170, 0]),
        (Bt601, Limited, [46446, 51762, 65535], [255, 60, 255]),
        (Bt601, Limited, [59722, 10368, 32768], [253, 255, 77]),
        (Bt601, Limited, [8987, 43968, 32768], [22, 5, 111]),
        (Bt601, Limited, [33667, 32768, 32768], [134, 134, 134]),
        (Bt601, Full, [46044, 32768, 18], [1, 255, 179]),
        (Bt601, Full, [127, 32768, 41018], [46, 0, 0]),
        (Bt601, Full, [34, 19838, 0], [0, 109, 0]),
        (Bt601, Full, [26610, 41722, 65535], [255, 1, 165]),
        (Bt601, Full, [57940, 143, 32768], [225, 255, 1]),
        (Bt601, Full, [194, 41143, 32768], [1, 0, 59]),
        (Bt601, Full, [30197, 32768, 32768], [117, 117, 117]),
        (Bt709, Limited, [37335, 32768, 18819], [54, 180, 151]),
        (Bt709, Limited, [6795, 32768, 61074], [211, 0, 12]),
        (Bt709, Limited, [5727, 7715, 0], [0, 97, 0]),
        (Bt709, Limited, [35434, 50567, 65535], [255, 60, 255]),
        (Bt709, Limited, [56435, 6766, 32768], [238, 255, 24]),
        (Bt709, Limited, [16019, 47101, 32768], [54, 42, 173]),
        (Bt709, Limited, [33667, 32768, 32768], [134, 134, 134]),
        (Bt709, Full, [49341, 32768, 1518], [1, 249, 192]),
        (Bt709, Full, [227, 32768, 41518], [55, 0, 1]),
        (Bt709, Full, [242, 8249, 0], [0, 79, 0]),
        (Bt709, Full, [17896, 45732, 65535], [255, 1, 163]),
        (Bt709, Full, [58116, 1518, 32768], [226, 249, 1]),
        (Bt709, Full, [83, 41518, 32768], [0, 0, 64]),
        (Bt709, Full, [30197, 32768, 32768], [117, 117, 117]),
        (Bt2020, Limited, [17876, 32768, 24506], [9, 84, 63]),
        (Bt2020, Limited, [4907, 32768, 65527], [219, 0, 4]),
        (Bt2020, Limited, [12179, 12978, 0], [0, 135, 0]),
        (Bt2020, Limited, [41609, 43525, 65535], [255, 80, 255]),
        (Bt2020, Limited, [26628, 22132, 32768], [102, 110, 14]),
        (Bt2020, Limited, [8, 62661, 32768], [0, 0, 232]),
        (Bt2020, Limited, [33667, 32768, 32768], [134, 134, 134]),
        (Bt2020, Full, [48053, 32768, 268], [1, 255, 187]),
        (Bt2020, Full, [200, 32768, 45268], [73, 0, 1]),
        (Bt2020, Full, [124, 18448, 0], [0, 83, 0]),
        (Bt2020, Full, [20591, 43348, 65535], [255, 1, 158]),
        (Bt2020, Full, [61274, 268, 32768], [238, 255, 1]),
        (Bt2020, Full, [255, 45268, 32768], [1, 0, 93]),
        (Bt2020, Full, [30197, 32768, 32768], [117, 117, 117]),
    ]
};

#[test]
fn colors_next_to_a_half_are_exact() {
    for (standard, range, [y, u, v], wanted) in NEAR_HALVES {
        let Color { red, green, blue } = ExactMatrix::new(standard, range, 16).color(y, u, v);
        assert_eq!([red, green, blue], wanted, "{standard:?}, {range:?}, {y} {u} {v}");
    }
}

/// Halves are rounded up. The sums of products were computed by hand: they are 8192 above a multiple of 16384, or 32768 above a
/// multiple of 65536.
#[test]
fn halves_are_rounded_up() {
    use ColorRange::{Full, Limited};
    use Standard::{Bt601, Bt709, Bt2020};
    for (standard, [y, u, v], wanted) in [
        (Bt601, [157, 128, 147], [195, 149, 164]),
        (Bt601, [32, 128, 138], [35, 11, 19]),
        (Bt601, [222, 49, 128], [240, 255, 81]),
        (Bt601, [123, 128, 200], [239, 66, 125]),
        (Bt709, [108, 128, 131], [113, 106, 107]),
        (Bt709, [18, 128, 62], [0, 38, 2]),
        (Bt709, [158, 165, 128], [165, 157, 244]),
        (Bt2020, [152, 128, 168], [226, 132, 158]),
        (Bt2020, [36, 128, 100], [0, 42, 23]),
    ] {
        let Color { red, green, blue } = RgbMatrix::new(standard, Limited).color(y, u, v);
        assert_eq!([red, green, blue], wanted, "{standard:?}, {y} {u} {v}");
    }
    for (standard, range, [red, green, blue], wanted) in [
        (Bt601, Limited, [5, 65, 168], [67, 182, 94]),
        (Bt601, Limited, [2, 100, 232], [90, 201, 76]),
        (Bt601, Limited, [0, 235, 155], [150, 128, 31]),
        (Bt601, Full, [3, 55, 187], [55, 203, 91]),
        (Bt601, Full, [0, 0, 1], [0, 129, 128]),
        (Bt601, Full, [0, 5, 5], [4, 129, 126]),
        (Bt709, Limited, [1, 255, 124], [181, 96, 22]),
        (Bt709, Limited, [7, 100, 73], [83, 126, 88]),
        (Bt709, Limited, [4, 125, 109], [100, 133, 76]),
        (Bt709, Full, [3, 255, 76], [189, 67, 10]),
        (Bt2020, Limited, [1, 35, 155], [45, 185, 109]),
        (Bt2020, Full, [3, 120, 124], [90, 146, 69]),
    ] {
        let (matrix, color) = (YuvMatrix::new(standard, range), Color { red, green, blue });
        let found = [Luma::sample(matrix, color), ChromaU::sample(matrix, color), ChromaV::sample(matrix, color)];
        assert_eq!(found, wanted, "{standard:?}, {range:?}, {color:?}");
    }
}
