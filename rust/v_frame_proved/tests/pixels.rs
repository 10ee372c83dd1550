//! Values and bytes of both pixel types.

mod support;

use support::planes::{plane_of, sample};
use v_frame_proved::pixel::Pixel;

/// Tests that a value has its pixel, or none if it is too large, and that the pixel is less than the next one.
fn check_value<T: Pixel>(value: u16, is_pixel: bool) {
    let found = T::try_from(value).ok();
    assert_eq!(found.is_some(), is_pixel, "{value}");
    if let Some(pixel) = found {
        let other = sample::<T>(0, value.into(), 1);
        assert_eq!(pixel.into(), value);
        assert_eq!(pixel.cmp(&other), value.cmp(&other.into()));
        assert_eq!(pixel == other, value == other.into());
    }
}

#[test]
fn each_value_has_its_pixel() {
    for value in 0..=65_535 {
        check_value::<u8>(value, value < 256);
        check_value::<u16>(value, true);
    }
}

#[test]
fn each_word_has_its_bytes() {
    let words: Vec<u16> = (0..=65_535).collect();
    let bytes: Vec<u8> = words.iter().flat_map(|word| word.to_le_bytes()).collect();
    let mut plane = plane_of([256, 256, 0, 0, 0, 0], &[0_u16; 65_536]);
    assert_eq!(plane.copy_from_u8_slice(&bytes), Ok(()));
    assert_eq!(plane.data(), words);
    assert!(plane.byte_data().eq(bytes));
}
