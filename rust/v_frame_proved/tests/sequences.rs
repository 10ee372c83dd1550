//! Sequences of any length.

mod support;

use support::planes::sample;
use v_frame_proved::pixel::Pixel;
use v_frame_proved::sequence::Sequence;

fn check_list<T: Pixel>(length: usize) {
    let pixels: Vec<T> = (0..length).map(|place| sample(0, place, 0)).collect();
    let list = Sequence::from_slice(&pixels).expect("memory");
    assert_eq!((list.len(), list.is_empty()), (length, length == 0));
    assert_eq!(list.as_slice(), pixels);
    assert_eq!(list.into_vec(), pixels);
}

#[test]
fn sequences_are_made_of_slices_of_any_length() {
    for length in [0, 1, 2, 63, 64, 65, 255, 256, 1000] {
        check_list::<u8>(length);
        check_list::<u16>(length);
    }
}
