use v_frame_proved::chroma::ChromaSubsampling;
use v_frame_proved::frame::{FrameBuilder, FrameError};
use v_frame_proved::ops::{fill, pad};

fn main() -> Result<(), FrameError> {
    // 6 by 4 pixels in 4:2:0 with 8 bits, and padding beside luma.
    let mut frame = FrameBuilder::new(6, 4, ChromaSubsampling::Yuv420, 8)
        .luma_padding_left(2)
        .luma_padding_right(2)
        .build::<u8>()?;

    fill(&mut frame.y_plane, 100);
    frame.y_plane[1][5] = 200; // row 1, column 5, which is the last
    for row in frame.y_plane.rows() {
        println!("{row:?}");
    }

    pad(&mut frame.y_plane); // repeats the edges in the padding
    let second_row = &frame.y_plane.data()[10..20]; // the stride is 10
    println!("with padding: {second_row:?}");
    Ok(())
}
