use std::fs::File;
use v_frame_proved::ops::map_pixels;
use v_frame_proved::y4m::{Decoder, Encoder, VideoFrame};

fn main() -> Result<(), Box<dyn std::error::Error>> {
    let mut source = Decoder::new(File::open("docs/clips/source.y4m")?)?;
    let output = File::create("negative.y4m")?;
    let mut negative = Encoder::new(output, source.header().clone())?;
    let mut frame = VideoFrame::blank(source.header())?;
    while source.read_into(&mut frame)? {
        match &mut frame {
            VideoFrame::EightBits(frame) => {
                map_pixels(&mut frame.y_plane, |pixel| 255 - pixel);
            }
            VideoFrame::HighDepth(_) => return Err("not 8 bits".into()),
        }
        negative.write_frame(&frame)?;
    }
    negative.finish()?;
    Ok(())
}
