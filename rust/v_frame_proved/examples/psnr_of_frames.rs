//! Prints the PSNR of each pair of frames of two y4m files, over all planes. Usage: psnr_of_frames FILE FILE
use std::error::Error;
use std::fs::File;
use v_frame_proved::y4m::Decoder;

fn main() -> Result<(), Box<dyn Error>> {
    let words: Vec<String> = std::env::args().skip(1).collect();
    let [first, second] = words.as_slice() else {
        return Err("usage: psnr_of_frames FILE FILE".into());
    };
    let (first, second) = (Decoder::new(File::open(first)?)?, Decoder::new(File::open(second)?)?);
    for (a, b) in first.zip(second) {
        println!("{:.4}", a?.psnr(&b?)?.all);
    }
    Ok(())
}
