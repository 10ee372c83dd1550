use std::fs::File;
use v_frame_proved::measures::{Mean, psnr};
use v_frame_proved::y4m::Decoder;

fn main() -> Result<(), Box<dyn std::error::Error>> {
    let source = Decoder::new(File::open("docs/clips/source.y4m")?)?;
    let encoded = Decoder::new(File::open("docs/clips/encoded.y4m")?)?;
    let mut errors = Mean::new();
    for (a, b) in source.zip(encoded) {
        errors.add(a?.mean_squared_error(&b?)?.all);
    }
    println!("PSNR {:.2} dB", psnr(errors.value().ok_or("no frames")?, 8));
    Ok(())
}
