//! Prints the PSNR of two raw files of 8-bit luma. Usage: psnr WIDTH HEIGHT FILE FILE
use std::error::Error;
use v_frame_proved::ops::rows::sum_of_squared_errors;
use v_frame_proved::plane::RowsRef;

fn main() -> Result<(), Box<dyn Error>> {
    let words: Vec<String> = std::env::args().skip(1).collect();
    let [width, height, first, second] = words.as_slice() else {
        return Err("usage: psnr WIDTH HEIGHT FILE FILE".into());
    };
    let (width, height) = (width.parse()?, height.parse()?);
    let (first, second) = (std::fs::read(first)?, std::fs::read(second)?);
    let a = RowsRef::new(&first, width, height, width).ok_or("the first file is too short")?;
    let b = RowsRef::new(&second, width, height, width).ok_or("the second file is too short")?;
    let errors = sum_of_squared_errors(a, b);
    let count = (width * height) as f64;
    println!("squared errors {errors}, PSNR {:.6} dB", 10.0 * (255.0 * 255.0 * count / errors as f64).log10());
    Ok(())
}
