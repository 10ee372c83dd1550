//! Makes calls on a plane of a frame, and prints their results.

use crate::print::{print_option, print_row};
use crate::tokens::{Read, Side, Tokens};
use std::fmt::Write;
use v_frame::frame::Frame;
use v_frame::pixel::Pixel;
use v_frame::plane::{CopyError, Plane};

/// Makes the call of a line, and prints its result.
pub fn answer<T: Pixel>(frame: &mut Frame<T>, tokens: &mut Tokens, out: &mut String) -> Read<()> {
    let name = tokens.word()?;
    let index = tokens.size()?;
    let Some(plane) = frame.plane_mut(index) else {
        out.push_str("NoPlane\n");
        return Ok(());
    };
    match name {
        "Width" => named(out, "Number", plane.width()),
        "Height" => named(out, "Number", plane.height()),
        "Row" => {
            out.push_str("RowShown");
            print_row(plane.row(tokens.size()?), out);
        }
        "Pixel" => {
            let [x, y] = tokens.sizes()?;
            print_pixel(visible(plane, x, y).copied(), out);
        }
        "Rows" => walk("RowsWalked", plane.rows(), tokens, out, print_row)?,
        "Pixels" => walk("PixelsWalked", plane.pixels(), tokens, out, print_option)?,
        "ByteData" => walk("BytesWalked", plane.byte_data(), tokens, out, print_option)?,
        _ => answer_write(name, plane, tokens, out)?,
    }
    out.push('\n');
    tokens.end()
}

/// Makes the call of a line that writes, and prints its result.
fn answer_write<T: Pixel>(
    name: &str,
    plane: &mut Plane<T>,
    tokens: &mut Tokens,
    out: &mut String,
) -> Read<()> {
    match name {
        "RowMut" => {
            let y = tokens.size()?;
            let writes = tokens.list(Tokens::option)?;
            out.push_str("RowShown");
            let row = plane.row_mut(y);
            print_row(row.as_deref(), out);
            if let Some(row) = row {
                overwrite(row, &writes);
            }
        }
        "PixelMut" => {
            let [x, y] = tokens.sizes()?;
            let value = tokens.pixel()?;
            let pixel = visible(plane, x, y);
            print_pixel(pixel.as_deref().copied(), out);
            if let Some(pixel) = pixel {
                *pixel = value;
            }
        }
        "RowsMut" => {
            let mut rows = plane.rows_mut();
            let draws = tokens.list(|tokens| Ok((tokens.side()?, tokens.list(Tokens::option)?)))?;
            let _ = write!(out, "RowsWalked {} {}", rows.len(), draws.len());
            for (side, writes) in draws {
                let row = drawn(&mut rows, side);
                print_row(row.as_deref(), out);
                if let Some(row) = row {
                    overwrite(row, &writes);
                }
                let _ = write!(out, " {}", rows.len());
            }
        }
        "PixelsMut" => {
            let mut pixels = plane.pixels_mut();
            let draws = tokens.list(|tokens| Ok((tokens.side()?, tokens.option()?)))?;
            let _ = write!(out, "PixelsWalked {} {}", pixels.len(), draws.len());
            for (side, value) in draws {
                let pixel = drawn(&mut pixels, side);
                print_option(pixel.as_deref().copied(), out);
                if let (Some(pixel), Some(value)) = (pixel, value) {
                    *pixel = value;
                }
                let _ = write!(out, " {}", pixels.len());
            }
        }
        "CopyFromSlice" => print_copy(plane.copy_from_slice(&tokens.source()?), out),
        "CopyFromU8Slice" => print_copy(plane.copy_from_u8_slice(&tokens.source()?), out),
        "CopyFromU8SliceWithStride" => {
            let stride = tokens.size()?;
            print_copy(
                plane.copy_from_u8_slice_with_stride(&tokens.source()?, stride),
                out,
            );
        }
        other => return Err(format!("unknown call: {other}")),
    }
    Ok(())
}

/// Returns the pixel at a place of the visible rectangle.
fn visible<T: Pixel>(plane: &mut Plane<T>, x: usize, y: usize) -> Option<&mut T> {
    if x < plane.width() && y < plane.height() {
        plane.pixel_mut(x, y)
    } else {
        None
    }
}

/// Takes an item from one side of an iterator.
fn drawn<I: DoubleEndedIterator>(items: &mut I, side: Side) -> Option<I::Item> {
    match side {
        Side::Front => items.next(),
        Side::Back => items.next_back(),
    }
}

/// Takes items from the sides that a line lists. Prints each item with the number of items that are left.
fn walk<I: DoubleEndedIterator + ExactSizeIterator>(
    name: &str,
    mut items: I,
    tokens: &mut Tokens,
    out: &mut String,
    print: impl Fn(Option<I::Item>, &mut String),
) -> Read<()> {
    let sides = tokens.list(Tokens::side)?;
    let _ = write!(out, "{name} {} {}", items.len(), sides.len());
    for side in sides {
        print(drawn(&mut items, side), out);
        let _ = write!(out, " {}", items.len());
    }
    Ok(())
}

/// Writes a list of writes into a row, up to the end of the shorter one.
fn overwrite<T: Pixel>(row: &mut [T], writes: &[Option<T>]) {
    for (pixel, write) in row.iter_mut().zip(writes) {
        *pixel = write.unwrap_or(*pixel);
    }
}

fn named(out: &mut String, name: &str, number: usize) {
    let _ = write!(out, "{name} {number}");
}

fn print_pixel<T: Pixel>(pixel: Option<T>, out: &mut String) {
    let _ = match pixel {
        Some(pixel) => write!(out, "PixelShown {pixel}"),
        None => write!(out, "OutsideRectangle"),
    };
}

fn print_copy(copied: Result<(), CopyError>, out: &mut String) {
    let _ = match copied {
        Ok(()) => write!(out, "Copied Ok"),
        Err(CopyError::DataLength { expected, found }) => {
            write!(out, "Copied DataLength {expected} {found}")
        }
        Err(CopyError::InvalidStride { stride, width }) => {
            write!(out, "Copied InvalidStride {stride} {width}")
        }
    };
}
