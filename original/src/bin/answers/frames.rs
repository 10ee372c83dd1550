//! Builds and edits the frames that a case describes.

use crate::tokens::{Read, Tokens, congruence};
use v_frame::chroma::ChromaSubsampling;
use v_frame::frame::{Frame, FrameBuilder, FrameError};
use v_frame::pixel::Pixel;
use v_frame::plane::{Plane, PlaneGeometry};

/// The description of a frame.
pub struct Spec {
    /// The number of bytes of a pixel.
    pub bytes: usize,
    depth: u8,
    size: [usize; 2],
    /// The format, if 0.7.0 has it.
    pub format: Option<ChromaSubsampling>,
    paddings: [usize; 4],
}

impl Spec {
    /// Reads the rest of a line.
    pub fn read(tokens: &mut Tokens) -> Read<Self> {
        let bytes = match tokens.word()? {
            "u8" => 1,
            "u16" => 2,
            other => return Err(format!("unknown type of pixels: {other}")),
        };
        let depth = u8::try_from(tokens.number()?).map_err(|_| "the depth is no u8".to_string())?;
        let size = tokens.sizes()?;
        let format = match tokens.word()? {
            "Yuv420" => Some(ChromaSubsampling::Yuv420),
            "Yuv422" => Some(ChromaSubsampling::Yuv422),
            "Yuv444" => Some(ChromaSubsampling::Yuv444),
            "Monochrome" => Some(ChromaSubsampling::Monochrome),
            "Yuv411" => None,
            other => return Err(format!("unknown format: {other}")),
        };
        let paddings = tokens.sizes()?;
        tokens.end()?;
        Ok(Spec {
            bytes,
            depth,
            size,
            format,
            paddings,
        })
    }

    /// Builds the frame in a format.
    pub fn build<T: Pixel>(&self, format: ChromaSubsampling) -> Result<Frame<T>, FrameError> {
        let [width, height] = self.size;
        let [left, right, top, bottom] = self.paddings;
        FrameBuilder::new(width, height, format, self.depth)
            .luma_padding_left(left)
            .luma_padding_right(right)
            .luma_padding_top(top)
            .luma_padding_bottom(bottom)
            .build()
    }

    /// Builds the frame of a case that makes calls. If it cannot be built, the case is wrong.
    pub fn frame<T: Pixel>(&self) -> Read<Frame<T>> {
        let format = self.format.ok_or("the format is lacking")?;
        if self.bytes != size_of::<T>() {
            return Err("two types of pixels in one case".to_string());
        }
        self.build(format)
            .map_err(|error| format!("not built: {error}"))
    }
}

/// Makes the edit of a line.
pub fn edit<T: Pixel>(frame: &mut Frame<T>, line: &str) -> Read<()> {
    let mut tokens = Tokens::new(line);
    let what = tokens.word()?;
    let index = tokens.size()?;
    match what {
        "put" => {
            let luma = Spec {
                bytes: size_of::<T>(),
                depth: frame.bit_depth.get(),
                size: tokens.sizes()?,
                format: Some(ChromaSubsampling::Monochrome),
                paddings: tokens.sizes()?,
            };
            set_plane(frame, index, Some(luma.frame()?.y_plane))?;
        }
        "drop" => set_plane(frame, index, None)?,
        "fill" => {
            let plane = frame
                .plane_mut(index)
                .ok_or_else(|| format!("no plane {index} to fill"))?;
            fill(plane, &mut tokens)?;
        }
        other => return Err(format!("unknown edit: {other}")),
    }
    tokens.end()
}

fn set_plane<T: Pixel>(frame: &mut Frame<T>, index: usize, plane: Option<Plane<T>>) -> Read<()> {
    match (index, plane) {
        (0, Some(plane)) => frame.y_plane = plane,
        (1, plane) => frame.u_plane = plane,
        (2, plane) => frame.v_plane = plane,
        _ => return Err(format!("no plane {index} to put or drop")),
    }
    Ok(())
}

/// Writes into the buffer of a plane.
fn fill<T: Pixel>(plane: &mut Plane<T>, tokens: &mut Tokens) -> Read<()> {
    let geometry = plane.geometry();
    match tokens.word()? {
        "all" => plane.data_mut().fill(tokens.pixel()?),
        "lcg" => {
            for (entry, pixel) in plane
                .data_mut()
                .iter_mut()
                .zip(congruence(tokens.number()?))
            {
                *entry = pixel;
            }
        }
        "border" => {
            let value = tokens.pixel()?;
            for (_, entry) in places(plane, |place| !is_visible(&geometry, place)) {
                *entry = value;
            }
        }
        "list" => write_list(places(plane, |_| true), tokens)?,
        "table" => write_list(places(plane, |place| is_visible(&geometry, place)), tokens)?,
        other => return Err(format!("unknown fill: {other}")),
    }
    Ok(())
}

/// Returns the entries of a buffer at the chosen places.
fn places<T>(
    plane: &mut Plane<T>,
    chosen: impl Fn(usize) -> bool,
) -> impl Iterator<Item = (usize, &mut T)> {
    plane
        .data_mut()
        .iter_mut()
        .enumerate()
        .filter(move |(place, _)| chosen(*place))
}

/// Writes a list into the same number of entries.
fn write_list<'a, T: Pixel>(
    entries: impl Iterator<Item = (usize, &'a mut T)>,
    tokens: &mut Tokens,
) -> Read<()> {
    let mut values = tokens.list(Tokens::pixel)?.into_iter();
    for (_, entry) in entries {
        *entry = values.next().ok_or("the list to fill with is too short")?;
    }
    if values.len() == 0 {
        Ok(())
    } else {
        Err("the list to fill with is too long".to_string())
    }
}

/// Returns whether a place of the buffer is visible.
fn is_visible(geometry: &PlaneGeometry, place: usize) -> bool {
    let (x, y) = (place % geometry.stride(), place / geometry.stride());
    let columns = geometry.pad_left()..geometry.pad_left() + geometry.width();
    let rows = geometry.pad_top()..geometry.pad_top() + geometry.height();
    columns.contains(&x) && rows.contains(&y)
}
