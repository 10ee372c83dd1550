//! The data of the cases, for one type of pixels.

use crate::cases::Case;
use crate::writes::build;
use v_frame::chroma::ChromaSubsampling;
use v_frame::frame::Frame;
use v_frame::pixel::Pixel;

/// The number of bytes after each row of a source with a stride.
const TAIL: usize = 64;

/// The number of places that are read or written in scattered order.
const PLACES: usize = 100_000;

/// The numbers of the command line.
#[derive(Clone, Copy)]
pub struct Plan {
    pub width: u16,
    pub height: u16,
    pub padding: u16,
    pub seed: u16,
    pub repetitions: u16,
}

/// Frames, sources and targets.
pub struct Desk<T: Pixel> {
    pub plan: Plan,
    pub depth: u8,
    /// The 4:2:0 frame that is read and written.
    pub frame: Frame<T>,
    /// A frame with the same luma.
    pub twin: Frame<T>,
    /// A frame with another value in every sixteenth pixel of luma.
    pub other: Frame<T>,
    pub source: Vec<T>,
    other_source: Vec<T>,
    pub packed: Vec<u8>,
    pub strided: Vec<u8>,
    pub stride: usize,
    /// A target of bytes.
    pub buffer: Vec<u8>,
    pub places: Vec<(usize, usize)>,
    /// The pixel that this run writes.
    pub value: T,
}

impl<T: Pixel> Desk<T> {
    pub fn new(plan: Plan, depth: u8) -> Self {
        let (width, height) = (usize::from(plan.width), usize::from(plan.height));
        let (count, seed) = (width * height, usize::from(plan.seed));
        let row = width * size_of::<T>();
        let stride = row + TAIL;
        Desk {
            plan,
            depth,
            frame: build(plan, ChromaSubsampling::Yuv420, depth),
            twin: build(plan, ChromaSubsampling::Yuv420, depth),
            other: build(plan, ChromaSubsampling::Yuv420, depth),
            source: (0..count).map(|place| pixel_of(seed + place)).collect(),
            other_source: (0..count).map(|place| pixel_of(seed + place + usize::from(place % 16 == 0))).collect(),
            packed: bytes(row * height, seed),
            strided: bytes(stride * height, seed),
            stride,
            buffer: bytes(row * height, 0),
            places: places(plan),
            value: T::from(0),
        }
    }

    /// Returns the number of pixels that a case handles.
    pub fn pixels_of(&self, case: Case) -> usize {
        match case {
            Case::PixelScattered | Case::PixelMutScattered => PLACES,
            _ => self.source.len(),
        }
    }

    /// Restores the luma with which each case begins.
    pub fn reset(&mut self) {
        self.frame.y_plane.copy_from_slice(&self.source).expect("as many pixels");
        self.twin.y_plane.copy_from_slice(&self.source).expect("as many pixels");
        self.other.y_plane.copy_from_slice(&self.other_source).expect("as many pixels");
    }

    /// Changes a pixel in each frame and source, and the pixel that is written, so that no two runs do the same work.
    pub fn change(&mut self, run: usize) {
        let value: T = pixel_of(run + usize::from(self.plan.seed));
        self.value = value;
        let Some(&(x, y)) = self.places.get(run) else {
            return;
        };
        let place = usize::from(self.plan.width) * y + x;
        for frame in [&mut self.frame, &mut self.twin] {
            if let Some(pixel) = frame.y_plane.pixel_mut(x, y) {
                *pixel = value;
            }
        }
        self.source[place] = value;
        let [low, _] = value.into().to_le_bytes();
        self.packed[place] = low;
        self.strided[place] = low;
    }

    /// Returns the values at a few places after a run.
    pub fn sample(&self, run: usize) -> u64 {
        let Some(&(x, y)) = self.places.get(PLACES - run) else {
            return 0;
        };
        let luma = self.frame.y_plane.pixel(x, y).map_or(0, T::into);
        let chroma = match self.frame.plane(1) {
            Some(plane) => plane.pixel(x / 2, y / 2).map_or(0, T::into),
            None => 0,
        };
        let byte = self.buffer.get(x).copied().unwrap_or(0);
        u64::from(luma) + u64::from(chroma) + u64::from(byte)
    }

    /// Returns a checksum of everything that the cases write, borders included. It depends on the place of each value.
    pub fn checksum(&self) -> u64 {
        let planes = (0..3).filter_map(|index| self.frame.plane(index));
        let pixels = planes.flat_map(|plane| plane.data().iter().map(|pixel| u64::from((*pixel).into())));
        let bytes = self.buffer.iter().map(|byte| u64::from(*byte));
        pixels.chain(bytes).fold(0, |sum: u64, value| sum.wrapping_mul(31).wrapping_add(value))
    }
}

/// Returns the pixel for a number. It is below 251, so that no period fits a row.
pub fn pixel_of<T: Pixel>(number: usize) -> T {
    T::from((number % 251) as u8)
}

fn bytes(count: usize, first: usize) -> Vec<u8> {
    (first..first + count).map(|number| (number % 251) as u8).collect()
}

/// Returns places of the visible rectangle, in the order of a linear congruential generator.
fn places(plan: Plan) -> Vec<(usize, usize)> {
    let mut state = u32::from(plan.seed);
    let mut next = || {
        state = state.wrapping_mul(1_664_525).wrapping_add(1_013_904_223);
        (state >> 16) as usize
    };
    (0..PLACES).map(|_| (next() % usize::from(plan.width), next() % usize::from(plan.height))).collect()
}
