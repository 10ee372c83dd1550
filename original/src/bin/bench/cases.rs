//! The cases, and the work of each case.

use crate::desk::Desk;
use crate::{blocks, operations, pixel_loops, reads, writes};
use v_frame::chroma::ChromaSubsampling;
use v_frame::pixel::Pixel;

/// A case that is measured.
#[derive(Clone, Copy)]
pub enum Case {
    BuildMono,
    Build420,
    ClonePlane,
    CloneFrame,
    CompareEqual,
    SumByRow,
    SumByRows,
    SumByPixel,
    SumByPixels,
    SumByPixelsBack,
    SumByUnwrap,
    SumOfHidden,
    PixelScattered,
    CountDiffering,
    SumByByteData,
    AbsoluteDifferences,
    SquaredErrors,
    AbsoluteOfBlocks(usize),
    SquaredOfBlocks(usize),
    AbsoluteOfEights,
    AbsoluteOfSixteens,
    AbsoluteOfPlanesOfEight,
    AbsoluteOfPlanesOfSixteen,
    FillByRowMut,
    FillByRowsMut,
    FillByPixelMut,
    FillByUnwrap,
    RampByPixelMut,
    RampByUnwrap,
    ChangeByUnwrap,
    MeanByUnwrap,
    FillByPixelsMut,
    PixelMutScattered,
    Fill,
    Pad,
    Downscale,
    CopyFromSlice,
    CopyFromBytes,
    CopyFromStrided,
    CopyToBytes,
}

/// The names of the cases, in the order in which they are measured.
pub const CASES: [(&str, Case); 46] = [
    ("build_mono", Case::BuildMono),
    ("build_420", Case::Build420),
    ("clone_plane", Case::ClonePlane),
    ("clone_frame_420", Case::CloneFrame),
    ("compare_planes_equal", Case::CompareEqual),
    ("sum_by_row", Case::SumByRow),
    ("sum_by_rows", Case::SumByRows),
    ("sum_by_pixel", Case::SumByPixel),
    ("sum_by_pixels", Case::SumByPixels),
    ("sum_by_pixels_back", Case::SumByPixelsBack),
    ("sum_by_unwrap", Case::SumByUnwrap),
    ("sum_of_hidden_by_unwrap", Case::SumOfHidden),
    ("pixel_scattered", Case::PixelScattered),
    ("count_differing_by_pixels", Case::CountDiffering),
    ("sum_by_byte_data", Case::SumByByteData),
    ("sum_of_absolute_differences", Case::AbsoluteDifferences),
    ("sum_of_squared_errors", Case::SquaredErrors),
    ("absolute_of_blocks_8", Case::AbsoluteOfBlocks(8)),
    ("absolute_of_blocks_16", Case::AbsoluteOfBlocks(16)),
    ("absolute_of_blocks_32", Case::AbsoluteOfBlocks(32)),
    ("absolute_of_blocks_64", Case::AbsoluteOfBlocks(64)),
    ("squared_of_blocks_8", Case::SquaredOfBlocks(8)),
    ("squared_of_blocks_16", Case::SquaredOfBlocks(16)),
    ("squared_of_blocks_32", Case::SquaredOfBlocks(32)),
    ("squared_of_blocks_64", Case::SquaredOfBlocks(64)),
    ("absolute_of_fixed_blocks_8", Case::AbsoluteOfEights),
    ("absolute_of_fixed_blocks_16", Case::AbsoluteOfSixteens),
    ("absolute_of_fixed_planes_8", Case::AbsoluteOfPlanesOfEight),
    ("absolute_of_fixed_planes_16", Case::AbsoluteOfPlanesOfSixteen),
    ("fill_by_row_mut", Case::FillByRowMut),
    ("fill_by_rows_mut", Case::FillByRowsMut),
    ("fill_by_pixel_mut", Case::FillByPixelMut),
    ("fill_by_unwrap", Case::FillByUnwrap),
    ("ramp_by_pixel_mut", Case::RampByPixelMut),
    ("ramp_by_unwrap", Case::RampByUnwrap),
    ("change_by_unwrap", Case::ChangeByUnwrap),
    ("mean_by_unwrap", Case::MeanByUnwrap),
    ("fill_by_pixels_mut", Case::FillByPixelsMut),
    ("pixel_mut_scattered", Case::PixelMutScattered),
    ("fill", Case::Fill),
    ("pad", Case::Pad),
    ("downscale", Case::Downscale),
    ("copy_from_slice", Case::CopyFromSlice),
    ("copy_from_u8_slice", Case::CopyFromBytes),
    ("copy_from_u8_slice_with_stride", Case::CopyFromStrided),
    ("copy_byte_data", Case::CopyToBytes),
];

/// Does the work of a case once, and returns a number that depends on the work.
pub fn work<T: Pixel>(case: Case, desk: &mut Desk<T>) -> u64 {
    let (luma, other) = (&desk.frame.y_plane, &desk.other.y_plane);
    match case {
        Case::BuildMono => writes::build_one(desk, ChromaSubsampling::Monochrome),
        Case::Build420 => writes::build_one(desk, ChromaSubsampling::Yuv420),
        Case::ClonePlane => writes::clone_plane(desk),
        Case::CloneFrame => writes::clone_frame(desk),
        Case::CompareEqual => u64::from(reads::are_equal(luma, &desk.twin.y_plane)),
        Case::SumByRow => reads::sum_by_row(luma),
        Case::SumByRows => reads::sum_by_rows(luma),
        Case::SumByPixel => reads::sum_by_pixel(luma),
        Case::SumByPixels => reads::sum_by_pixels(luma),
        Case::SumByPixelsBack => reads::sum_by_pixels_back(luma),
        Case::SumByUnwrap => pixel_loops::sum_by_unwrap(luma),
        Case::SumOfHidden => pixel_loops::sum_of_hidden(luma),
        Case::PixelScattered => reads::sum_of_places(luma, &desk.places),
        Case::CountDiffering => reads::count_differing(luma, other),
        Case::SumByByteData => reads::sum_by_byte_data(luma),
        Case::AbsoluteDifferences => operations::absolute_differences(luma, other),
        Case::SquaredErrors => operations::squared_errors(luma, other),
        Case::AbsoluteOfBlocks(size) => blocks::absolute(luma, other, size),
        Case::SquaredOfBlocks(size) => blocks::squared(luma, other, size),
        Case::AbsoluteOfEights => blocks::absolute_of_fixed::<T, 8>(luma, other),
        Case::AbsoluteOfSixteens => blocks::absolute_of_fixed::<T, 16>(luma, other),
        Case::AbsoluteOfPlanesOfEight => blocks::absolute_of_planes::<T, 8>(luma, other),
        Case::AbsoluteOfPlanesOfSixteen => blocks::absolute_of_planes::<T, 16>(luma, other),
        _ => {
            write(case, desk);
            0
        }
    }
}

/// Does the work of a case that writes.
fn write<T: Pixel>(case: Case, desk: &mut Desk<T>) {
    let (luma, value) = (&mut desk.frame.y_plane, desk.value);
    match case {
        Case::FillByRowMut => writes::fill_by_row_mut(luma, value),
        Case::FillByRowsMut => writes::fill_by_rows_mut(luma, value),
        Case::FillByPixelMut => writes::fill_by_pixel_mut(luma, value),
        Case::FillByUnwrap => pixel_loops::fill_by_unwrap(luma, value),
        Case::RampByPixelMut => pixel_loops::ramp_by_pixel_mut(luma),
        Case::RampByUnwrap => pixel_loops::ramp_by_unwrap(luma),
        Case::ChangeByUnwrap => pixel_loops::change_by_unwrap(luma),
        Case::MeanByUnwrap => pixel_loops::mean_by_unwrap(&desk.other.y_plane, luma),
        Case::FillByPixelsMut => writes::fill_by_pixels_mut(luma, value),
        Case::PixelMutScattered => writes::fill_places(luma, &desk.places, value),
        Case::Fill => operations::fill(luma, value),
        Case::Pad => operations::pad(luma),
        Case::Downscale => operations::halve(&desk.other.y_plane, &mut desk.frame),
        Case::CopyFromSlice => writes::copy_pixels(luma, &desk.source),
        Case::CopyFromBytes => writes::copy_packed(luma, &desk.packed),
        Case::CopyFromStrided => writes::copy_strided(luma, &desk.strided, desk.stride),
        Case::CopyToBytes => writes::copy_to_bytes(luma, &mut desk.buffer),
        _ => unreachable!("this case reads"),
    }
}
