//! Measures of sums of squared errors of 2^64 and above, which files of ordinary size do not reach.

#[allow(clippy::duplicate_mod, dead_code)]
#[path = "../generated/yuv_comparisons/measures.rs"]
mod measures;

use crate::generated::yuv_reports::FrameMeasures;
use v_frame_proved::streams::PlaneSums;
use measures::Scale;

const BILLIONS: u128 = 1 << 34;

/// The largest squared error of 16-bit samples.
const LARGEST: u128 = 65535 * 65535;

/// Returns the measures of `frames` frames. Each has `pixels` samples, and `errors` are the sums over all frames.
fn measured(pixels: PlaneSums, frames: u64, errors: PlaneSums) -> FrameMeasures {
    let scale = Scale { pixels, bit_depth: 16, exact: true };
    scale.measures(&errors, frames, None)
}

fn luma(y: u128) -> PlaneSums {
    PlaneSums { y, u: None, v: None }
}

/// Returns the mean squared error of one frame of luma.
fn mean(errors: u128, pixels: u128) -> f64 {
    measured(luma(pixels), 1, luma(errors)).mse.y
}

#[test]
fn means_of_sums_of_2_to_the_64_and_above() {
    assert_eq!(mean(1 << 64, 1 << 32), 4294967296.0);
    assert_eq!(mean(3 << 63, 1 << 62), 6.0);
    assert_eq!(mean((1 << 64) + (1 << 12), 1), 18446744073709555712.0);
    assert_eq!(mean(5 << 70, 5 << 70), 1.0);
    // Both numbers are rounded to 53 bits before the division.
    assert_eq!(mean(u128::MAX, 1 << 127), 2.0);
    assert_eq!(mean((1 << 64) - 1, 1), 18446744073709551616.0);
    // Each of the many samples has the largest possible error.
    assert_eq!(mean(LARGEST * BILLIONS, BILLIONS), 4294836225.0);
}

#[test]
fn means_of_planes_of_many_frames() {
    let chroma = |luma, chroma| PlaneSums { y: luma, u: Some(chroma), v: Some(chroma) };
    let (samples, errors) = (chroma(BILLIONS / 64, BILLIONS / 64), chroma(LARGEST << 33, LARGEST << 33));
    let found = measured(samples, 32, errors);
    let mse = found.mse;
    assert_eq!((mse.all, mse.y, mse.u, mse.v), (4294836225.0, 4294836225.0, Some(4294836225.0), Some(4294836225.0)));
    let psnr = found.psnr;
    assert_eq!((psnr.all, psnr.y, psnr.u, psnr.v), (0.0, 0.0, Some(0.0), Some(0.0)));
    let sums = found.sums.expect("sums");
    assert_eq!((sums.y, sums.u, sums.v), (LARGEST << 33, Some(LARGEST << 33), Some(LARGEST << 33)));
}

#[test]
fn a_total_stays_at_the_largest_number() {
    for (y, u, v, wanted) in [
        (1, Some(2), Some(3), 6),
        (1, None, None, 1),
        (u128::MAX, None, None, u128::MAX),
        (u128::MAX - 1, Some(1), Some(1), u128::MAX),
        (1, Some(u128::MAX), Some(1), u128::MAX),
        (1, Some(1), Some(u128::MAX), u128::MAX),
        (1, None, Some(u128::MAX), u128::MAX),
    ] {
        assert_eq!(PlaneSums { y, u, v }.total(), wanted, "{y} {u:?} {v:?}");
    }
}
