//! Measures `v_frame` 0.7.0: `bench WIDTH HEIGHT PADDING SEED REPETITIONS`.
//!
//! The cases, their data and the output are the same as in `crates/bench`, and there are two more kinds of blocks. An operation that
//! 0.7.0 lacks, for example `pad`, is a loop over rows, as a user would write it. If the program is built over `v_frame_proved` with the
//! feature `proved`, the operation is a call of that library.

#[cfg_attr(feature = "proved", path = "proved/blocks.rs")]
mod blocks;
mod cases;
mod desk;
#[cfg_attr(feature = "proved", path = "proved/operations.rs")]
mod operations;
mod pixel_loops;
mod reads;
mod writes;

use cases::{CASES, work};
use desk::{Desk, Plan};
use std::process::ExitCode;
use std::time::Instant;
use v_frame::pixel::Pixel;

/// The number of first runs that are not reported: in these, the C library requests memory from the system at each build.
const UNTIMED: usize = 12;

fn main() -> ExitCode {
    let words = std::env::args().skip(1).map(|word| word.parse());
    let Ok(numbers) = words.collect::<Result<Vec<u16>, _>>() else {
        return usage();
    };
    let [width, height, padding, seed, repetitions] = numbers[..] else {
        return usage();
    };
    let plan = Plan { width, height, padding, seed, repetitions };
    measure_type::<u8>(plan, "u8", 8);
    measure_type::<u16>(plan, "u16", 16);
    ExitCode::SUCCESS
}

fn usage() -> ExitCode {
    eprintln!("usage: bench WIDTH HEIGHT PADDING SEED REPETITIONS");
    ExitCode::FAILURE
}

/// Measures all cases with pixels of type `T`.
fn measure_type<T: Pixel>(plan: Plan, name: &str, depth: u8) {
    let mut desk = Desk::<T>::new(plan, depth);
    for (case_name, case) in CASES {
        desk.reset();
        print!("{case_name}_{name} {}", desk.pixels_of(case));
        let mut sum = 0u64;
        let mut times = Vec::new();
        for run in 0..UNTIMED + usize::from(plan.repetitions) {
            desk.change(run);
            let start = Instant::now();
            let seen = work(case, &mut desk);
            let time = start.elapsed();
            sum = sum.wrapping_add(seen).wrapping_add(desk.sample(run));
            if run >= UNTIMED {
                times.push(time.as_nanos());
            }
        }
        print!(" {}", sum.wrapping_add(desk.checksum()));
        for time in times {
            print!(" {time}");
        }
        println!();
    }
}
