#![cfg_attr(feature = "std", doc = include_str!("../README.md"))]
#![cfg_attr(not(feature = "std"), doc = "Raw YUV video frames, made from proved sources.")]
#![forbid(unsafe_code)]
#![warn(missing_debug_implementations, missing_docs)]
#![no_std]
// The sources are translated as they were written for the prover: loops use indices that contracts refer to, and some
// comparisons and matches exist because a proof needs them. These lints would suggest other forms.
#![allow(
    clippy::extra_unused_type_parameters,
    clippy::len_zero,
    clippy::manual_div_ceil,
    clippy::manual_find,
    clippy::manual_map,
    clippy::manual_memcpy,
    clippy::manual_ok_err,
    clippy::manual_range_contains,
    clippy::manual_swap,
    clippy::needless_borrows_for_generic_args,
    clippy::needless_question_mark,
    clippy::needless_range_loop,
    clippy::new_without_default,
    clippy::should_implement_trait,
    clippy::too_many_arguments,
    clippy::type_complexity,
    clippy::write_with_newline
)]

#[cfg(not(target_pointer_width = "64"))]
compile_error!("the proofs of this crate say what holds where `usize` has 64 bits, and nothing of other targets");

extern crate alloc;
#[cfg(feature = "std")]
extern crate std;

mod buffer;
mod by_hand;
mod clones;
#[doc(hidden)]
pub mod support;

mod generated {
    pub mod v_frame;
    #[cfg(feature = "std")]
    pub mod v_frame_bytes;
    #[cfg(feature = "std")]
    pub mod v_frame_chart;
    pub mod v_frame_convert;
    #[cfg(feature = "std")]
    pub mod v_frame_formats;
    #[cfg(feature = "std")]
    pub mod v_frame_measures;
    pub mod v_frame_ops;
    #[cfg(feature = "std")]
    pub mod v_frame_planar;
    pub mod v_frame_plane;
    #[cfg(feature = "std")]
    pub mod v_frame_png;
    pub mod v_frame_raster;
    pub mod v_frame_resize;
    pub mod v_frame_rgb;
    #[cfg(feature = "std")]
    pub mod v_frame_semi_planar;
    pub mod v_frame_statistics;
    #[cfg(feature = "std")]
    pub mod v_frame_streams;
    pub mod v_frame_turn;
    #[cfg(feature = "std")]
    pub mod v_frame_y4m;
}

pub use generated::v_frame::{chroma, frame, pixel, plane, replay, sequence};
pub use generated::{
    v_frame_convert as convert, v_frame_ops as ops, v_frame_resize as resize, v_frame_rgb as rgb,
    v_frame_statistics as statistics, v_frame_turn as turn,
};
#[cfg(feature = "std")]
pub use generated::{
    v_frame_bytes as bytes, v_frame_chart as chart, v_frame_formats as formats,
    v_frame_measures as measures, v_frame_planar as planar, v_frame_png as png,
    v_frame_semi_planar as semi_planar, v_frame_streams as streams,
};
pub use support::AllocError;

// These modules are written by hand and not generated from proved sources.
pub use by_hand::{crop, lists, names, views};
#[cfg(feature = "std")]
pub use by_hand::{quality, y4m};

#[doc(hidden)]
pub use generated::v_frame::laws;
