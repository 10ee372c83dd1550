//! The calls of the libraries for C, as the headers in `c_interface/include` declare them: `v_frame.h`, `v_frame_png.h` and
//! `v_frame_y4m.h`.
//!
//! Cargo builds one library with all calls, which the Python wheel contains. On Linux, `tools/install` makes three libraries of it,
//! each with the calls of its own header.
//!
//! The exports are generated. They are unsafe, because they take pointers: each begins with the functions of `foreign`, which reject a
//! null or misaligned pointer, and then calls safe code. The calls of `by_hand` do the same. No other code here may be unsafe. The
//! bodies do not panic, by proof. A panic could not leave an `extern "C"` function, and would end the program.
#![deny(unsafe_code, improper_ctypes_definitions)]
// The sources are translated as they are; they are written for a prover, too.
#![allow(clippy::manual_range_contains, clippy::needless_borrows_for_generic_args, clippy::too_many_arguments)]

mod by_hand;
mod foreign;
mod generated {
    pub mod v_frame_c;
    pub mod v_frame_png_c;
    pub mod v_frame_slices;
    pub mod v_frame_y4m_c;
}
