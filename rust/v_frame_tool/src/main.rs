//! Prints the rows of a small frame.
#![forbid(unsafe_code)]

mod generated {
    // The tests of these modules use more of their imports than the program does.
    #[allow(unused_imports)]
    pub mod v_frame_tool;
    pub mod v_frame_tool_run;
}

#[cfg(test)]
mod tests;

fn main() -> std::process::ExitCode {
    generated::v_frame_tool::main()
}
