//! The clock.

use super::HostRuntime;
use std::io;
use std::time::{self, Duration};

/// A handle that reads the clock.
pub trait Clock {}

impl Clock for HostRuntime {}

/// A reading of a monotonic clock.
#[derive(Clone, Copy)]
pub struct Instant(time::Instant);

impl Instant {
    /// Reads the clock.
    ///
    /// # Errors
    ///
    /// None. The clock of Rust's `std` never fails.
    pub fn now(_clock: &impl Clock) -> io::Result<Self> {
        Ok(Instant(time::Instant::now()))
    }

    /// Returns the time since this reading.
    ///
    /// # Errors
    ///
    /// None. The clock of Rust's `std` never fails.
    pub fn elapsed(&self, _clock: &impl Clock) -> io::Result<Duration> {
        Ok(self.0.elapsed())
    }
}
