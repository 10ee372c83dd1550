//! Implements the error traits of `std` for errors that the sources declare without them.

use crate::plane::SubsamplingError;
use crate::replay::ReplayStopped;
use core::error::Error;
use core::fmt;

impl fmt::Display for SubsamplingError {
    fn fmt(&self, f: &mut fmt::Formatter<'_>) -> fmt::Result {
        f.write_str("a size or a padding is not divisible by the subsampling ratio")
    }
}

impl Error for SubsamplingError {}

impl<T> fmt::Display for ReplayStopped<T> {
    fn fmt(&self, f: &mut fmt::Formatter<'_>) -> fmt::Result {
        write!(f, "out of memory after {} calls", self.done.len())
    }
}

impl<T: fmt::Debug> Error for ReplayStopped<T> {}

#[cfg(feature = "std")]
mod of_streams {
    use crate::planar::WriteFault;
    use crate::streams::StreamError;
    use core::error::Error;
    use core::fmt;

    impl fmt::Display for WriteFault {
        fn fmt(&self, f: &mut fmt::Formatter<'_>) -> fmt::Result {
            f.write_str(match self {
                WriteFault::Failed => "a write failed",
                WriteFault::TookNothing => "a write accepted no bytes",
            })
        }
    }

    impl Error for WriteFault {}

    impl Error for StreamError {
        fn source(&self) -> Option<&(dyn Error + 'static)> {
            // The message already contains the problem itself.
            self.problem.source()
        }
    }
}
