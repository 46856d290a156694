//! What std has otherwise in Rattle, over the std of Rust. The one `unsafe` in it is for C.

pub mod alloc;
pub mod arrayvec;
pub mod boxed;
pub mod byteorder;
pub mod collections;
pub mod env;
pub mod itoa;
pub mod newer;
pub mod rt;
pub mod sync;
pub mod test;
pub mod vec;

/// The names that Rattle brings in everywhere.
pub mod prelude {
    pub use super::alloc::CollectIn;
    pub use super::boxed::Box;
    pub use super::newer::{CheckedLogarithm, DividedUp, Root, Signed, Unsigned};
    pub use super::rt::HostRuntime;
    pub use super::vec::Vec;
}

/// `vec![in alloc; x; n]`.
#[macro_export]
#[doc(hidden)]
macro_rules! try_vec {
    (in $alloc:expr; $x:expr; $n:expr) => {
        $crate::rattle_std::vec::Vec::filled($alloc, $x, $n)
    };
}
pub use try_vec;

/// Types of ghosts, which do nothing when a program runs.
pub mod marker {
    /// A name for one value's ledger.
    pub struct Brand;
}

/// Pointers.
pub mod ptr {
    pub use std::ptr::null_mut;
}

/// Values in memory.
pub mod mem {
    pub use std::mem::replace;
}

/// Streams.
pub mod io {
    pub use std::io::{Error, ErrorKind, Read, Result, Write};
}

/// The end of a program.
pub mod process {
    /// The status of a program.
    pub struct ExitCode(pub u8);

    impl From<u8> for ExitCode {
        fn from(status: u8) -> ExitCode {
            ExitCode(status)
        }
    }
}
