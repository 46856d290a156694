//! Why nothing is made, opened or done.

use crate::pm_commands;
use crate::pm_making::{text_cause_of, BuildFail, PrepareFail};
use crate::pm_pack::{PackFail, UnpackFail};
use crate::pm_session::LineFail;
use crate::pm_viewer::{cause_of, Cause, OpenFail};
use std::fmt;

/// Why nothing is made, opened or done. It shows itself as the programs say it, without their name.
///
/// ```
/// use vdpm::library::{Fault, Viewer};
///
/// let fault = Viewer::open(b"VDPM", 0).err().unwrap();
/// assert_eq!(fault.to_string(), "fault 22 byte 4");
/// assert!(matches!(fault, Fault::Refused { number: 22, .. }));
/// ```
#[derive(Clone, Copy, Debug, PartialEq, Eq)]
#[non_exhaustive]
pub enum Fault {
    /// The text, stream or line is refused, by a fault that docs/commands of the sources lists.
    Refused {
        /// The number of the fault.
        number: u32,
        /// Where it is, if it has a place.
        place: Option<Place>,
    },
    /// A number that was asked for is out of its range.
    OutOfRange,
    /// Memory is wanting.
    OutOfMemory,
}

/// Where a fault is.
#[derive(Clone, Copy, Debug, PartialEq, Eq)]
pub struct Place {
    /// What is counted: `line`, `byte` or `face`, say.
    pub word: &'static str,
    /// Lines, and faces and vertices of a text, are counted from 1, the units of a stream from 0.
    pub number: u64,
}

impl fmt::Display for Fault {
    fn fmt(&self, to: &mut fmt::Formatter<'_>) -> fmt::Result {
        match self {
            Fault::Refused { number, place: None } => write!(to, "fault {number}"),
            Fault::Refused { number, place: Some(place) } => {
                write!(to, "fault {number} {} {}", place.word, place.number)
            }
            Fault::OutOfRange => to.write_str("a number is out of its range"),
            Fault::OutOfMemory => to.write_str("out of memory"),
        }
    }
}

impl std::error::Error for Fault {}

/// What the place of a fault of a stream counts.
fn word_of_stream(number: u32) -> &'static str {
    match number {
        11 | 25 => "face",
        21 => "version",
        22 => "byte",
        24 => "root",
        27 => "input",
        33 => "digits",
        _ => "record",
    }
}

/// What the place of a fault of a text counts.
fn word_of_text(number: u32) -> &'static str {
    match number {
        11 => "face",
        12 => "vertex",
        _ => "line",
    }
}

/// A fault with its place, or want of memory where there is no cause.
fn refused(cause: Option<Cause>, word_of: fn(u32) -> &'static str) -> Fault {
    let Some(Cause { number, place }) = cause else {
        return Fault::OutOfMemory;
    };
    let place = place.map(|at| Place { word: word_of(number), number: at });
    Fault::Refused { number, place }
}

impl From<OpenFail> for Fault {
    fn from(fail: OpenFail) -> Fault {
        match fail {
            OpenFail::Faulty(fault) => refused(cause_of(fault), word_of_stream),
            OpenFail::OutOfMemory => Fault::OutOfMemory,
        }
    }
}

impl From<BuildFail> for Fault {
    fn from(fail: BuildFail) -> Fault {
        match fail {
            BuildFail::Faulty(fault) => refused(text_cause_of(fault), word_of_text),
            BuildFail::OutOfMemory => Fault::OutOfMemory,
        }
    }
}

impl From<PrepareFail> for Fault {
    fn from(fail: PrepareFail) -> Fault {
        match fail {
            PrepareFail::Faulty(fault) => {
                let place = fault.line().map(|at| Place { word: "line", number: u64::from(at) });
                Fault::Refused { number: fault.number(), place }
            }
            PrepareFail::OutOfMemory => Fault::OutOfMemory,
        }
    }
}

/// A fault without a place.
const fn bare(number: u32) -> Fault {
    Fault::Refused { number, place: None }
}

impl From<PackFail> for Fault {
    fn from(fail: PackFail) -> Fault {
        match fail {
            PackFail::Stream(fault) => {
                refused(cause_of(pm_commands::Fault::Stream(fault)), word_of_stream)
            }
            PackFail::Trailing => bare(29),
            PackFail::OutOfMemory => Fault::OutOfMemory,
        }
    }
}

impl From<UnpackFail> for Fault {
    fn from(fail: UnpackFail) -> Fault {
        match fail {
            UnpackFail::Stream(fault) => PackFail::Stream(fault).into(),
            UnpackFail::NotPacked => bare(34),
            UnpackFail::Cut => bare(35),
            UnpackFail::Trailing => bare(36),
            UnpackFail::OutOfMemory => Fault::OutOfMemory,
        }
    }
}

impl From<LineFail> for Fault {
    fn from(fail: LineFail) -> Fault {
        match fail {
            LineFail::BadLine => bare(30),
            LineFail::NoRecord => bare(31),
            // The reply goes to memory, which was wanting.
            LineFail::Write => Fault::OutOfMemory,
        }
    }
}
