//! Streams of texts.

use super::{copied, Fault};
use crate::pm_commands::Border;
use crate::pm_making;
use crate::rattle_std::alloc::Global;

const MOST_DIGITS: u32 = 4;
const MOST_SIZE: u32 = 32767;

/// A hierarchy as bytes, which [`Viewer::open`](super::Viewer::open) opens.
#[derive(Clone, Debug, PartialEq, Eq)]
pub struct Stream(pub(super) Vec<u8>);

impl Stream {
    /// The bytes, as the programs write them.
    pub fn as_bytes(&self) -> &[u8] {
        &self.0
    }

    /// The bytes, without a copy.
    pub fn into_bytes(self) -> Vec<u8> {
        self.0
    }
}

impl AsRef<[u8]> for Stream {
    fn as_ref(&self) -> &[u8] {
        self.as_bytes()
    }
}

/// What is asked of a stream.
#[derive(Clone, Copy, Debug, Default, PartialEq, Eq)]
pub struct Asked {
    /// The mesh is simplified to so many faces, or as far as that goes: 0 is as far as that goes.
    pub faces: u32,
    /// Decimals of a coordinate, 0 to 4.
    pub digits: u32,
    /// Whether each frame of the stream shows the border of the mesh. Only [`simplify`] does that.
    pub keep_border: bool,
}

/// A text that is fit for [`build`] and [`simplify`].
#[derive(Clone, Debug, PartialEq, Eq)]
pub struct Prepared {
    /// The text.
    pub text: Vec<u8>,
    /// The lines that are said of what was done, each with its LF.
    pub notes: Vec<u8>,
}

/// Makes the stream of an OBJ text, as `vdpm build FACES --digits DIGITS` does.
///
/// # Errors
///
/// [`Fault::Refused`] where the program refuses the text; [`Fault::OutOfRange`] for more than 4
/// digits, and where the border is to be kept; [`Fault::OutOfMemory`].
pub fn build(text: &[u8], asked: Asked) -> Result<Stream, Fault> {
    if asked.digits > MOST_DIGITS || asked.keep_border {
        return Err(Fault::OutOfRange);
    }
    let made = pm_making::build(Global, text, asked.faces, asked.digits)?;
    Ok(Stream(copied(made.bytes())?))
}

/// Makes the stream of an OBJ text, as `simplify FACES --digits DIGITS` does: by finer costs.
///
/// ```
/// use vdpm::library::{simplify, Asked};
///
/// let text = b"v 0.25 0 0\nv 1 0 0\nv 0 1 0\nf 1 2 3\n";
/// assert!(simplify(text, Asked { digits: 2, ..Asked::default() }).is_ok());
/// let fault = simplify(text, Asked::default()).unwrap_err();
/// assert_eq!(fault.to_string(), "fault 5 line 1");
/// ```
///
/// # Errors
///
/// [`Fault::Refused`] where the program refuses the text; [`Fault::OutOfRange`] for more than 4
/// digits; [`Fault::OutOfMemory`].
pub fn simplify(text: &[u8], asked: Asked) -> Result<Stream, Fault> {
    if asked.digits > MOST_DIGITS {
        return Err(Fault::OutOfRange);
    }
    let border = if asked.keep_border { Border::Kept } else { Border::Free };
    let made = pm_making::simplify(Global, text, asked.faces, asked.digits, border)?;
    Ok(Stream(copied(made.bytes())?))
}

/// Makes any OBJ text fit for [`build`] and [`simplify`], as the program `prepare` does.
///
/// Without a size, points that fit the grid stand as they are; with one, from 1 to 32,767, the
/// longest axis of the box goes from -size to size.
///
/// # Errors
///
/// [`Fault::Refused`] where the program refuses the text; [`Fault::OutOfRange`] for another size;
/// [`Fault::OutOfMemory`].
pub fn prepare(text: &[u8], size: Option<u32>) -> Result<Prepared, Fault> {
    if size.map_or(false, |size| size == 0 || size > MOST_SIZE) {
        return Err(Fault::OutOfRange);
    }
    let made = pm_making::prepare(Global, text, size)?;
    Ok(Prepared { text: copied(made.bytes())?, notes: copied(made.notes())? })
}
