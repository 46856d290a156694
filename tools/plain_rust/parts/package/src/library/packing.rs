//! Packed streams.

use super::{copied, Fault, Stream};
use crate::pm_pack;
use crate::rattle_std::alloc::Global;

/// Packs a stream to a seventh of its bytes or so, as the program `pack` does.
///
/// ```
/// use vdpm::library::{pack, simplify, unpack, Asked};
///
/// # fn main() -> Result<(), vdpm::library::Fault> {
/// let stream = simplify(b"v 1 0 0\nv 0 1 0\nv 0 0 1\nf 1 2 3\n", Asked::default())?;
/// assert_eq!(unpack(&pack(stream.as_bytes())?)?, stream);
/// assert_eq!(unpack(b"VDPM").unwrap_err().to_string(), "fault 34");
/// # Ok(())
/// # }
/// ```
///
/// # Errors
///
/// [`Fault::Refused`] where the program refuses the bytes; [`Fault::OutOfMemory`].
pub fn pack(stream: &[u8]) -> Result<Vec<u8>, Fault> {
    let packed = pm_pack::pack(Global, stream)?;
    copied(packed.as_slice())
}

/// The stream that a packed text is of, as `pack --unpack` does.
///
/// # Errors
///
/// [`Fault::Refused`] where the program refuses the bytes; [`Fault::OutOfMemory`].
pub fn unpack(packed: &[u8]) -> Result<Stream, Fault> {
    let stream = pm_pack::unpack(Global, packed)?;
    Ok(Stream(copied(stream.as_slice())?))
}
