//! What a Rust program calls: streams made of texts, and viewers of streams, over slices and `Vec`.
//!
//! Each call does what one of the proved programs does with the same bytes. Coordinates are whole
//! numbers of units of 10 to the power of minus `digits`. Nodes, faces, leaves and records are
//! counted from 0.
//!
//! ```
//! use vdpm::library::{prepare, simplify, Asked, View, Viewer};
//!
//! # fn main() -> Result<(), vdpm::library::Fault> {
//! let text = b"v 0 0 0\nv 9 0 0\nv 0 9 0\nv 0 0 9\nf 1 3 2\nf 1 2 4\nf 2 3 4\nf 3 1 4\n";
//! let fit = prepare(text, None)?;
//! let stream = simplify(&fit.text, Asked::default())?;
//! let mut viewer = Viewer::open(stream.as_bytes(), u32::MAX)?;
//! viewer.view(&View { eye: [0, -30, 20], focal: 1000, tolerance: 20, ..View::default() })?;
//! let frame = viewer.frame()?;
//! assert_eq!((frame.nodes.len(), frame.faces.len()), (4, 4));
//! # Ok(())
//! # }
//! ```
//!
//! Want of memory is told as [`Fault::OutOfMemory`], and ends nothing.

mod fault;
mod making;
mod packing;
mod view;
mod viewer;

pub use fault::{Fault, Place};
pub use making::{build, prepare, simplify, Asked, Prepared, Stream};
pub use packing::{pack, unpack};
pub use view::{Moved, View};
pub use viewer::{Change, Frame, Node, Sizes, Viewer};

/// A copy of these items.
fn copied<T: Copy>(items: &[T]) -> Result<Vec<T>, Fault> {
    let mut all = Vec::new();
    all.try_reserve_exact(items.len()).map_err(|_| Fault::OutOfMemory)?;
    all.extend_from_slice(items);
    Ok(all)
}

/// Makes a vector have so many numbers. What they are doesn't matter.
fn make_room<T: Copy + Default>(numbers: &mut Vec<T>, count: usize) -> Result<(), Fault> {
    if count > numbers.len() {
        numbers.try_reserve(count - numbers.len()).map_err(|_| Fault::OutOfMemory)?;
    }
    numbers.resize(count, T::default());
    Ok(())
}
