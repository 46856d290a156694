//! Want of memory, the allocator, and calls that take it.

/// Want of memory.
#[derive(Clone, Copy, Debug, PartialEq, Eq)]
pub struct AllocError;

/// The allocator of the process.
#[derive(Clone, Copy, Debug)]
pub struct Global;

/// `collect(alloc)`.
pub trait CollectIn: Iterator + Sized {
    fn collect_in(self, alloc: Global) -> Result<super::vec::Vec<Self::Item>, AllocError> {
        let mut out = super::vec::Vec::with_capacity(alloc, self.size_hint().0)?;
        for item in self {
            out.push(item)?;
        }
        Ok(out)
    }
}

impl<I: Iterator> CollectIn for I {}
