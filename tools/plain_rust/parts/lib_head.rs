//! View-dependent progressive meshes: the Rust behind proved programs, with their contracts erased.
//!
//! Nothing in this package is proved: the proofs are of sources in Rattle, of which a script makes
//! it; README.md tells more. What was proved of a function stands in its docs, under "Requires" and
//! "Ensures", in the language of the proofs.
//!
//! [`library`] is for programs in Rust; the other modules are those of the proved programs.
#![cfg_attr(not(feature = "c"), forbid(unsafe_code))]

#[macro_use]
pub mod rattle_std;
pub mod library;

