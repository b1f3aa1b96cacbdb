//! Object identifiers (ITU-T X.660) as dotted text, arcs, DER, and contents octets of BER and DER (X.690, 8.19).
//!
//! # Which type, and which order
//!
//! - [`ObjectIdentifier`] holds its octets: 39 at most, or up to 255 as `ObjectIdentifier<N>`. It is `Copy`, and may be
//!   a constant. A shorter encoding comes first; equally long ones are compared by octets.
//! - [`ObjectIdentifierRef`] borrows octets of any length. In its order the descendants of an identifier are adjacent:
//!   [`subtree`](ObjectIdentifierRef::subtree) finds them in a sorted list.
//! - [`ByArcs`] is a key over either, in the order of arcs, as is [`cmp_arcs`](ObjectIdentifier::cmp_arcs). There, too,
//!   descendants are adjacent. A comparison takes longer.
//!
//! [`Error`] says why an input was rejected. [`Arcs`] gives the arcs, each an [`Arc`].
//!
#![doc = include_str!("../README.md")]
#![no_std]
#![deny(missing_docs, unsafe_code)]
#![warn(clippy::missing_errors_doc, clippy::must_use_candidate)]
// An identifier has two arcs or more.
#![allow(clippy::len_without_is_empty)]

#[cfg(feature = "arbitrary")]
mod arbitrary;
mod arcs;
mod by_arcs;
#[cfg(feature = "db")]
pub mod db;
#[allow(
// Not each of its functions has a form here, and some imports are of contracts alone.
    dead_code,
    unused_imports,
    missing_docs,
// Written for the checker, or for functions that are constant.
    clippy::all,
)]
mod erased;
// After `erased`, so that `new` is the first method of its type.
mod conversions;
#[cfg(feature = "internal-for-const-oid-c")]
#[doc(hidden)]
pub mod internal_for_const_oid_c;
mod traits;

pub use by_arcs::ByArcs;
pub use erased::{Arc, Arcs, Buffer, Error, ObjectIdentifier, ObjectIdentifierRef, Oid, Result};
pub use traits::{AssociatedOid, DynAssociatedOid};
