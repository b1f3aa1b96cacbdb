//! What the library `const-oid-c` needs, which is generated over it: generated modules and their types, and functions
//! that the API lacks. No other crate may use this module: it may change in any release.

pub use crate::erased::{Arcs, Error, ObjectIdentifier, ObjectIdentifierRef, Oid, Result};
pub use crate::erased::{outputs, search, typed};

use crate::Arc;
use crate::erased::{encoder, text};

/// Prints octets as it checks them.
#[inline(always)]
pub fn text_from_bytes(ber: &[u8], out: &mut [u8]) -> Option<Result<usize>> {
    ObjectIdentifierRef::text_from_bytes(ber, out)
}

/// Writes the text of an identifier, for which there is room.
#[inline(always)]
pub fn write_text(oid: &ObjectIdentifierRef, out: &mut [u8]) -> usize {
    text::write_text(oid.as_bytes(), out)
}

/// Writes the octets of arcs in one pass. On an error, `out` may be changed.
pub fn encode(arcs: &[Arc], out: &mut [u8], capacity: usize) -> Result<usize> {
    encoder::encode(arcs, out, capacity)
}
