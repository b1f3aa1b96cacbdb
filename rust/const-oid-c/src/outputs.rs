//! Results of `const-oid` that are written to an output, which the caller may not have written: without unsafe code.

use crate::edge::{Output, copy, zeroed};
use const_oid::internal_for_const_oid_c::{self, Error, ObjectIdentifierRef, Result, outputs};

/// The most bytes of an error's text: `CONST_OID_MAX_ERROR_TEXT` of the header.
const MAX_ERROR_TEXT: usize = 47;

/// Writes the text of an identifier at the start of an output, and returns its length. `None` if it is
/// longer than the output, which is then unchanged.
pub(crate) fn encode(oid: &ObjectIdentifierRef, out: &mut Output<u8>) -> Option<usize> {
    let out = out.get_mut(..oid.text_len())?;
    Some(internal_for_const_oid_c::write_text(oid, zeroed(out)))
}

/// Writes the text of the arcs after those of a prefix as `encode` writes all.
pub(crate) fn text_below(
    oid: &ObjectIdentifierRef,
    prefix: &ObjectIdentifierRef,
    out: &mut Output<u8>,
) -> Option<usize> {
    let out = out.get_mut(..outputs::text_below_len(oid, prefix))?;
    outputs::text_below(oid, prefix, zeroed(out))
}

/// Writes the element of an identifier as `encode` writes its text.
pub(crate) fn write_element(oid: &ObjectIdentifierRef, out: &mut Output<u8>) -> Option<usize> {
    let out = out.get_mut(..oid.element_len())?;
    oid.write_element(zeroed(out))
}

/// Writes the octets of a text, which are so many, at the start of an output.
pub(crate) fn write_parsed(text: &[u8], out: &mut Output<u8>, len: usize) {
    let _ = outputs::parse_or_stop(text, zeroed(&mut out[..len]), len);
}

/// Writes the octets of an identifier and a text after it, which are so many, at the start of an output.
pub(crate) fn write_parsed_below(above: &ObjectIdentifierRef, text: &[u8], out: &mut Output<u8>, len: usize) {
    let _ = outputs::parse_below_or_stop(above, text, zeroed(&mut out[..len]), len);
}

/// Writes the octets of arcs at the start of an output, and returns how many. On an error it is unchanged.
pub(crate) fn bytes_from_arcs(arcs: &[u32], out: &mut Output<u8>) -> Result<usize> {
    let len = outputs::bytes_len_from_arcs(arcs, out.len())?;
    internal_for_const_oid_c::encode(arcs, zeroed(&mut out[..len]), len)
}

/// Writes the text of an error at the start of an output, and returns its length. `None` if it is longer
/// than the output, which is then unchanged. It is made on the stack.
#[inline(always)]
pub(crate) fn encode_error(error: Error, out: &mut Output<u8>) -> Option<usize> {
    let mut text = [0; MAX_ERROR_TEXT];
    let room = out.len().min(text.len());
    let len = error.encode_text(&mut text[..room])?;
    copy(&text[..len], out);
    Some(len)
}
