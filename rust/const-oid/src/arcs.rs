//! Traits of the iterator over arcs, and its bounds.

use crate::Arcs;
use core::fmt;
use core::iter::FusedIterator;

impl FusedIterator for Arcs<'_> {}

/// The bounds of `size_hint` for subidentifiers, and an arc that is not one of its own: the first one holds two. Each
/// has one to five octets. In the last eight octets, each below 0x80 ends one, to which up to four octets before them
/// belong.
#[inline]
pub(crate) fn bounds(octets: &[u8], has_other: bool) -> (usize, Option<usize>) {
    let len = octets.len();
    let other = usize::from(has_other);
    let least = if let Some(last) = octets.last_chunk() {
        let ends = !u64::from_be_bytes(*last) >> 7 & 0x0101_0101_0101_0101;
        (len - 8) / 5 + (ends.wrapping_mul(0x0101_0101_0101_0101) >> 56) as usize
    } else {
        len.div_ceil(5)
    };
    (least + other, Some(len + other))
}

/// `Arcs([2, 999])`: the arcs that are left.
impl fmt::Debug for Arcs<'_> {
    fn fmt(&self, f: &mut fmt::Formatter<'_>) -> fmt::Result {
        f.debug_tuple("Arcs").field(&List(self.clone())).finish()
    }
}

/// What prints the items of an iterator as a list.
pub(crate) struct List<I>(pub I);

impl<I: Iterator<Item: fmt::Debug> + Clone> fmt::Debug for List<I> {
    fn fmt(&self, f: &mut fmt::Formatter<'_>) -> fmt::Result {
        f.debug_list().entries(self.0.clone()).finish()
    }
}
