//! Identifiers for fuzzing, made from drawn arcs: three, and then as many as fit.

use crate::{Arc, ObjectIdentifier};
use arbitrary::{Arbitrary, Error, Result, Unstructured};

/// The fewest arcs that are drawn.
const FEWEST: usize = 3;

/// Requires the feature `arbitrary`.
impl<'a> Arbitrary<'a> for ObjectIdentifier {
    fn arbitrary(u: &mut Unstructured<'a>) -> Result<Self> {
        let first = u.int_in_range(0..=2)?;
        let second = u.int_in_range(0..=if first < 2 { 39 } else { Arc::MAX })?;
        let arcs: [Arc; FEWEST] = [first, second, u.arbitrary()?];
        let mut oid = Self::from_arcs(arcs).map_err(|_| Error::IncorrectFormat)?;
        while !u.is_empty() && u.arbitrary()? {
            match oid.push_arc(u.arbitrary()?) {
                Ok(longer) => oid = longer,
                Err(_) => break,
            }
        }
        Ok(oid)
    }

    fn size_hint(_depth: usize) -> (usize, Option<usize>) {
        (FEWEST * size_of::<Arc>(), None)
    }
}
