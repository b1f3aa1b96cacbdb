//! Identifiers for fuzzing: `Arbitrary` of `ObjectIdentifier`.
#![cfg(feature = "arbitrary")]

use arbitrary::{Arbitrary, Unstructured};
use const_oid::ObjectIdentifier;

fn drawn(octets: &[u8]) -> arbitrary::Result<ObjectIdentifier> {
    Unstructured::new(octets).arbitrary()
}

#[test]
fn octets_become_arcs_that_are_in_range() {
    let oid = drawn(&[2, 0, 0, 0, 231, 3, 0, 0, 3, 0, 0, 0, 1, 4, 0, 0, 0, 0]).unwrap();
    assert_eq!(oid.to_string(), "2.999.3.4");
    let oid = drawn(&[4, 0, 0, 0, 40, 0, 0, 0, 7, 0, 0, 0]).unwrap();
    assert_eq!(oid.to_string(), "1.0.7");
    assert!(drawn(&[1; 11]).is_err());
    assert_eq!(ObjectIdentifier::size_hint(0), (12, None));
    for arc in [0, 39, 40, 127, 128, 999, 1_000, 1_001, 65_535, 65_536, u32::MAX] {
        for (first, second) in [(2, arc), (1, arc % 40), (0, arc % 40)] {
            let octets = [first, arc, arc].map(u32::to_le_bytes).concat();
            assert!(drawn(&octets).unwrap().arcs().eq([first, second, arc]), "{first} {arc}");
        }
    }
}

/// Every number of arcs, and at every place an arc of every length: as many arcs as fit.
#[test]
fn reaches_each_number_and_length_of_arcs() {
    let edges = [0, 7, 14, 21, 28].map(|bits| 1_u32 << bits);
    for arc in edges.iter().flat_map(|edge| [edge - 1, *edge]).chain([u32::MAX]) {
        for len in 3..=41 {
            let mut arcs = vec![1; len];
            arcs[0] = 2;
            arcs[len - 1] = arc;
            let mut octets = arcs[..3].iter().flat_map(|arc| arc.to_le_bytes()).collect::<Vec<_>>();
            octets.extend(arcs[3..].iter().flat_map(|arc| [&[1], &arc.to_le_bytes()[..]].concat()));
            let all = ObjectIdentifier::from_arcs(arcs.iter().copied());
            let expected = all.or_else(|_| ObjectIdentifier::from_arcs(arcs[..len - 1].iter().copied()));
            assert_eq!(drawn(&octets).unwrap(), expected.unwrap(), "{arc} {len}");
        }
    }
}
