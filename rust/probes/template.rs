//! A caller, with one statement. What `kept` takes lives as long as the program.
#![allow(unused)]
#![deny(unused_must_use)]
use const_oid::db::{Database, SortedDatabase};
use const_oid::{Arcs, Buffer, ByArcs, Error, ObjectIdentifier, ObjectIdentifierRef};
use std::{borrow::Borrow, collections::BTreeMap, ops::Bound};

const CN: ObjectIdentifier = ObjectIdentifier::new_unwrap("2.5.4.3");
const ENTRIES: &[(&ObjectIdentifier, &str)] = &[(&CN, "cn")];

fn kept<T: 'static>(_: T) {}

pub fn caller() {
    let octets = [85, 4, 3];
    let mut out = [0; 40];
    let text = String::from("2.5.4.3");
    let oid = ObjectIdentifier::from_bytes(&octets).unwrap();
    let lent = ObjectIdentifierRef::from_bytes(&octets).unwrap();
    let entries = [(&CN, "cn")];
    let sorted = [(CN.as_oid_ref(), "cn")];
    // STATEMENT
}
