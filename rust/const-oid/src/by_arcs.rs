//! Keys in the order of arcs, over what holds or borrows an identifier.

use crate::ObjectIdentifierRef;
use core::borrow::Borrow;
use core::cmp::Ordering;
use core::fmt;
use core::hash::{Hash, Hasher};
use core::ops::Deref;

/// An identifier, owned or borrowed, as a key whose order is that of its arcs.
///
/// SNMP orders names so (RFC 3416). `T` is [`ObjectIdentifier`](crate::ObjectIdentifier) of any capacity,
/// [`ObjectIdentifierRef`] or a reference to it. It is a key for maps and for `sort_by_key`, and has the methods of its
/// identifier. A map of owned keys is searched by a borrowed one, which [`of`](ByArcs::of) makes.
///
/// # Examples
///
/// ```
/// use const_oid::{ByArcs, ObjectIdentifier};
/// use std::collections::BTreeMap;
///
/// let [small, large] = ["1.3.256", "1.3.16384"].map(ObjectIdentifier::new_unwrap);
/// let mut oids = [large.as_oid_ref(), small.as_oid_ref()];
/// oids.sort_by_key(|oid| ByArcs(*oid));
/// assert_eq!(oids, [small.as_oid_ref(), large.as_oid_ref()]);
///
/// let names = BTreeMap::from([(ByArcs(large), "large"), (ByArcs(small), "small")]);
/// assert_eq!(names.first_key_value(), Some((&ByArcs(small), &"small")));
/// assert_eq!(names.get(ByArcs::of(oids[1])), Some(&"large"));
/// ```
#[derive(Copy, Clone, Debug)]
#[repr(transparent)]
pub struct ByArcs<T: ?Sized>(pub T);

impl ByArcs<ObjectIdentifierRef> {
    /// A key over a borrowed identifier, for lookups in a map of keys of any form. [`ByArcs`] has an example.
    #[must_use]
    #[allow(unsafe_code)]
    pub const fn of(oid: &ObjectIdentifierRef) -> &Self {
        // SAFETY: the type is laid out as its only field, and the reference lives as long.
        unsafe { &*(oid as *const ObjectIdentifierRef as *const Self) }
    }
}

impl<T: Borrow<ObjectIdentifierRef>> Borrow<ByArcs<ObjectIdentifierRef>> for ByArcs<T> {
    fn borrow(&self) -> &ByArcs<ObjectIdentifierRef> {
        ByArcs::of(self.0.borrow())
    }
}

impl<T: ?Sized> Deref for ByArcs<T> {
    type Target = T;

    fn deref(&self) -> &T {
        &self.0
    }
}

impl<T> From<T> for ByArcs<T> {
    fn from(oid: T) -> Self {
        ByArcs(oid)
    }
}

impl<T: Borrow<ObjectIdentifierRef> + ?Sized> PartialEq for ByArcs<T> {
    fn eq(&self, other: &Self) -> bool {
        self.0.borrow() == other.0.borrow()
    }
}

impl<T: Borrow<ObjectIdentifierRef> + ?Sized> Eq for ByArcs<T> {}

impl<T: Borrow<ObjectIdentifierRef> + ?Sized> PartialOrd for ByArcs<T> {
    fn partial_cmp(&self, other: &Self) -> Option<Ordering> {
        Some(self.cmp(other))
    }
}

/// The arcs in lexicographic order, a prefix before what begins with it.
impl<T: Borrow<ObjectIdentifierRef> + ?Sized> Ord for ByArcs<T> {
    fn cmp(&self, other: &Self) -> Ordering {
        self.0.borrow().cmp_arcs(other.0.borrow())
    }
}

impl<T: Borrow<ObjectIdentifierRef> + ?Sized> Hash for ByArcs<T> {
    fn hash<H: Hasher>(&self, state: &mut H) {
        self.0.borrow().hash(state);
    }
}

/// The arcs in decimal, joined by dots.
impl<T: Borrow<ObjectIdentifierRef> + ?Sized> fmt::Display for ByArcs<T> {
    fn fmt(&self, f: &mut fmt::Formatter<'_>) -> fmt::Result {
        fmt::Display::fmt(self.0.borrow(), f)
    }
}
