//! Conversions of identifiers and of their buffers.

use crate::{Buffer, Error, ObjectIdentifier, ObjectIdentifierRef, Result};
use core::borrow::Borrow;
use core::ops::Deref;

/// The text of a panic of [`ObjectIdentifier::new_unwrap`], which is that of the crate of this name.
pub(crate) const fn panic_text(error: Error) -> &'static str {
    match error {
        Error::ArcInvalid { .. } | Error::ArcTooBig => "OID contains invalid arc",
        Error::DigitExpected { .. } => "OID expected to start with digit",
        other => other.words().0,
    }
}

impl ObjectIdentifierRef {
    /// Parses dotted text of any length into octets at the start of `out`. As many as the text has bytes are always
    /// enough. [`from_ascii_in`](Self::from_ascii_in) has an example.
    ///
    /// # Errors
    ///
    /// Those of [`from_ascii_in`](Self::from_ascii_in).
    #[inline]
    pub fn new_in<'o>(s: &str, out: &'o mut [u8]) -> Result<&'o Self> {
        Self::from_ascii_in(s.as_bytes(), out)
    }
}

impl<const MAX_SIZE: usize> Deref for ObjectIdentifier<MAX_SIZE> {
    type Target = ObjectIdentifierRef;

    fn deref(&self) -> &ObjectIdentifierRef {
        self.as_oid_ref()
    }
}

impl<const MAX_SIZE: usize> AsRef<ObjectIdentifierRef> for ObjectIdentifier<MAX_SIZE> {
    fn as_ref(&self) -> &ObjectIdentifierRef {
        self.as_oid_ref()
    }
}

/// For a `HashMap`. In a `BTreeMap`, use [`ByArcs`](crate::ByArcs): the orders of the two forms differ, against the
/// rule of [`Borrow`].
impl<const MAX_SIZE: usize> Borrow<ObjectIdentifierRef> for ObjectIdentifier<MAX_SIZE> {
    fn borrow(&self) -> &ObjectIdentifierRef {
        self.as_oid_ref()
    }
}

impl<const MAX_SIZE: usize> AsRef<[u8]> for Buffer<MAX_SIZE> {
    fn as_ref(&self) -> &[u8] {
        self.as_bytes()
    }
}

impl<const MAX_SIZE: usize> AsRef<[u8]> for ObjectIdentifier<MAX_SIZE> {
    fn as_ref(&self) -> &[u8] {
        self.as_bytes()
    }
}

impl AsRef<[u8]> for ObjectIdentifierRef {
    fn as_ref(&self) -> &[u8] {
        self.as_bytes()
    }
}

impl TryFrom<&[u8]> for ObjectIdentifier {
    type Error = Error;

    /// Reads contents octets, as [`from_bytes`](ObjectIdentifier::from_bytes) does, and not text.
    fn try_from(ber_bytes: &[u8]) -> Result<Self> {
        Self::from_bytes(ber_bytes)
    }
}

impl<const MAX_SIZE: usize> TryFrom<&ObjectIdentifierRef> for ObjectIdentifier<MAX_SIZE> {
    type Error = Error;

    /// Copies a borrowed identifier.
    ///
    /// # Errors
    ///
    /// [`Error::Length`] if its octets do not fit.
    fn try_from(oid_ref: &ObjectIdentifierRef) -> Result<Self> {
        Self::try_from_ref(oid_ref)
    }
}

impl<'a, const MAX_SIZE: usize> From<&'a ObjectIdentifier<MAX_SIZE>> for &'a ObjectIdentifierRef {
    fn from(oid: &'a ObjectIdentifier<MAX_SIZE>) -> Self {
        oid.as_oid_ref()
    }
}

impl<'a> TryFrom<&'a [u8]> for &'a ObjectIdentifierRef {
    type Error = Error;

    fn try_from(ber: &'a [u8]) -> Result<Self> {
        ObjectIdentifierRef::from_bytes(ber)
    }
}

// Without its mirror: a second type to compare an owned identifier to would leave the type of
// `oid == text.parse()?` open, which callers write.
impl<const MAX_SIZE: usize> PartialEq<ObjectIdentifier<MAX_SIZE>> for ObjectIdentifierRef {
    fn eq(&self, other: &ObjectIdentifier<MAX_SIZE>) -> bool {
        self.eq_oid(other)
    }
}
