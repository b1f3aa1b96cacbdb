//! The part of the crate arbitrary 1.4 that `const-oid` calls, over octets.
//!
//! The workspace replaces that crate by this one, so that the feature is built and tested without a
//! registry. A crate that depends on `const-oid` gets the real one.
#![no_std]

use core::ops::RangeInclusive;

pub type Result<T> = core::result::Result<T, Error>;

#[derive(Debug)]
pub enum Error {
    NotEnoughData,
    IncorrectFormat,
}

/// Octets to draw from.
pub struct Unstructured<'a>(&'a [u8]);

impl<'a> Unstructured<'a> {
    pub fn new(data: &'a [u8]) -> Self {
        Unstructured(data)
    }

    pub fn is_empty(&self) -> bool {
        self.0.is_empty()
    }

    pub fn arbitrary<T: Arbitrary<'a>>(&mut self) -> Result<T> {
        T::arbitrary(self)
    }

    pub fn int_in_range(&mut self, range: RangeInclusive<u32>) -> Result<u32> {
        let drawn: u32 = self.arbitrary()?;
        let count = u64::from(range.end() - range.start()) + 1;
        Ok(range.start() + (u64::from(drawn) % count) as u32)
    }

    fn octets<const N: usize>(&mut self) -> Result<[u8; N]> {
        let (first, rest) = self.0.split_first_chunk().ok_or(Error::NotEnoughData)?;
        self.0 = rest;
        Ok(*first)
    }
}

pub trait Arbitrary<'a>: Sized {
    fn arbitrary(u: &mut Unstructured<'a>) -> Result<Self>;

    /// The fewest octets that are drawn, and the most, if there is a limit.
    fn size_hint(_depth: usize) -> (usize, Option<usize>) {
        (0, None)
    }
}

impl<'a> Arbitrary<'a> for bool {
    fn arbitrary(u: &mut Unstructured<'a>) -> Result<Self> {
        Ok(u.octets::<1>()?[0] % 2 == 1)
    }
}

impl<'a> Arbitrary<'a> for u32 {
    fn arbitrary(u: &mut Unstructured<'a>) -> Result<Self> {
        u.octets().map(u32::from_le_bytes)
    }
}
