//! Pointers of C as slices. The header says what a caller guarantees: a pointer is valid for its length, or null with
//! length 0, and an output overlaps no input.

use const_oid::internal_for_const_oid_c::search::Contents;
use core::marker::PhantomData;
use core::mem::MaybeUninit;
use core::slice;

/// The contents octets of one identifier. C guarantees the pointer of one that it makes for `'a`.
#[repr(C)]
#[derive(Clone, Copy)]
pub struct Octets<'a> {
    octets: *const u8,
    len: usize,
    borrowed: PhantomData<&'a [u8]>,
}

impl<'a> Octets<'a> {
    pub(crate) fn of(octets: &'a [u8]) -> Self {
        Octets { octets: octets.as_ptr(), len: octets.len(), borrowed: PhantomData }
    }
}

impl Contents for Octets<'_> {
    fn contents(&self) -> &[u8] {
        // SAFETY: these fields are those of a slice, or what C guaranteed, since nothing changes them.
        unsafe { input(self.octets, self.len) }
    }
}

/// The items of an output, which the caller may not have written.
pub(crate) type Output<T> = [MaybeUninit<T>];

/// The items of an input.
///
/// # Safety
///
/// The pointer is valid for reads of `len` items, which nothing writes, for `'a`, or the length is 0.
/// This holds for the pointers of items, too.
pub(crate) unsafe fn input<'a, T>(items: *const T, len: usize) -> &'a [T] {
    if len == 0 {
        return &[];
    }
    // SAFETY: the length is not 0, so the caller guarantees the pointer.
    unsafe { slice::from_raw_parts(items, len) }
}

/// The items of an output.
///
/// # Safety
///
/// The pointer is valid for writes of `len` items, which nothing else reads or writes, for `'a`, or
/// the length is 0.
pub(crate) unsafe fn output<'a, T>(items: *mut T, len: usize) -> &'a mut Output<T> {
    if len == 0 {
        return &mut [];
    }
    // SAFETY: the length is not 0, so the caller guarantees the pointer. An item need not be written.
    unsafe { slice::from_raw_parts_mut(items.cast(), len) }
}

/// Items as those of an output.
pub(crate) fn written<T>(items: &[T]) -> &Output<T> {
    // SAFETY: a written item is an item that may be written, and the slice is as long.
    unsafe { slice::from_raw_parts(items.as_ptr().cast(), items.len()) }
}

/// Copies bytes to the start of an output, which is long enough. The crate's `copies` writes to bytes that have values.
pub(crate) fn copy(bytes: &[u8], out: &mut Output<u8>) {
    let bytes = written(bytes);
    let out = &mut out[..bytes.len()];
    // Two copies, which may overlap, are fewer instructions than a call.
    match bytes.len() {
        0..2 => out.iter_mut().zip(bytes).for_each(|(to, byte)| *to = *byte),
        2..4 => copy_ends::<2>(bytes, out),
        4..8 => copy_ends::<4>(bytes, out),
        8..16 => copy_ends::<8>(bytes, out),
        16..=32 => copy_ends::<16>(bytes, out),
        _ => out.copy_from_slice(bytes),
    }
}

/// Copies `N` bytes at each end.
#[inline(always)]
fn copy_ends<const N: usize>(bytes: &Output<u8>, out: &mut Output<u8>) {
    let end = bytes.len() - N;
    out[..N].copy_from_slice(&bytes[..N]);
    out[end..].copy_from_slice(&bytes[end..]);
}

/// The bytes of an output, set to zero.
pub(crate) fn zeroed(out: &mut Output<u8>) -> &mut [u8] {
    out.fill(MaybeUninit::new(0));
    // SAFETY: all of these bytes were written.
    unsafe { slice::from_raw_parts_mut(out.as_mut_ptr().cast(), out.len()) }
}
