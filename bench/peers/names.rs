//! The names of this library's crate: of one table, or with the feature `both` of both.
use const_oid::{ObjectIdentifier, db, db::DB};
use std::slice;

#[unsafe(no_mangle)]
#[inline(never)]
fn lookup_name(name: &str) -> Option<&'static ObjectIdentifier> {
    if cfg!(feature = "both") { db::by_name(name) } else { DB.by_name(name) }
}

#[unsafe(no_mangle)]
#[inline(never)]
fn lookup_octets(oid: &ObjectIdentifier) -> Option<&'static str> {
    if cfg!(feature = "both") { db::by_oid(oid) } else { DB.by_oid(oid) }
}

#[unsafe(no_mangle)]
unsafe extern "C" fn text_to_octets(text: *const u8, len: usize, _: *mut u8) -> i32 {
    let name = std::str::from_utf8(unsafe { slice::from_raw_parts(text, len) }).unwrap();
    lookup_name(name).map_or(-1, |_| 0)
}

#[unsafe(no_mangle)]
unsafe extern "C" fn octets_to_text(der: *const u8, len: usize, _: *mut u8) -> i32 {
    let octets = unsafe { slice::from_raw_parts(der, len) };
    lookup_octets(&ObjectIdentifier::from_bytes(&octets[2..]).unwrap()).map_or(-1, |_| 0)
}
