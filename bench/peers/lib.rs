//! const-oid, and this library's crate: `ObjectIdentifier::new`, `ObjectIdentifierRef::from_bytes`, `Display`.
//! With the feature `elements`: `ObjectIdentifierRef::read_element`.
//! asn1: `ObjectIdentifier::from_string`, `write_single`, `parse_single`, `Display`.
use std::{io::Write, slice};

#[unsafe(no_mangle)]
unsafe extern "C" fn text_to_octets(text: *const u8, len: usize, out: &mut [u8; 4000]) -> i32 {
    let Ok(text) = std::str::from_utf8(unsafe { slice::from_raw_parts(text, len) }) else { return -1 };
    #[cfg(feature = "asn1")]
    let octets = asn1::ObjectIdentifier::from_string(text).map(|oid| asn1::write_single(&oid).unwrap().split_off(2));
    #[cfg(not(feature = "asn1"))]
    let octets = const_oid::ObjectIdentifier::new(text);
    octets.map_or(-1, |octets| (&mut out[..]).write(octets.as_ref()).map_or(-1, |len| len as i32))
}

#[unsafe(no_mangle)]
unsafe extern "C" fn octets_to_text(der: *const u8, len: usize, out: &mut [u8; 4000]) -> i32 {
    let der = unsafe { slice::from_raw_parts(der, len) };
    #[cfg(feature = "asn1")]
    let oid = asn1::parse_single::<asn1::ObjectIdentifier>(der);
    #[cfg(feature = "elements")]
    let Some((oid, [])) = const_oid::ObjectIdentifierRef::read_element(der) else { return -1 };
    #[cfg(not(any(feature = "asn1", feature = "elements")))]
    let oid = const_oid::ObjectIdentifierRef::from_bytes(&der[2..]);
    let mut room = &mut out[..];
    oid.map_or(-1, |oid| write!(room, "{oid}").map_or(-1, |()| 4000 - room.len() as i32))
}
