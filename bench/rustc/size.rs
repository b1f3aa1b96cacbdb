//! Calls of the crate `oid`, each of which `size` links alone, or with others of its block.
#![no_std]
use core::cmp::Ordering;
use core::fmt::{self, Write};
use oid::{Arc, Error, ObjectIdentifier as Oid, ObjectIdentifierRef, Result};

#[panic_handler]
fn panic(_: &core::panic::PanicInfo<'_>) -> ! {
    loop {}
}

/// Functions that are there in their row, and in that of all.
macro_rules! rows {
    ($all:literal: $($row:literal $name:ident($($argument:ident: $type:ty),*) -> $result:ty { $call:expr })*) => {
        $(
            #[cfg(any(row = $row, row = $all))]
            #[unsafe(no_mangle)]
            pub fn $name($($argument: $type),*) -> $result {
                $call
            }
        )*
    };
}

rows! { "all":
    "from_bytes" call_from_bytes(octets: &[u8]) -> Result<Oid> { Oid::from_bytes(octets) }
    "new" call_new(text: &str) -> Result<Oid> { Oid::new(text) }
    "Display" call_display(oid: &Oid, out: &mut dyn Write) -> fmt::Result { write!(out, "{oid}") }
    "arcs" call_arcs(oid: &Oid) -> Arc { oid.arcs().fold(0, |all, arc| all ^ arc) }
    "parent" call_parent(oid: &Oid) -> Option<Oid> { oid.parent() }
    "push_arc" call_push_arc(oid: &Oid, arc: Arc) -> Result<Oid> { oid.push_arc(arc) }
    "arc" call_arc(oid: &Oid, index: usize) -> Option<Arc> { oid.arc(index) }
    "borrowed" call_borrowed(octets: &[u8]) -> Result<&ObjectIdentifierRef> { octets.try_into() }
    "starts_with" call_starts_with(oid: &Oid, other: &Oid) -> bool { oid.starts_with(*other) }
    "cmp" call_cmp(oid: &Oid, other: &Oid) -> Ordering { oid.cmp(other) }
    "==" call_eq(oid: &Oid, other: &Oid) -> bool { oid == other }
    "error" call_error(error: &Error, out: &mut dyn Write) -> fmt::Result { write!(out, "{error}") }
}

rows! { "both tables":
    "DB.by_oid" call_db(oid: &Oid) -> Option<&'static str> { oid::db::DB.by_oid(oid) }
    "SORTED.by_oid" call_sorted(oid: &Oid) -> Option<&'static str> { oid::db::SORTED.by_oid(oid.as_oid_ref()) }
}

rows! { "names":
    "db::by_name" call_by_name(name: &str) -> Option<&'static Oid> { oid::db::by_name(name) }
    "db::by_oid" call_by_oid(oid: &Oid) -> Option<&'static str> { oid::db::by_oid(oid) }
    "db::parse" call_parse(text: &str) -> Result<Oid> { oid::db::parse(text) }
    "db::display" call_named(oid: &Oid, out: &mut dyn Write) -> fmt::Result { write!(out, "{}", oid::db::display(oid)) }
}

rows! { "nearest":
    "db::nearest" call_nearest(oid: &Oid) -> Option<&'static str> { oid::db::nearest(oid).map(|entry| entry.1) }
}
