//! The shape of the crate: its public items with their traits, its constants, and what `Cargo.toml` says.

use const_oid::{
    Arc, Arcs, AssociatedOid, Buffer, ByArcs, DynAssociatedOid, Error, ObjectIdentifier, ObjectIdentifierRef, Result,
};
use std::borrow::Borrow;
use std::fmt::{Debug, Display};
use std::hash::Hash;
use std::iter::FusedIterator;
use std::ops::Deref;
use std::panic::{catch_unwind, set_hook, take_hook};
use std::str::FromStr;

/// A function for all types with these parameters, which compiles if they have a trait.
macro_rules! is {
    ([$($generic:tt)*] $type:ty, $trait:path) => {
        const _: () = {
            #[allow(dead_code, clippy::needless_lifetimes)]
            fn is<'x, $($generic)*>(value: &'x $type) -> &'x (impl $trait + ?Sized) {
                value
            }
        };
    };
}

/// Asserts traits of types with parameters.
macro_rules! traits {
    ($($generics:tt $type:ty: $($trait:path),*;)*) => {
        $($(is!($generics $type, $trait);)*)*
    };
}

traits! {
    [const N: usize] ObjectIdentifier<N>: Copy, Clone, Eq, PartialEq, Ord, PartialOrd, Hash, Debug, Display, Send, Sync,
        Unpin, AsRef<[u8]>, AsRef<ObjectIdentifierRef>, Borrow<ObjectIdentifierRef>, Deref<Target=ObjectIdentifierRef>;
    ['a, const N: usize] ObjectIdentifier<N>: TryFrom<&'a ObjectIdentifierRef, Error = Error>;
    [] ObjectIdentifier: FromStr<Err = Error>;
    ['a] ObjectIdentifier: TryFrom<&'a [u8], Error = Error>;
    [const N: usize] ObjectIdentifierRef: Eq, PartialEq, Ord, PartialOrd, Hash, Debug, Display, Send, Sync, AsRef<[u8]>,
        PartialEq<ObjectIdentifier<N>>;
    ['a, const N: usize] &'a ObjectIdentifierRef: From<&'a ObjectIdentifier<N>>, TryFrom<&'a [u8], Error = Error>;
    [const N: usize] Buffer<N>: Copy, Clone, Eq, PartialEq, Ord, PartialOrd, Hash, Send, Sync, Unpin, AsRef<[u8]>;
    [] Error: Copy, Clone, Debug, Display, Eq, PartialEq, Ord, PartialOrd, Hash, Send, Sync, std::error::Error;
    [T: Borrow<ObjectIdentifierRef>] ByArcs<T>: Borrow<ByArcs<ObjectIdentifierRef>>;
    [T: Borrow<ObjectIdentifierRef> + ?Sized] ByArcs<T>: Eq, PartialEq, Ord, PartialOrd, Hash, Display, Deref<Target=T>;
    [T: Copy + Debug + Send + Sync] ByArcs<T>: Copy, Clone, Debug, Send, Sync, From<T>;
    ['a] Arcs<'a>: Iterator<Item = Arc>, FusedIterator, Clone, Debug, Send, Sync;
    [T: AssociatedOid] T: DynAssociatedOid;
}

#[cfg(feature = "arbitrary")]
traits! { ['a] ObjectIdentifier: arbitrary::Arbitrary<'a>; }

/// Calls functions as a constant may.
macro_rules! constants {
    (($($given:tt)*) $($type:ident $(<$size:literal>)?::$name:ident($($argument:expr),*);)*) => {
        const _: () = {
            #[allow(dead_code)]
            const fn calls($($given)*) {
                $(let _ = $type$(::<$size>)?::$name($($argument),*);)*
            }
        };
    };
}

const CN: ObjectIdentifier = ObjectIdentifier::new_unwrap("2.5.4.3");

// No caller makes a buffer.
constants! { (buffer: &Buffer<7>)
    ObjectIdentifier::new("2.5.4.3");
    ObjectIdentifier::new_unwrap("2.5.4.3");
    ObjectIdentifier<4>::new_sized("2.5.4.3");
    ObjectIdentifier<4>::from_ascii(b"2.5.4.3");
    ObjectIdentifier::as_bytes(&CN);
    ObjectIdentifier::as_oid_ref(&CN);
    ObjectIdentifier::push_arc(CN, 1);
    ObjectIdentifier::starts_with(&CN, CN);
    ObjectIdentifier::cmp_arcs(&CN, &CN);
    ObjectIdentifier::element_len(&CN);
    ObjectIdentifierRef::as_bytes(CN.as_oid_ref());
    ObjectIdentifierRef::starts_with(CN.as_oid_ref(), CN.as_oid_ref());
    ObjectIdentifierRef::cmp_arcs(CN.as_oid_ref(), CN.as_oid_ref());
    ByArcs::of(CN.as_oid_ref());
    Buffer::as_bytes(buffer);
    Buffer::len(buffer);
    Buffer::eq(buffer, buffer);
}

/// Constants, as values and as patterns.
#[test]
fn constants_have_their_values() {
    const CHILD: Result<ObjectIdentifier> = CN.push_arc(Arc::MAX);
    const SIZED: Result<ObjectIdentifier<4>> = ObjectIdentifier::<4>::new_sized("2.5.4.3");
    const REFUSED: Result<ObjectIdentifier> = ObjectIdentifier::new("2.5.");
    const BORROWED: &ObjectIdentifierRef = CN.as_oid_ref();
    const { assert!(SIZED.is_ok() && CN.starts_with(CN) && ObjectIdentifier::MAX_SIZE == 39) };
    assert_eq!(CHILD.unwrap().to_string(), "2.5.4.3.4294967295");
    assert_eq!((REFUSED, BORROWED.as_bytes()), (Err(Error::TrailingDot), CN.as_bytes()));
    assert_eq!(size_of::<ObjectIdentifier>(), 40);
    let is_cn = |oid| matches!(oid, CN);
    assert!(is_cn("2.5.4.3".parse().unwrap()) && is_cn(CHILD.unwrap().parent().unwrap()) && !is_cn(CHILD.unwrap()));
    // `parse` has one capacity, so that of an argument is known.
    assert!(CN == "2.5.4.3".parse().unwrap() && CN.starts_with("2.5.4".parse().unwrap()));
    let _: fn(&[u8]) -> Result<const_oid::Oid> = ObjectIdentifier::from_bytes;
    // Not those of the borrowed form.
    let _: fn(&ObjectIdentifier<7>) -> Option<ObjectIdentifier<7>> = ObjectIdentifier::parent;
    let _: fn(&ObjectIdentifier<7>) -> Arcs<'_> = ObjectIdentifier::arcs;
}

#[test]
fn a_wrong_text_panics_with_the_text_of_its_error() {
    thread_local!(static LINE: std::cell::Cell<u32> = 0.into());
    let usual = take_hook();
    set_hook(Box::new(move |panic| {
        LINE.set(panic.location().unwrap().line());
        usual(panic);
    }));
    for (text, expected) in [
        ("3.1", "OID contains invalid arc"),
        ("1.40", "OID contains invalid arc"),
        ("1.2.4294967296", "OID contains invalid arc"),
        ("1.2.X", "OID expected to start with digit"),
        ("1", "OID value is empty"),
        (&format!("2{}", ".4294967295".repeat(8)), "OID length invalid"),
        ("1.2..3", "repeated consecutive '..' characters in OID"),
        ("1.2.", "OID ends with invalid trailing '.'"),
    ] {
        let (line, panic) = (line!(), catch_unwind(|| ObjectIdentifier::new_unwrap(text)).expect_err(text));
        assert_eq!(LINE.get(), line, "the line of the panic: {text}");
        let message = panic.downcast_ref::<String>().map(String::as_str);
        assert_eq!(message.or(panic.downcast_ref::<&str>().copied()), Some(expected), "{text}");
    }
}

/// Types with an identifier: one that borrows, as `dyn`, and two without a size.
#[test]
fn types_have_identifiers() {
    struct Of<T: ?Sized>(#[allow(dead_code)] T);
    impl AssociatedOid for Of<&str> {
        const OID: ObjectIdentifier = CN;
    }
    impl AssociatedOid for Of<str> {
        const OID: ObjectIdentifier = CN;
    }
    impl DynAssociatedOid for Of<[Arc]> {
        fn oid(&self) -> ObjectIdentifier {
            ObjectIdentifier::from_arcs(self.0.iter().copied()).unwrap()
        }
    }
    let text = String::from("cn");
    let (borrows, values): (&dyn DynAssociatedOid, &Of<[Arc]>) = (&Of(&*text), &Of([2, 5, 4, 3]));
    assert_eq!([borrows.oid(), values.oid(), Of::<str>::OID], [CN; 3]);
}

#[cfg(feature = "db")]
mod db {
    use const_oid::db::{Database, Display, Names, PackedDatabase, SortedDatabase, Table, Tables, rfc4519::CN};
    use std::fmt::{self, Debug};
    use std::iter::FusedIterator;

    traits! {
        ['a] Database<'a>: Copy, Clone, Debug, Send, Sync;
        ['a] SortedDatabase<'a>: Copy, Clone, Debug, Send, Sync;
        ['a] PackedDatabase<'a>: Copy, Clone, Debug, Send, Sync;
        ['a] Table<'a>: Copy, Clone, Debug, Send, Sync;
        ['a] Tables<'a>: Copy, Clone, Debug, Send, Sync;
        ['a] Names<'a>: Iterator<Item = &'a str>, FusedIterator, Clone, Debug;
        ['a] Display<'a>: fmt::Display, Copy, Clone, Debug, Send, Sync;
    }

    constants! { (table: Database<'static>, sorted: SortedDatabase<'static>)
        Database::new(&[(&CN, "cn")]);
        Database::by_oid(&table, &CN);
        Database::by_name(&table, "cn");
        Database::find_names_for_oid(&table, CN);
        Database::entries(&table);
        Database::len(&table);
        SortedDatabase::new_unchecked(&[(CN.as_oid_ref(), "cn")]);
        SortedDatabase::try_new(&[(CN.as_oid_ref(), "cn")]);
        SortedDatabase::entries(&sorted);
        SortedDatabase::len(&sorted);
    }
}

/// The value of the first setting of a name in a file, from the top of the repository.
fn setting(path: &str, name: &str) -> String {
    let path = format!("{}/../../{path}", env!("CARGO_MANIFEST_DIR"));
    let text = std::fs::read_to_string(path).unwrap();
    let value = text.lines().find_map(|line| line.strip_prefix(name)).unwrap();
    value.trim_matches([' ', '=', '"']).to_string()
}

/// The crate replaces const-oid 0.10.2, the changelog has the header's version, and all packages are for the same Rust.
#[test]
fn packages_have_their_versions() {
    assert_eq!(setting("rust/const-oid/Cargo.toml", "version"), "0.10.2");
    for package in ["arbitrary", "const-oid", "const-oid-c", "erase"] {
        assert_eq!(setting(&format!("rust/{package}/Cargo.toml"), "rust-version"), "1.85", "{package}");
    }
    assert!(!include_str!("../Cargo.toml").contains("\ndefault"), "no feature is on by itself");
    let part = |part| setting("crates/const_oid_c/include/const_oid.h", &format!("#define CONST_OID_VERSION_{part} "));
    let version = format!(" C and Python {}\n", ["MAJOR", "MINOR", "PATCH"].map(part).join("."));
    assert!(include_str!("../CHANGELOG.md").contains(&version), "{version}");
}

/// What the compiler denies in this crate and in the library for C, whose generated functions have no unsafe code.
#[test]
fn unsafe_code_is_where_it_is_allowed() {
    assert!(include_str!("../src/lib.rs").contains("\n#![no_std]\n#![deny(missing_docs, unsafe_code)]\n"));
    let for_c = include_str!("../../const-oid-c/src/lib.rs");
    assert!(for_c.contains("\n#![deny(unsafe_op_in_unsafe_fn, clippy::undocumented_unsafe_blocks)]\n"));
    let (_, generated) = for_c.split_once("#[forbid(unsafe_code)]").unwrap();
    assert!(generated.split_once("mod ").unwrap().1.starts_with("erased;"));
    // The casts to these types are sound.
    for source in [include_str!("../src/erased/oid_ref.rs"), include_str!("../src/by_arcs.rs")] {
        assert!(source.contains("\n#[repr(transparent)]\npub struct "));
    }
}
