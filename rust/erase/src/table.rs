//! The differences between Rust and the proved sources that the rules of [`crate::erase`] do not make.

/// How Rust is made from the sources of a crate.
pub struct Crate {
    /// The folder of the sources, from the top of the repository.
    pub from: &'static str,
    /// The folder of the generated files.
    pub to: &'static str,
    pub edits: &'static [Edit],
}

/// An edit.
pub struct Edit {
    /// The module in which `old` occurs once, by its path (`fast/lanes`); with `*` after it, any number of times;
    /// nothing is any number in all.
    pub module: &'static str,
    pub old: &'static str,
    pub new: &'static str,
    pub why: &'static str,
}

/// Edits: `MODULE: OLD => NEW, WHY;` each, or `MODULE body: ..` where the source says that Rust has another body.
macro_rules! edits {
    ($($module:literal $($body:ident)?: $old:literal => $new:literal, $why:expr;)*) => {
        &[$(Edit { module: $module, old: edits!(@old $($body)? $old), new: $new, why: $why }),*]
    };
    (@old body $old:literal) => { concat!("// erase: another body\n", $old) };
    (@old $old:literal) => { $old };
}

const LANES: &str = "lanes are unstable in Rust";
const EQUALITY: &str = "constants in patterns need the derived `==`; zeros follow the octets in use (`ghost zeros`)";
const UNSIZED: &str = "the crate's borrowed form is unsized, as in the crate of this name, and lies behind a reference";
const FOR_C: &str = "the library for C calls what the API has no function for";
const BY_CORE: &str = "`core` compares slices by `memcmp`, which takes less time, and callers inline the call";
const BOUNDS: &str = "a bound at no cost, where Rattle keeps the default of the trait";
const TABLES: &str = "an identifier of a table is made of octets that are valid";
const UNWRITTEN: &str = "in Rust no reference is to memory that C may not have written";

pub const CRATES: &[Crate] = &[
    Crate {
        from: "crates/const_oid/src",
        to: "rust/const-oid/src/erased",
        edits: edits! {
            "lib": "pub mod db; mod db_sorted;"
                => "#[cfg(feature = \"db\")] pub mod db; #[cfg(feature = \"db\")] mod db_sorted;",
                "they are of a feature";
            "lib": "pub(crate) mod links;" => "#[cfg(feature = \"db\")] pub(crate) mod links;", "as above";
            "lib": "pub mod tables;" => "#[cfg(feature = \"db\")] pub mod tables;", "as above";
            "lib": "pub mod packed;" => "#[cfg(feature = \"db\")] pub mod packed;", "as above";
            "lib": "mod readable;" => "#[cfg(feature = \"db\")] mod readable;", "as above";
            "lib": "mod named;" => "#[cfg(feature = \"db\")] mod named;", "as above";
            "lib": "mod encoder;" => "pub(crate) mod encoder;", FOR_C;
            "lib": "mod text;" => "pub(crate) mod text;", FOR_C;
            "oid_ref": "#[derive(Copy, Clone, Eq, Hash)] pub struct ObjectIdentifierRef<'a> { pub ber: &'a [u8], }"
                => "#[derive(Eq, Hash)]\n#[repr(transparent)]\npub struct ObjectIdentifierRef {\n ber: [u8],\n}", UNSIZED;
            "oid_ref" body: "pub(crate) const fn from_checked(ber: &'a [u8]) -> Self { ObjectIdentifierRef { ber } }"
                => "#[allow(unsafe_code)]
                        pub(crate) const fn from_checked(ber: &[u8]) -> &Self {
                            // SAFETY: the type is laid out as its only field, and the reference lives as long.
                            unsafe { &*(ber as *const [u8] as *const Self) }
                        }",
                UNSIZED;
            "oid_ref": "impl<'a> ObjectIdentifierRef<'a>" => "impl ObjectIdentifierRef", UNSIZED;
            "oid_ref*": "for ObjectIdentifierRef<'_>" => "for ObjectIdentifierRef", UNSIZED;
            "oid_ref": "from_bytes(ber: &'a [u8]) -> Result<Self>" => "from_bytes(ber: &[u8]) -> Result<&Self>", UNSIZED;
            "oid_ref": "Ok(ObjectIdentifierRef { ber })" => "Ok(Self::from_checked(ber))", UNSIZED;
            "oid_ref": "fn read_element" => "fn read_element<'a>", UNSIZED;
            "oid_ref": "fn from_ascii_in" => "fn from_ascii_in<'a>", UNSIZED;
            "oid_ref": "fn from_arcs_in" => "fn from_arcs_in<'a>", UNSIZED;
            "oid_ref*": "Result<Self>" => "Result<&'a Self>", UNSIZED;
            "oid_ref*": ".ber" => ".as_bytes()", UNSIZED;
            "oid_ref": "-> &'a [u8] { self.as_bytes() }" => "-> &[u8] {\n &self.ber\n }", UNSIZED;
            "oid_ref*": "Arcs<'a>" => "Arcs<'_>", UNSIZED;
            "oid_ref": "Option<ObjectIdentifierRef<'a>>" => "Option<&Self>", UNSIZED;
            "oid_ref" body: "fn eq(&self, other: &Self) -> bool { are_equal(self.as_bytes(), other.as_bytes()) }"
                => "#[inline]\nfn eq(&self, other: &Self) -> bool {\n self.ber == other.ber\n }", BY_CORE;
            "oid_ref" body: "fn cmp(&self, other: &Self) -> Ordering { order(self.as_bytes(), other.as_bytes()) }"
                => "#[inline]\nfn cmp(&self, other: &Self) -> Ordering {\n self.ber.cmp(&other.ber)\n }", BY_CORE;
            "oid_ref": "fn partial_cmp" => "#[inline]\nfn partial_cmp", "as above, where a caller is compiled without LTO";
            "search*": "#[inline(never)] fn" => "fn", "a search takes fewer instructions, and more octets of code";
            "oid": "impl ObjectIdentifierRef<'_>" => "impl ObjectIdentifierRef", UNSIZED;
            "oid": "pub const fn eq_oid" => "pub(crate) const fn eq_oid", "public as `==`";
            "oid_ref": "pub fn text_from_bytes" => "pub(crate) fn text_from_bytes", FOR_C;
            "": "&ObjectIdentifierRef<'_>" => "&ObjectIdentifierRef", UNSIZED;
            "": "ObjectIdentifierRef<'_>" => "&ObjectIdentifierRef", UNSIZED;
            "": "ObjectIdentifierRef<'a>" => "&'a ObjectIdentifierRef", UNSIZED;
            "search": "let mut above = *oid;" => "let mut above = oid;", UNSIZED;
            "arcs": "pub struct Arcs<'a>" => "#[derive(Clone)]\npub struct Arcs<'a>",
                "in Rattle a copy may fail, so a caller asks for the arcs again";
            "arcs": "type Item = Arc;"
                => "type Item = Arc;

                        #[inline]
                        fn size_hint(&self) -> (usize, Option<usize>) {
                            crate::arcs::bounds(self.octets, !matches!(self.next, Next::Later))
                        }",
                BOUNDS;
            "db": "pub struct Names<'a>" => "#[derive(Clone)]\npub struct Names<'a>", "as above";
            "db": "type Item = &'a str;"
                => "type Item = &'a str;

                        fn size_hint(&self) -> (usize, Option<usize>) {
                            (0, Some(self.database.entries.len() - self.index))
                        }",
                BOUNDS;
            "db": "oid_links: &'a [u16], name_links: &'a [u16],"
                => "pub(crate) oid_links: &'a [u16],\npub(crate) name_links: &'a [u16],", "a unit test sees them";
            "tables*": "#[derive(Copy, Clone)] pub struct" => "#[derive(Copy, Clone, Debug)]\npub struct", "for users";
            "tables": "#[derive(Copy, Clone)] pub enum" => "#[derive(Copy, Clone, Debug)]\npub enum", "as above";
            "packed": "const fn oid_at" => "pub(crate) const fn oid_at", "a caller by hand lists the rows";
            "packed": "const fn text_at" => "#[allow(unsafe_code)]\npub(crate) const fn text_at", "as above; and as `utf8`";
            "db_sorted": "pub const fn new" => "pub const fn new_unchecked", "no checker rejects a wrong order";
            "db_sorted": "entries: &'a [Entry<'a>]," => "pub(crate) entries: &'a [Entry<'a>],", "a caller by hand lists the entries";
            "digits": "pub(crate) fn utf8" => "#[allow(unsafe_code)]\npub(crate) fn utf8",
                "bytes that are UTF-8 become a text without a check: the crate denies other unsafe code";
            "digits" body: "out[at] = byte;"
                => "if at < out.len() { out[at] = byte; }", "it always holds, and rustc would make a panic";
            "digits" body: "let digits = &mut out[at..end]; digits[0] = tens; digits[1] = ones;"
                => "// This always holds. rustc does not know it, and would make a panic. It stores both digits at once.
                    if at <= end && end <= out.len() {
                        let digits = &mut out[at..end]; digits[0] = tens; digits[1] = ones;
                    }",
                "as above";
            "text" body: "at + write_arc(arc, &mut out[at..at + MAX_ARC_LEN], 0)"
                => "at + write_arc(arc, &mut out[at..][..MAX_ARC_LEN], 0)", "the same part in fewer instructions";
            "fast/lanes": "use core::simd::Simd; use core::simd::prelude::*;" => "", LANES;
            "fast/lanes" body: "let lanes = Simd::<u8, COUNT>::from_slice(octets).simd_lt(Simd::splat(limit));
                        lanes.to_bitmask().count_ones() as usize"
                => "octets.iter().filter(|octet| **octet < limit).count()", LANES;
            "buffer" body: "copy_to(octets, &mut buffer.bytes);"
                => "copy_by_octet(octets, &mut buffer.bytes);",
                "it takes two hundred octets of flash less";
            "buffer": "bytes: [u8; SIZE]," => "pub(crate) bytes: [u8; SIZE],", TABLES;
            "buffer": "used: u8," => "pub(crate) used: u8,", TABLES;
            "buffer": "aligned: [u32; 0]," => "pub(crate) aligned: [u32; 0],", TABLES;
            "buffer": "#[derive(Copy, Clone)]" => "#[derive(Copy, Clone, PartialEq, Eq)]", EQUALITY;
            "buffer": "impl<const SIZE: usize> PartialEq for Buffer<SIZE> {
                            // erase: another body
                            fn eq(&self, other: &Self) -> bool { Self::eq(self, other) }
                        }
                        impl<const SIZE: usize> Eq for Buffer<SIZE> {}"
                => "", EQUALITY;
            "oid": "#[derive(Copy, Clone, Eq, PartialOrd, Hash)]
                        pub struct ObjectIdentifier<const MAX_SIZE: usize>"
                => "#[derive(Copy, Clone, PartialEq, Eq, PartialOrd, Hash)]
                        pub struct ObjectIdentifier<const MAX_SIZE: usize = DEFAULT_CAPACITY>",
                "as above; and a capacity has a default, where a type names none";
            "oid": "impl<const MAX_SIZE: usize> PartialEq for ObjectIdentifier<MAX_SIZE> {
                            // erase: another body
                            fn eq(&self, other: &Self) -> bool { self.ber.eq(&other.ber) }
                        }"
                => "", EQUALITY;
            "oid": "{ ber: Buffer<MAX_SIZE>, }" => "{\n pub(crate) ber: Buffer<MAX_SIZE>,\n }", TABLES;
            "oid": "pub fn try_from_ref" => "pub(crate) fn try_from_ref", "public as `TryFrom`";
            "oid" body: "ObjectIdentifierRef::from_checked(self.as_bytes())"
                => "// SAFETY: the checker proves it of each buffer.
                    #[allow(unsafe_code)]
                    unsafe { core::hint::assert_unchecked(self.ber.len() <= MAX_SIZE) };
                    ObjectIdentifierRef::from_checked(self.as_bytes())",
                "so a caller that compares or prints does not test the length";
            "oid" body: "let parent = self.as_oid_ref().parent()?;"
                => "let parent = ObjectIdentifierRef::from_checked(self.as_bytes()).parent()?;",
                "here the test takes fewer instructions than a length that is in range";
            "oid" body: "Err(_) => unreachable!(\"not the text of an object identifier\")"
                => "Err(error) => panic!(\"{}\", crate::conversions::panic_text(error))",
                "outside of constants, Rust does not check the text before the program runs";
            "oid": "pub const fn new_unwrap" => "#[track_caller]\npub const fn new_unwrap", "it panics at its caller's line";
        },
    },
    Crate {
        from: "crates/const_oid_c/src",
        to: "rust/const-oid-c/src/erased",
        edits: edits! {
            "": "const_oid::"
                => "const_oid::internal_for_const_oid_c::", "the cargo crate has the generated types under this name";
            "": "&ObjectIdentifierRef<'_>" => "&ObjectIdentifierRef", UNSIZED;
            "": "ObjectIdentifierRef<'_>" => "&ObjectIdentifierRef", UNSIZED;
            "": "ObjectIdentifierRef<'a>" => "&'a ObjectIdentifierRef", UNSIZED;
            "texts*": "ObjectIdentifierRef::text_from_bytes"
                => "const_oid::internal_for_const_oid_c::text_from_bytes", FOR_C;
            "lists": "#[repr(C)] #[derive(Clone, Copy)] pub struct Octets<'a> { pub octets: &'a [u8], }
                        impl Contents for Octets<'_> { fn contents(&self) -> &[u8] { self.octets } }"
                => "pub use crate::edge::Octets;",
                "C gives a pointer, which may be null, and a length: `edge.rs` has such a type";
            "": "out: &mut [u8]" => "out: &mut crate::edge::Output<u8>", UNWRITTEN;
            "": "out: &mut [u32]" => "out: &mut crate::edge::Output<u32>", UNWRITTEN;
            "": "range: &mut Range" => "range: &mut core::mem::MaybeUninit<Range>", UNWRITTEN;
            "": "*range = Range { start, end };" => "range.write(Range { start, end });", UNWRITTEN;
            "der": "contents: &mut Octets<'a>" => "contents: &mut core::mem::MaybeUninit<Octets<'a>>", UNWRITTEN;
            "der": "*contents = Octets { octets };" => "contents.write(Octets::of(octets));", UNWRITTEN;
            "der": "oid.write_element(out)" => "crate::outputs::write_element(oid, out)", UNWRITTEN;
            "output": "out[..len].copy_from_slice(bytes);" => "crate::edge::copy(bytes, out);", UNWRITTEN;
            "output": "out[..first.len()].copy_from_slice(first); out[first.len()..len].copy_from_slice(rest);"
                => "crate::edge::copy(first, out); crate::edge::copy(rest, &mut out[first.len()..]);", UNWRITTEN;
            "arcs": "out[index] = arc;" => "out[index].write(arc);", UNWRITTEN;
            "arcs": "out[..len].copy_from_slice(&arcs[..len]);" => "out[..len].copy_from_slice(crate::edge::written(&arcs[..len]));", UNWRITTEN;
            "texts": "oid.encode_text(out)" => "crate::outputs::encode(oid, out)", UNWRITTEN;
            "typed": "outputs::text_below(oid, prefix, out)" => "crate::outputs::text_below(oid, prefix, out)", UNWRITTEN;
            "texts": "let _ = outputs::parse_or_stop(text, out, len);" => "crate::outputs::write_parsed(text, out, len);", UNWRITTEN;
            "texts": "let _ = outputs::parse_below_or_stop(above, text, out, len);"
                => "crate::outputs::write_parsed_below(above, text, out, len);", UNWRITTEN;
            "arcs": "outputs::bytes_from_arcs(arcs, out)" => "crate::outputs::bytes_from_arcs(arcs, out)", UNWRITTEN;
            "errors": "error.encode_text(out)" => "crate::outputs::encode_error(error, out)", UNWRITTEN;
        },
    },
];
