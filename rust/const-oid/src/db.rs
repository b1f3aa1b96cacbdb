//! Names of identifiers: a module of constants for each document that defines some, and the tables [`DB`]
//! and [`SORTED`] of all. [`parse`] reads what people type, and [`display`] writes it. They, [`by_name`], [`by_oid`]
//! and [`nearest`] ask [`DB`] and then [`COMMON`]. Requires the feature `db`.
//!
//! A [`Database`] is a table in any order, for lookups in constants and by name. A [`SortedDatabase`] has the order of
//! arcs: a lookup is a binary search, and it also finds the nearest name, subtrees, and what GetNext of SNMP returns.
//! [`Tables`] and [`nearest_in`] ask tables of yours, alone or beside these.

pub use crate::erased::db::{Database, Names, SortedDatabase};
pub use crate::erased::packed::PackedDatabase;
pub use crate::erased::tables::{Display, Table, Tables, nearest_in};

use crate::arcs::List;
use crate::erased::packed::PackedRow;
use crate::{Buffer, ObjectIdentifier, ObjectIdentifierRef, Result};
use core::fmt;
use core::iter::FusedIterator;

impl FusedIterator for Names<'_> {}

/// `Names(["cn", "commonName"])`: the names that are left.
impl fmt::Debug for Names<'_> {
    fn fmt(&self, f: &mut fmt::Formatter<'_>) -> fmt::Result {
        f.debug_tuple("Names").field(&List(self.clone())).finish()
    }
}

/// The entries of a table.
macro_rules! entries {
    ($table:ident, $oid:ident, $all:ident) => {
        impl<'a> $table<'a> {
            /// All entries, in the order of the table.
            ///
            /// # Examples
            ///
            /// ```
            #[doc = concat!("for (oid, name) in const_oid::db::", stringify!($all), ".entries() {")]
            ///     println!("{oid} {name}");
            /// }
            /// ```
            #[must_use]
            pub const fn entries(&self) -> &'a [(&'a $oid, &'a str)] {
                self.entries
            }

            /// The number of entries.
            #[must_use]
            pub const fn len(&self) -> usize {
                self.entries.len()
            }
        }

        /// Lists the entries.
        impl fmt::Debug for $table<'_> {
            fn fmt(&self, f: &mut fmt::Formatter<'_>) -> fmt::Result {
                f.debug_tuple(stringify!($table)).field(&self.entries).finish()
            }
        }
    };
}

entries!(Database, ObjectIdentifier, DB);

/// Lists the rows.
impl fmt::Debug for PackedDatabase<'_> {
    fn fmt(&self, f: &mut fmt::Formatter<'_>) -> fmt::Result {
        f.debug_list().entries(self.rows.iter().map(|row| (self.oid_at(row), self.text_at(row)))).finish()
    }
}

entries!(SortedDatabase, ObjectIdentifierRef, SORTED);

include!("db/names.rs");
include!("db/common.rs");

/// The identifiers of all modules, each with its name. [`by_name`] and [`parse`] find more names. `id-mod`, `id-alg`
/// and `hashAlgs` have two identifiers: this finds 1.2.840.113549.1.9.16.0 and .3, and 2.16.840.1.101.3.4.2.
///
/// # Examples
///
/// ```
/// assert_eq!(const_oid::db::DB.resolve("1.2.840.10045.2.1"), Ok("id-ecPublicKey"));
/// ```
pub const DB: Database<'static> = Database::new(&ENTRIES).linked(&OID_LINKS, &NAME_LINKS);

/// The entries of [`DB`] in the order of arcs, those of an identifier in the order of [`DB`]. Of a name of several
/// identifiers, its `by_name` returns the first by arcs: of `hashAlgs` 1.3.6.1.4.1.1722.12.2, where [`DB`] has another
/// first. [`SortedDatabase`] has an example.
pub const SORTED: SortedDatabase<'static> = SortedDatabase::new_unchecked(&IN_ORDER);

static IN_ORDER: [(&ObjectIdentifierRef, &str); DB.len()] = in_order(&ENTRIES, &ORDER);

/// The names that people type and [`DB`] lacks, of OpenSSL, MIBs, FIPS, the CA/Browser Forum and Microsoft. A few that
/// [`DB`] has are here for another identifier, such as `DSA`: docs/NAMES.md lists them. [`by_name`] has an example.
pub const COMMON: Database<'static> = Database::new(&COMMON_ENTRIES).linked(&COMMON_OID_LINKS, &COMMON_NAME_LINKS);

/// The entries of [`COMMON`] in the order of arcs. [`SortedDatabase`] has an example.
pub const COMMON_SORTED: SortedDatabase<'static> = SortedDatabase::new_unchecked(&COMMON_IN_ORDER);

/// The rows of [`DB`] without pointers.
pub const PACKED_DB: PackedDatabase<'static> = PackedDatabase::new(&OIDS, &TEXT, &ROWS, &OID_LINKS, &NAME_LINKS);

/// The rows of [`COMMON`] without pointers.
pub const PACKED_COMMON: PackedDatabase<'static> =
    PackedDatabase::new(&COMMON_OIDS, &COMMON_TEXT, &COMMON_ROWS, &COMMON_OID_LINKS, &COMMON_NAME_LINKS);

const fn row(start: u32, len: u16, oid: u16) -> PackedRow {
    PackedRow { start, len, oid }
}

const COMMON_LEN: usize = COMMON_NAMES.len();

static COMMON_ENTRIES: [(&ObjectIdentifier, &str); COMMON_LEN] = common_entries();

static COMMON_IN_ORDER: [(&ObjectIdentifierRef, &str); COMMON_LEN] = in_order(&COMMON_ENTRIES, &COMMON_ORDER);

const fn common_entries() -> [(&'static ObjectIdentifier, &'static str); COMMON_LEN] {
    let mut entries = [(&COMMON_OIDS[0], ""); COMMON_LEN];
    let mut index = 0;
    while index < entries.len() {
        entries[index] = (&COMMON_OIDS[COMMON_ROWS[index].oid as usize], COMMON_NAMES[index]);
        index += 1;
    }
    entries
}

/// Entries in an order.
const fn in_order<const LEN: usize>(
    entries: &[(&'static ObjectIdentifier, &'static str); LEN],
    order: &[u16; LEN],
) -> [(&'static ObjectIdentifierRef, &'static str); LEN] {
    let mut sorted = [(rfc4519::CN.as_oid_ref(), ""); LEN];
    let mut index = 0;
    while index < LEN {
        let (oid, name) = entries[order[index] as usize];
        sorted[index] = (oid.as_oid_ref(), name);
        index += 1;
    }
    sorted
}

/// The identifier of octets, which come after their length and before zeros.
const fn padded([used, bytes @ ..]: [u8; 40]) -> ObjectIdentifier {
    ObjectIdentifier { ber: Buffer { bytes, used, aligned: [] } }
}

/// The tables that the functions here ask.
const TABLES: Tables<'static> = Tables(&[Table::Packed(PACKED_DB), Table::Packed(PACKED_COMMON)]);

/// The identifier with a name, ignoring ASCII case, in [`DB`], or else in [`COMMON`], or `None`.
///
/// # Examples
///
/// ```
/// use const_oid::db::{COMMON, by_name, by_oid};
///
/// let oid = by_name("sha256").unwrap();
/// assert_eq!((oid.to_string().as_str(), by_oid(oid)), ("2.16.840.1.101.3.4.2.1", Some("id-sha256")));
/// assert_eq!(COMMON.by_oid(oid), Some("SHA-256"));
/// ```
#[must_use]
pub const fn by_name(name: &str) -> Option<&'static ObjectIdentifier> {
    TABLES.by_name(name)
}

/// The first name of an identifier in [`DB`], or else in [`COMMON`], or `None`. [`by_name`] has an example.
#[must_use]
pub const fn by_oid(oid: &ObjectIdentifier) -> Option<&'static str> {
    TABLES.by_oid(oid)
}

/// Parses what people type and paste: dotted text, a name, or a name and arcs. [`display`] is the way back.
/// [`Tables::parse`] says what a text may be.
///
/// # Errors
///
/// Those of [`Tables::parse`].
///
/// # Examples
///
/// ```
/// use const_oid::{Error, ObjectIdentifier, db};
///
/// let oid: ObjectIdentifier = db::parse(" IF-MIB::ifDescr.3\n")?;
/// assert_eq!((&*oid.to_string(), &*db::display(&oid).to_string()), ("1.3.6.1.2.1.2.2.1.2.3", "ifDescr.3"));
/// assert_eq!(db::nearest(&oid).unwrap().1, "ifDescr");
/// assert_eq!(db::parse::<39>("no name"), Err(Error::DigitExpected { actual: b'n' }));
/// # Ok::<(), Error>(())
/// ```
pub const fn parse<const MAX_SIZE: usize>(text: &str) -> Result<ObjectIdentifier<MAX_SIZE>> {
    TABLES.parse(text)
}

/// The longest prefix of an identifier in [`DB`] or [`COMMON`], which may be the identifier itself, and its name by
/// [`by_oid`], or `None`. [`parse`] has an example.
#[must_use]
pub fn nearest(oid: &ObjectIdentifierRef) -> Option<(&'static ObjectIdentifierRef, &'static str)> {
    TABLES.nearest(oid)
}

/// The text of an identifier: the name by [`by_oid`] of its longest prefix of three arcs or more that has one, which may
/// be the identifier itself, and the arcs after it, or else dotted text. A name that leads elsewhere, such as a second
/// `hashAlgs`, is none, so [`parse`] reads what is written as the same identifier. It has an example.
#[must_use]
pub fn display(oid: &ObjectIdentifierRef) -> Display<'_> {
    TABLES.display(oid)
}

/// The links of both tables are what [`links_of`] makes.
#[test]
fn links_are_those_of_the_entries() {
    use crate::erased::links::{Key, links_of};
    assert_eq!((OID_LINKS, NAME_LINKS), (links_of(&ENTRIES, Key::Oid), links_of(&ENTRIES, Key::Name)));
    assert_eq!(COMMON_OID_LINKS, links_of(&COMMON_ENTRIES, Key::Oid));
    assert_eq!(COMMON_NAME_LINKS, links_of(&COMMON_ENTRIES, Key::Name));
}

/// A table has links in lent memory that is longer than those before, and where no slot has over a quarter of the
/// entries and two.
#[test]
fn links_are_made_where_they_help() {
    let had = [8; 41];
    let mut memory = [0; 6_000];
    for (names, before, len, made) in [
        ("aAaAefgh", 0, 80, 40),
        ("[{[{[fgh", 0, 80, 0),
        ("abcdefgh", 0, 26, 0),
        ("abcdefgh", 39, 80, 40),
        ("abcdefgh", 40, 80, 40),
        ("abcdefgh", 41, 80, 41),
    ] {
        let entries: [_; 8] = core::array::from_fn(|index| (&rfc4519::CN, &names[index..=index]));
        let table = Database::new(&entries).linked(&[], &had[..before]).indexed(&mut memory[..len]);
        assert_eq!((table.oid_links.len(), table.name_links.len()), (0, made), "{names} {len}");
        assert_eq!(table.name_links.as_ptr() == had.as_ptr(), made == before, "{names} {len}");
    }
    for links in [DB.oid_links, DB.name_links] {
        assert_eq!(links.len(), 2 * DB.len(), "a slot for each entry");
    }
    for count in [100, 101, 255, 256, 257, 1_000, 1_500] {
        for (alike, made) in [(0, 2 * count), (count / 5, 2 * count), (count / 4 + 3, 0)] {
            let entry = |index| if index < alike { ENTRIES[0] } else { ENTRIES[index % ENTRIES.len()] };
            let entries: [_; 1_500] = core::array::from_fn(entry);
            let table = Database::new(&entries[..count]).indexed(&mut memory[..4 * count]);
            assert_eq!([table.oid_links.len(), table.name_links.len()], [made; 2], "{count} entries, {alike} alike");
        }
    }
}
