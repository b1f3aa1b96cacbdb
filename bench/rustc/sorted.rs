//! sorted SIDE ROW COUNT TIMES: a function of the library for C, or that of the cargo crate's SortedDatabase, TIMES
//! times over COUNT identifiers of 8 arcs in lexicographic order. The row `sort` sorts them, in C by qsort. SIDE is c
//! or crate, or one of those of `names`. `run` counts its instructions, the loop included. All sides of a row print the
//! same sum of what they found.

mod names;

use const_oid::db::SortedDatabase;
use const_oid::{ByArcs, ObjectIdentifier, ObjectIdentifierRef};
use std::hint::black_box;

#[repr(C)]
struct Status {
    code: u32,
    detail: u32,
    len: usize,
}

#[repr(C)]
#[derive(Clone, Copy)]
struct Octets {
    octets: *const u8,
    len: usize,
}

type Search = unsafe extern "C" fn(*const u8, usize, *const Octets, usize) -> Status;
type Order = unsafe extern "C" fn(*const Octets, *const Octets) -> i32;

unsafe extern "C" {
    fn const_oid_find(octets: *const u8, len: usize, items: *const Octets, count: usize) -> Status;
    fn const_oid_next(octets: *const u8, len: usize, items: *const Octets, count: usize) -> Status;
    fn const_oid_nearest(octets: *const u8, len: usize, items: *const Octets, count: usize) -> Status;
    fn const_oid_subtree_range(
        octets: *const u8,
        len: usize,
        items: *const Octets,
        count: usize,
        range: *mut [usize; 2],
    ) -> Status;
    fn const_oid_check_sorted(items: *const Octets, count: usize) -> Status;
    fn const_oid_by_arcs(left: *const Octets, right: *const Octets) -> i32;
    fn qsort(items: *mut Octets, count: usize, size: usize, order: Order);
}

/// The identifier at an index: 1.3.6.1.4.1 and two arcs, each of one or two octets.
fn item(index: usize) -> ObjectIdentifier {
    ObjectIdentifier::from_arcs([1, 3, 6, 1, 4, 1, index as u32 / 317, index as u32 % 317]).unwrap()
}

/// The key of a round: an item, or a child or the parent of one. They are scattered over the items.
fn key(row: &str, oid: &ObjectIdentifier) -> ObjectIdentifier {
    match row {
        "nearest" => oid.push_arc(1).unwrap(),
        "subtree" => oid.parent().unwrap(),
        _ => *oid,
    }
}

/// Items in another order. 7919 is a prime that does not divide their number, so each is there once.
fn scattered<T: Copy>(items: &[T]) -> Vec<T> {
    (0..items.len()).map(|index| items[index * 7919 % items.len()]).collect()
}

/// The sum of each last octet by its index, or the greatest number for what is not found.
fn sum<'a>(items: impl Iterator<Item = &'a [u8]>) -> usize {
    items.enumerate().map(|(index, octets)| index * usize::from(*octets.last().unwrap())).sum()
}

/// The index that a search in C returns, or the greatest number if it finds nothing.
fn search(call: Search, key: &[u8], items: &[Octets]) -> usize {
    // SAFETY: the pointers and lengths are those of slices.
    let status = unsafe { call(key.as_ptr(), key.len(), items.as_ptr(), items.len()) };
    if status.code == 0 { status.len } else { usize::MAX }
}

fn subtree(key: &[u8], items: &[Octets]) -> usize {
    let mut range = [0, 0];
    // SAFETY: as above.
    unsafe { const_oid_subtree_range(key.as_ptr(), key.len(), items.as_ptr(), items.len(), &mut range) };
    range[1] - range[0]
}

fn sort(items: &[Octets]) -> usize {
    let mut items = scattered(items);
    // SAFETY: as above.
    unsafe { qsort(items.as_mut_ptr(), items.len(), size_of::<Octets>(), const_oid_by_arcs) };
    // SAFETY: as above.
    sum(items.iter().map(|item| unsafe { std::slice::from_raw_parts(item.octets, item.len) }))
}

/// The call of a row in C.
fn in_c(row: &str) -> fn(&[u8], &[Octets]) -> usize {
    match row {
        "find" => |key, items| search(const_oid_find, key, items),
        "next" => |key, items| search(const_oid_next, key, items),
        "nearest" => |key, items| search(const_oid_nearest, key, items),
        "subtree" => subtree,
        // SAFETY: as above.
        "check" => |_, items| unsafe { const_oid_check_sorted(items.as_ptr(), items.len()) }.code as usize,
        _ => |_, items| sort(items),
    }
}

/// The call of a row in the crate. The length of a name is the index of its entry.
fn in_crate(row: &str) -> fn(&ObjectIdentifierRef, &SortedDatabase) -> usize {
    match row {
        "find" => |key, sorted| sorted.by_oid(key).map_or(usize::MAX, str::len),
        "next" => |key, sorted| sorted.next_after(key).map_or(usize::MAX, |entry| entry.1.len()),
        "nearest" => |key, sorted| sorted.nearest(key).map_or(usize::MAX, |entry| entry.1.len()),
        "subtree" => |key, sorted| sorted.subtree(key).len(),
        "check" => |_, sorted| usize::from(SortedDatabase::try_new(sorted.entries()).is_none()),
        _ => |_, sorted| {
            let mut oids: Vec<_> = scattered(sorted.entries()).iter().map(|entry| entry.0).collect();
            oids.sort_by_key(|oid| ByArcs(*oid));
            sum(oids.iter().map(|oid| oid.as_bytes()))
        },
    }
}

fn main() {
    let words: Vec<String> = std::env::args().skip(1).collect();
    let [side, row, count, times] = &words[..] else { panic!("sorted SIDE ROW COUNT TIMES") };
    if !["c", "crate"].contains(&&**side) {
        return println!("{}", names::sum(side, row, count.parse().unwrap(), times.parse().unwrap()));
    }
    let oids: Vec<ObjectIdentifier> = (0..count.parse().unwrap()).map(item).collect();
    let keys: Vec<ObjectIdentifier> = scattered(&oids).iter().take(1000).map(|oid| key(row, oid)).collect();
    let times = (0..times.parse().unwrap()).map(|time: usize| &keys[time % keys.len()]);
    let lent: Vec<&ObjectIdentifierRef> = oids.iter().map(|oid| oid.as_oid_ref()).collect();
    let found = if side == "c" {
        let item = |oid: &&ObjectIdentifierRef| Octets { octets: oid.as_bytes().as_ptr(), len: oid.as_bytes().len() };
        let call = in_c(row);
        let items = lent.iter().map(item).collect::<Vec<Octets>>();
        times.fold(0, |sum: usize, key| sum.wrapping_add(call(key.as_bytes(), black_box(&items))))
    } else {
        let names = " ".repeat(oids.len());
        let entries: Vec<_> = lent.iter().enumerate().map(|(index, oid)| (*oid, &names[..index])).collect();
        let call = in_crate(row);
        let sorted = SortedDatabase::try_new(&entries).unwrap();
        times.fold(0, |sum: usize, key| sum.wrapping_add(call(key, black_box(&sorted))))
    };
    println!("{found}");
}
