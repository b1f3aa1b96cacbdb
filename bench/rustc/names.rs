//! Lookups in a table of names: scanned, indexed, or sorted; and in a map of std.

use const_oid::ObjectIdentifier;
use const_oid::db::{Database, SortedDatabase};
use std::collections::HashMap;
use std::hash::{BuildHasherDefault, DefaultHasher};

type Map<K, V> = HashMap<K, V, BuildHasherDefault<DefaultHasher>>;

/// The identifier at an index, in the order of arcs: one of 317 neighbours, or one of the 20 of an enterprise.
fn item(row: &str, index: u32) -> ObjectIdentifier {
    match row {
        "enterprises" => ObjectIdentifier::from_arcs([1, 3, 6, 1, 4, 1, index / 20 * 61, 1, index % 20]).unwrap(),
        _ => crate::item(index as usize),
    }
}

/// The name at an index. Those of one slot have the same hash, which ignores the bit in which their bytes differ.
fn name(row: &str, index: u32) -> String {
    match row {
        "long" => format!("id-a-name-of-28-bytes-{index:06}"),
        "one_slot" => (0..17).map(|bit| if index >> bit & 1 == 0 { '[' } else { '{' }).collect(),
        _ => format!("name-{index}"),
    }
}

/// The sum of what a side finds by a row, `times` times in a table of `count` rows, or of how many rows it makes.
pub fn sum(side: &str, row: &str, count: u32, times: usize) -> usize {
    let rows: Vec<_> = (0..count).map(|index| (item(row, index), name(row, index))).collect();
    let entries: Vec<_> = rows.iter().map(|(oid, name)| (oid, &**name)).collect();
    let lent: Vec<_> = entries.iter().map(|(oid, name)| (oid.as_oid_ref(), *name)).collect();
    let scanned = Database::new(&entries);
    let mut memory = vec![0; 6 * entries.len()];
    let indexed = scanned.indexed(&mut memory);
    let sorted = SortedDatabase::try_new(&lent).unwrap();
    let map = || entries.iter().copied().collect::<Map<_, _>>();
    let oids = map();
    let names = entries.iter().map(|(oid, name)| (*name, *oid)).collect::<Map<_, _>>();

    let last = |oid: &ObjectIdentifier| usize::from(*oid.as_bytes().last().unwrap());
    let call: &dyn Fn(&ObjectIdentifier, &str) -> Option<usize> = match (side, row) {
        ("scanned", "by_name" | "long" | "one_slot") => &|_, name| scanned.by_name(name).map(last),
        ("indexed", "by_name" | "long" | "one_slot") => &|_, name| indexed.by_name(name).map(last),
        ("map", "by_name" | "long" | "one_slot") => &|_, name| names.get(name).map(|oid| last(oid)),
        ("indexed", "made") => &|_, _| Some(scanned.indexed(&mut vec![0; 6 * entries.len()]).len()),
        ("map", "made") => &|_, _| Some(map().len()),
        ("scanned", _) => &|oid, _| scanned.by_oid(oid).map(str::len),
        ("indexed", _) => &|oid, _| indexed.by_oid(oid).map(str::len),
        ("map", _) => &|oid, _| oids.get(oid).map(|name| name.len()),
        _ => &|oid, _| sorted.by_oid(oid.as_oid_ref()).map(str::len),
    };
    let key = |oid: &ObjectIdentifier| if row == "missed" { oid.push_arc(1).unwrap() } else { *oid };
    let keys: Vec<_> = crate::scattered(&entries).iter().take(1000).map(|(oid, name)| (key(oid), *name)).collect();
    let times = (0..times).map(|time| &keys[time % keys.len()]);
    times.fold(0_usize, |sum, (oid, name)| sum.wrapping_add(call(oid, name).unwrap_or(usize::MAX)))
}
