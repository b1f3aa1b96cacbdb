//! The tables of names as headers of data for C.

use crate::names::{Row, encoding, escaped, lines, rows};

/// What finds entries in a table. Its marks, and what `c_names.h` and `c_common_names.h` have there.
const SEARCHES: &str = include_str!("c_searches.h");
const SEARCH_MARKS: [[&str; 3]; 6] = [
    ["@OF@", "", "common_"],
    ["@ALL@", "CONST_OID_NAMES_COUNT", "CONST_OID_COMMON_NAMES_COUNT"],
    ["@NAME_AT@", "const_oid_names[index]", "const_oid_common_name(index)"],
    ["@NAME_LEN_AT@", "const_oid_name_lens[index]", "const_oid_common_entries[index].name_len"],
    ["@OCTETS_AT@", "const_oid_name_octets[index]", "const_oid_common_octets(index)"],
    ["@LEN_AT@", "const_oid_name_octets[index].len", "const_oid_common_entries[index].len"],
];

fn searches(header: usize) -> String {
    SEARCH_MARKS.iter().fold(SEARCHES.into(), |text: String, marks| text.replace(marks[0], marks[header]))
}

/// A header with marks, filled with the rows of a table. Those of an identifier or of a name stay in the order of the
/// table. After the last entry are an empty name and no octets.
pub fn header(marked: &str, table: &str) -> String {
    let rows = rows(table);
    let mut sorted: Vec<(usize, &Row)> = rows.iter().enumerate().collect();
    sorted.sort_by(|a, b| a.1.arcs.cmp(&b.1.arcs));
    let place = |row| sorted.iter().position(|entry| entry.0 == row).unwrap();
    let encoded = Vec::from_iter(sorted.iter().map(|entry| encoding(&entry.1.arcs)).chain([Vec::new()]));
    let (bytes, octets_at) = literals(encoded.iter().map(|octets| (escaped(octets), octets.len())));
    let names = sorted.iter().map(|entry| entry.1.name).chain([""]);
    let in_order = rows.iter().map(|row| row.name).chain([""]);
    let (texts, names_at) = literals(in_order.map(|name| (name.escape_default().to_string() + "\\0", name.len() + 1)));
    let by_name = rows.iter().enumerate().map(|(row, of)| (hash(of.name.as_bytes(), 32), place(row)));
    let by_octets = encoded.iter().take(rows.len()).enumerate().map(|(index, octets)| (hash(octets, 0), index));
    let constant = |row: &Row| {
        let name = format!("CONST_OID_{}_{}", row.module.to_uppercase(), row.constant);
        format!("#define {name} \"{}\"\n", escaped(&encoding(&row.arcs)))
    };
    let item = |(at, octets): (&usize, &Vec<u8>)| {
        format!("{{const_oid_name_bytes[{}] + {}, {}}},", at / LITERAL, at % LITERAL, octets.len())
    };
    let entry = |(index, name): (usize, &str)| {
        let name_at = names_at[sorted.get(index).map_or(rows.len(), |entry| entry.0)];
        format!("{{{name_at}, {}, {}, {}}},", octets_at[index], name.len(), encoded[index].len())
    };
    let marks: [(&str, String); 13] = [
        ("@SEARCHES@\n", searches(1)),
        ("@COMMON_SEARCHES@\n", searches(2)),
        ("@COUNT@", rows.len().to_string()),
        ("@CONSTANTS@", rows.iter().map(constant).collect()),
        ("@BYTES@", bytes),
        ("@TEXTS@", texts),
        ("@OCTETS@", lines(octets_at.iter().zip(&encoded).map(item))),
        ("@NAMES@", lines(names.clone().map(|name| format!("{name:?},")))),
        ("@NAME_LENS@", lines(names.clone().map(|name| format!("{},", name.len())))),
        ("@ENTRIES@", lines(names.enumerate().map(entry))),
        ("@SLOTS@", slots(rows.len()).to_string()),
        ("@BY_NAME@", by_hash(by_name, rows.len())),
        ("@BY_OCTETS@", by_hash(by_octets, rows.len())),
    ];
    marks.into_iter().fold(marked.into(), |header: String, (mark, text)| header.replace(mark, &text))
}

/// The distance from one literal to the next. Each has at most as many bytes as C guarantees, and a zero.
const LITERAL: usize = 512;

/// Literals of bytes, each with its length, joined to at most 509, and once where they repeat. Also where each is.
fn literals(items: impl Iterator<Item = (String, usize)>) -> (String, Vec<usize>) {
    let (mut literals, mut places, mut end) = (Vec::<String>::new(), Vec::new(), 0);
    for (literal, len) in items.map(|(literal, len)| (format!("\"{literal}\""), len)) {
        if literals.last().is_none_or(|last| last.trim_end_matches(',') != literal) {
            if end % LITERAL + len > 509 {
                end = end.next_multiple_of(LITERAL);
                literals.last_mut().unwrap().push(',');
            }
            literals.push(literal);
            end += len;
        }
        places.push(end - len);
    }
    (lines(literals.into_iter()), places)
}

/// How many slots a table has for so many entries.
fn slots(count: usize) -> usize {
    count * 11 / 8
}

/// The indexes of entries by their hashes: each in the first slot that is free from its own on. The last one is free.
fn by_hash(hashes: impl Iterator<Item = (u32, usize)>, count: usize) -> String {
    let mut by_hash = vec![count; slots(count) + 1];
    for (hash, index) in hashes {
        let own = ((hash >> 16) as usize * slots(count)) >> 16;
        let slot = (own..).find(|slot| by_hash[*slot] == count).unwrap();
        by_hash[slot] = index;
        by_hash.resize(by_hash.len().max(slot + 2), count);
    }
    lines(by_hash.iter().map(|index| format!("{index},")))
}

/// The hash that `c_names.h` has: of words of four bytes, of which the last may overlap. In each byte `bits` are set.
fn hash(bytes: &[u8], bits: u8) -> u32 {
    let last = bytes.len().saturating_sub(4);
    let starts = (0..last).step_by(4).chain([last]);
    starts.fold(0_u32, |hash, start| {
        let octets = std::array::from_fn(|index| bytes.get(start + index).copied().unwrap_or(0) | bits);
        (hash ^ u32::from_le_bytes(octets)).wrapping_mul(2_654_435_769)
    })
}
