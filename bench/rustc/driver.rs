//! driver SIDE ROW SIZE TIMES: one operation of one crate, `TIMES` times. `run` counts its instructions.

use std::fmt::Write;
use std::hash::{DefaultHasher, Hash, Hasher};
use std::hint::black_box;

/// A short, a typical and a long identifier.
const TEXTS: [&str; 3] = [
    "2.5.4.3",
    "1.2.840.113549.1.1.11",
    "1.3.6.1.4.1.311.21.8.4294967295.268435456.2097152.16384.128.127.1.99999.4.7.1000000",
];

/// A value at the start of a cache line, so that those of both sides lie alike.
#[repr(align(64))]
struct InLine<T>(T);

/// A place for a text.
struct Text {
    bytes: [u8; 400],
    len: usize,
}

impl Write for Text {
    fn write_str(&mut self, piece: &str) -> std::fmt::Result {
        let end = self.len + piece.len();
        let free = self.bytes.get_mut(self.len..end).ok_or(std::fmt::Error)?;
        free.copy_from_slice(piece.as_bytes());
        self.len = end;
        Ok(())
    }
}

macro_rules! side {
    ($side:ident) => {
        mod $side {
            use super::*;
            use ::$side::{ObjectIdentifier, ObjectIdentifierRef};

            /// The identifier of a text, another one of the same length, and their parent.
            fn values(text: &str) -> [InLine<ObjectIdentifier>; 3] {
                let oid = ObjectIdentifier::new(text).unwrap();
                let last = oid.arcs().last().unwrap();
                let parent = oid.parent().unwrap();
                let next = parent.push_arc(if last == 1 { 2 } else { last - 1 }).unwrap();
                [InLine(oid), InLine(next), InLine(parent)]
            }

            /// A function of its own for each row, so that no row has its loop's counter on the stack.
            #[inline(never)]
            fn repeat<T>(times: usize, call: impl Fn() -> T) {
                for _ in 0..times {
                    black_box(call());
                }
            }

            fn print(oid: &ObjectIdentifier) -> usize {
                let mut text = Text { bytes: [0; 400], len: 0 };
                write!(text, "{}", black_box(oid)).map_or(0, |()| text.len)
            }

            fn hash(oid: &ObjectIdentifier) -> u64 {
                let mut hasher = DefaultHasher::new();
                black_box(oid).hash(&mut hasher);
                hasher.finish()
            }

            pub fn run(row: &str, size: usize, times: usize) {
                let text = TEXTS[size];
                let wrong = &format!("{}.x", TEXTS[size]);
                let [oid, next, parent] = &values(text);
                let next = &next.0;
                let parent = &parent.0;
                let octets = oid.0.as_bytes();
                let oid = &oid.0;
                let lent = oid.as_oid_ref();
                let other = next.as_oid_ref();
                match row {
                    "new" => repeat(times, || ObjectIdentifier::new(black_box(text)).is_ok()),
                    "new, an error at the end" => repeat(times, || ObjectIdentifier::new(black_box(wrong)).is_ok()),
                    "from_bytes, borrowed" => {
                        repeat(times, || ObjectIdentifierRef::from_bytes(black_box(octets)).is_ok())
                    }
                    "from_bytes, owned" => repeat(times, || ObjectIdentifier::from_bytes(black_box(octets))),
                    "Display" => repeat(times, || print(oid)),
                    "len" => repeat(times, || black_box(oid).len()),
                    "arc(3)" => repeat(times, || black_box(oid).arc(black_box(3))),
                    "arcs, all" => repeat(times, || black_box(oid).arcs().fold(0, |all, arc| all ^ arc)),
                    "arcs, collected" => repeat(times, || black_box(oid).arcs().collect::<Vec<_>>()),
                    "parent" => repeat(times, || black_box(oid).parent()),
                    "push_arc(300)" => repeat(times, || black_box(*parent).push_arc(black_box(300))),
                    "starts_with, the parent" => repeat(times, || black_box(oid).starts_with(*black_box(parent))),
                    "==, the next" => repeat(times, || black_box(oid) == black_box(next)),
                    "==, itself" => repeat(times, || black_box(oid) == black_box(oid)),
                    "cmp, owned, the next" => repeat(times, || black_box(oid).cmp(black_box(next))),
                    "cmp, owned, itself" => repeat(times, || black_box(oid).cmp(black_box(oid))),
                    "hash" => repeat(times, || hash(oid)),
                    "==, borrowed, the next" => repeat(times, || black_box(lent) == black_box(other)),
                    "==, borrowed, itself" => repeat(times, || black_box(lent) == black_box(lent)),
                    "cmp, borrowed, the next" => repeat(times, || black_box(lent).cmp(black_box(other))),
                    "cmp, borrowed, itself" => repeat(times, || black_box(lent).cmp(black_box(lent))),
                    _ => panic!("no row {row}"),
                }
            }
        }
    };
}

side!(ours);
side!(theirs);

fn main() {
    let arguments: Vec<String> = std::env::args().skip(1).collect();
    let [side, row, size, times] = &arguments[..] else { panic!("SIDE ROW SIZE TIMES") };
    let run = if side == "ours" { ours::run } else { theirs::run };
    run(row, size.parse().unwrap(), times.parse().unwrap());
}
