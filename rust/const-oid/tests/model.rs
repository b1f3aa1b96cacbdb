//! Each form of each function of identifiers beside a model, which is written from docs/RULES.md alone: all octets of
//! up to three, edges of up to eight, all texts of up to eight bytes over a few, arrays of arcs, and long ones.

use const_oid::{Arc, Arcs, ByArcs, Error, ObjectIdentifier, ObjectIdentifierRef};
use std::borrow::Borrow;
use std::cmp::Ordering;
use std::collections::{BTreeMap, BTreeSet, HashMap};
use std::fmt::{Debug, Display, Write};
use std::hash::{Hash, Hasher};
use std::iter::{FusedIterator, repeat};
use std::ops::Bound::{Excluded, Unbounded};
use std::panic::{AssertUnwindSafe, catch_unwind};
use std::rc::Rc;
use std::thread;

/// Calls a function for each capacity.
macro_rules! each_capacity {
    ($call:ident $arguments:tt) => {
        each_capacity! { $call $arguments 0 1 2 3 4 5 6 39 64 128 255 300 1_000 }
    };
    ($call:ident $arguments:tt $($capacity:literal)*) => {
        $($call::<$capacity> $arguments;)*
    };
}

/// The rules of docs/RULES.md, over vectors.
mod model {
    use super::{Arc, Error};

    const MAX_ARC: u64 = 4_294_967_295;
    const MAX_FIRST: u64 = 4_294_967_375;

    pub type Answer = Result<Vec<Arc>, Error>;

    pub fn capacity(max_size: usize) -> usize {
        max_size.min(255)
    }

    fn number(base: u64, digits: impl Iterator<Item = u8>) -> u64 {
        digits.fold(0, |number, digit| number.saturating_mul(base).saturating_add(digit.into()))
    }

    /// Section 4, of octets whose number the capacity does not limit.
    pub fn of_octets(octets: &[u8]) -> Answer {
        if octets.is_empty() {
            return Err(Error::Empty);
        }
        let mut numbers = Vec::with_capacity(octets.len());
        for part in octets.split_inclusive(|octet| *octet < 0x80) {
            let limit = if numbers.is_empty() { MAX_FIRST } else { MAX_ARC };
            let number = number(128, part.iter().map(|octet| octet % 128));
            if part[0] == 0x80 {
                return Err(Error::Base128);
            } else if number > limit {
                return Err(Error::ArcTooBig);
            } else if part[part.len() - 1] >= 0x80 {
                return Err(Error::Base128);
            }
            numbers.push(number);
        }
        let root = match numbers[0] {
            below @ ..80 => [below / 40, below % 40],
            number => [2, number - 80],
        };
        let arcs = root.into_iter().chain(numbers.into_iter().skip(1));
        Ok(arcs.map(|arc| arc as Arc).collect())
    }

    /// Section 4: tag and length octets of an element.
    pub fn head(len: usize) -> Vec<u8> {
        if len < 128 {
            return vec![6, len as u8];
        }
        let len = len as u128;
        let count = (1..).find(|count| len < 256_u128.pow(*count)).unwrap();
        let digits = (0..count).rev().map(|place| (len / 256_u128.pow(place) % 256) as u8);
        [6, 128 + count as u8].into_iter().chain(digits).collect()
    }

    /// Section 4: the contents octets of the element that octets begin with, and the octets after it.
    pub fn of_element(der: &[u8]) -> Option<(&[u8], &[u8])> {
        (0..=der.len()).find_map(|len| der.strip_prefix(&head(len)[..])?.split_at_checked(len))
    }

    /// Section 2: the octets of arcs.
    pub fn encoding(arcs: &[Arc]) -> Vec<u8> {
        let mut octets = Vec::with_capacity(5 * arcs.len());
        let first = 40 * u64::from(arcs[0]) + u64::from(arcs[1]);
        for number in [first].into_iter().chain(arcs[2..].iter().map(|arc| u64::from(*arc))) {
            for place in (0..width(number)).rev() {
                let digit = (number / 128_u64.pow(place) % 128) as u8;
                octets.push(if place > 0 { digit + 128 } else { digit });
            }
        }
        octets
    }

    /// The number of octets of a subidentifier.
    fn width(number: u64) -> u32 {
        (1..).find(|width| number < 128_u64.pow(*width)).unwrap()
    }

    /// The error of the last of these arcs, if those before have none (cases 5 and 6 of section 5 of RULES). Its octets
    /// are taken of the room that those before leave.
    fn arc_fault(arcs: &[Arc], room: &mut usize) -> Option<Error> {
        let (arc, number) = match arcs {
            [.., first, arc] if arcs.len() == 2 => (*arc, 40 * u64::from(*first) + u64::from(*arc)),
            [.., arc] => (*arc, u64::from(*arc)),
            [] => return None,
        };
        let width = if arcs.len() < 2 { 0 } else { width(number) as usize };
        match arcs {
            [first] if *first > 2 => Some(Error::ArcInvalid { arc }),
            [0 | 1, second] if *second > 39 => Some(Error::ArcInvalid { arc }),
            _ if width > *room => Some(Error::Length),
            _ => {
                *room -= width;
                None
            }
        }
    }

    /// Section 6.
    pub fn of_arcs(arcs: &[Arc], capacity: usize) -> Answer {
        let mut room = capacity;
        for count in 1..=arcs.len() {
            arc_fault(&arcs[..count], &mut room).map_or(Ok(()), Err)?;
        }
        if arcs.len() < 2 { Err(Error::Empty) } else { Ok(arcs.to_vec()) }
    }

    /// Section 5.
    pub fn of_text(text: &[u8], capacity: usize) -> Answer {
        of_components(text, capacity, &mut 0)
    }

    /// The index of the first wrong component.
    pub fn wrong_component(text: &[u8]) -> Option<usize> {
        let mut index = 0;
        of_components(text, usize::MAX, &mut index).err().map(|_| index)
    }

    /// Stops at the index of a wrong component.
    fn of_components(text: &[u8], capacity: usize, stop: &mut usize) -> Answer {
        let mut arcs = Vec::new();
        let mut room = capacity;
        let mut start = 0;
        for (index, component) in text.split(|byte| *byte == b'.').enumerate() {
            *stop = index;
            let rest = &text[start + component.len()..];
            start += component.len() + 1;
            let digits = component.iter().take_while(|byte| byte.is_ascii_digit());
            let number = number(10, digits.map(|digit| digit - b'0'));
            if number > MAX_ARC {
                return Err(Error::ArcTooBig);
            }
            if let Some(actual) = component.iter().copied().find(|byte| !byte.is_ascii_digit()) {
                return Err(Error::DigitExpected { actual });
            }
            if component.is_empty() {
                return Err(match index {
                    0 if rest.is_empty() => Error::Empty,
                    0 => Error::DigitExpected { actual: b'.' },
                    _ if rest.is_empty() => Error::TrailingDot,
                    _ => Error::RepeatedDot,
                });
            }
            if rest == b"." {
                return Err(Error::TrailingDot);
            }
            arcs.push(number as Arc);
            arc_fault(&arcs, &mut room).map_or(Ok(()), Err)?;
        }
        if arcs.len() < 2 { Err(Error::Empty) } else { Ok(arcs) }
    }

    /// Section 8.
    pub fn text(arcs: &[Arc]) -> String {
        let decimals: Vec<String> = arcs.iter().map(Arc::to_string).collect();
        decimals.join(".")
    }
}

/// What a hasher is fed, or a formatter writes, of each call.
struct Calls(Vec<Vec<u8>>);

impl Hasher for Calls {
    fn write(&mut self, bytes: &[u8]) {
        self.0.push(bytes.into());
    }

    fn finish(&self) -> u64 {
        0
    }
}

impl Write for Calls {
    fn write_str(&mut self, text: &str) -> std::fmt::Result {
        self.0.push(text.into());
        Ok(())
    }
}

fn fed(value: &(impl Hash + ?Sized)) -> Vec<u8> {
    let mut calls = Calls(Vec::new());
    value.hash(&mut calls);
    calls.0.concat()
}

/// The functions that read octets, at a capacity.
fn read_octets<const N: usize>(octets: &[u8], answer: &model::Answer) {
    check_read(ObjectIdentifier::<N>::from_bytes_sized(octets), octets, answer);
}

/// What is read of octets, at a capacity.
fn check_read<const N: usize>(owned: Result<ObjectIdentifier<N>, Error>, octets: &[u8], answer: &model::Answer) {
    let fits = octets.len() <= model::capacity(N);
    match (answer, owned) {
        (Ok(_), Ok(oid)) => assert!(fits && oid.as_bytes() == octets, "{octets:02X?}, {N}"),
        (Ok(_), Err(error)) => assert!(!fits && error == Error::Length, "{octets:02X?}, {N}"),
        (Err(fault), owned) => assert_eq!(owned, Err(*fault), "{octets:02X?}, {N}"),
    }
}

/// What is read of octets as an element, and where it lies.
fn check_element(der: &[u8]) {
    let borrowed = ObjectIdentifierRef::read_element(der);
    let owned = ObjectIdentifier::read_element(der);
    let Some((contents, after)) = model::of_element(der) else {
        return assert_eq!((borrowed, owned), (None, None), "{der:02X?}");
    };
    let (Some((oid, rest)), Some((owned, left))) = (borrowed, owned) else { panic!("{der:02X?}") };
    let (sized, last) = ObjectIdentifier::<255>::read_element_sized(der).unwrap();
    assert_eq!([rest, left, last].map(<[u8]>::as_ptr_range), [after; 3].map(<[u8]>::as_ptr_range));
    let answer = model::of_octets(contents);
    check_read(owned, contents, &answer);
    check_read(sized, contents, &answer);
    assert_eq!(oid.map(|oid| oid.as_bytes().as_ptr_range()), answer.map(|_| contents.as_ptr_range()), "{der:02X?}");
}

/// The functions that read octets.
fn check_octets(octets: &[u8]) {
    let answer = model::of_octets(octets);
    let borrowed = ObjectIdentifierRef::from_bytes(octets);
    let place = answer.as_ref().map(|_| octets.as_ptr_range()).map_err(|fault| *fault);
    assert_eq!(borrowed.map(|oid| oid.as_bytes().as_ptr_range()), place, "{octets:02X?}");
    assert_eq!(borrowed, octets.try_into());
    let usual = ObjectIdentifier::from_bytes_sized(octets);
    assert_eq!(ObjectIdentifier::from_bytes(octets), usual);
    assert_eq!(ObjectIdentifier::try_from(octets), usual);
    each_capacity!(read_octets(octets, &answer));
    #[cfg(feature = "internal-for-const-oid-c")]
    {
        use const_oid::internal_for_const_oid_c::outputs::arcs_from_bytes;
        let mut out = vec![0xA5; octets.len() + 1];
        let mut read = |start: usize| arcs_from_bytes(octets, &mut out[start..]);
        assert_eq!(read(1), None, "{octets:02X?}");
        let len = read(0).unwrap();
        assert_eq!(len.map(|len| out[..len].to_vec()), answer, "{octets:02X?}");
    }
    if let (Ok(arcs), Ok(oid)) = (answer, borrowed) {
        assert!(oid.arcs().eq(arcs.iter().copied()), "{octets:02X?}");
        assert_eq!(model::encoding(&arcs), octets);
    }
}

/// A function that writes octets of any length into an output of `size` octets. The result is at its start, and the
/// rest is kept.
fn check_written(
    row: impl Debug,
    size: usize,
    answer: &model::Answer,
    write: impl for<'o> FnOnce(&'o mut [u8]) -> Result<&'o ObjectIdentifierRef, Error>,
) {
    let mut out = vec![0xA5; size];
    let start = out.as_ptr();
    let octets = answer.as_ref().map(|arcs| model::encoding(arcs)).map_err(|fault| *fault);
    let written = write(&mut out).map(|oid| (oid.as_bytes().as_ptr(), oid.as_bytes().to_vec()));
    assert_eq!(written, octets.clone().map(|octets| (start, octets)), "{row:?}, {size}");
    let mut expected = octets.unwrap_or_default();
    expected.resize(size, 0xA5);
    assert_eq!(out, expected, "{row:?}, {size}");
}

/// The functions that write the octets of a text into an output of `size` octets. Returns the answer.
fn write_text(text: &str, size: usize) -> model::Answer {
    let answer = model::of_text(text.as_bytes(), size);
    check_written(text, size, &answer, |out| ObjectIdentifierRef::new_in(text, out));
    check_written(text, size, &answer, |out| ObjectIdentifierRef::from_ascii_in(text.as_bytes(), out));
    #[cfg(feature = "internal-for-const-oid-c")]
    if let (39, Ok(_)) = (size, &answer) {
        use const_oid::internal_for_const_oid_c::outputs::{fault_at_stop, from_ascii_in_39 as parse};
        check_written(text, size, &answer, |out| {
            parse(text.as_bytes(), out.try_into().unwrap()).map_err(|stop| fault_at_stop(text.as_bytes(), stop).0)
        });
    }
    answer
}

/// The function that writes the octets of arcs into an output of `size` octets.
fn write_arcs(arcs: &[Arc], size: usize) {
    check_written(arcs, size, &model::of_arcs(arcs, size), |out| ObjectIdentifierRef::from_arcs_in(arcs, out));
}

/// The functions that parse text, at a capacity.
fn read_text<const N: usize>(text: &str) {
    let written = write_text(text, N);
    let answer = if N > 255 { model::of_text(text.as_bytes(), 255) } else { written };
    let owned = ObjectIdentifier::<N>::new_sized(text);
    assert_eq!(ObjectIdentifier::from_ascii(text.as_bytes()), owned, "{text}, {N}");
    let octets = owned.map(|oid| oid.as_bytes().to_vec());
    assert_eq!(octets, answer.map(|arcs| model::encoding(&arcs)), "{text}, {N}");
}

/// The functions that parse text.
fn check_text(text: &str) {
    let usual = ObjectIdentifier::new_sized(text);
    assert_eq!(ObjectIdentifier::new(text), usual, "{text}");
    assert_eq!(text.parse(), usual, "{text}");
    let wrong = ObjectIdentifierRef::wrong_component(text.as_bytes());
    assert_eq!(wrong, model::wrong_component(text.as_bytes()), "{text}");
    #[cfg(feature = "internal-for-const-oid-c")]
    {
        use const_oid::internal_for_const_oid_c::outputs::{fault_at_stop, parse_or_stop};
        let stop = parse_or_stop(text.as_bytes(), &mut [], usize::MAX).err();
        assert_eq!(stop.map(|stop| fault_at_stop(text.as_bytes(), stop).1), wrong, "{text}");
    }
    read_text::<39>(text);
}

/// The functions that take arcs, at a capacity.
fn read_arcs<const N: usize>(arcs: &[Arc]) {
    write_arcs(arcs, N);
    let answer = model::of_arcs(arcs, model::capacity(N));
    let held = Rc::new(());
    let given = || arcs.iter().copied().zip(repeat(held.clone())).map(|(arc, _)| arc);
    let owned = ObjectIdentifier::<N>::from_arcs_sized(given());
    let octets = owned.map(|oid| oid.as_bytes().to_vec());
    assert_eq!(octets, answer.map(|arcs| model::encoding(&arcs)), "{arcs:?}, {N}");
    if N == 39 {
        let usual = ObjectIdentifier::from_arcs(given());
        assert_eq!(usual.map(|oid| oid.as_bytes().to_vec()), octets);
    }
    assert_eq!(Rc::strong_count(&held), 1, "an iterator of {arcs:?} is not dropped");
}

/// The functions that both forms of a valid identifier have.
macro_rules! check_values {
    ($oid:expr, $octets:ident, $arcs:ident, $name:literal) => {
        let slice: &[u8] = $oid.as_ref();
        assert_eq!((slice, $oid.as_bytes(), $oid.len()), ($octets, $octets, $arcs.len()));
        assert!($oid.arcs().eq($arcs.iter().copied()));
        for index in indices($arcs.len()) {
            assert_eq!($oid.arc(index), $arcs.get(index).copied());
        }
        let text = model::text($arcs);
        let mut writes = Calls(Vec::new());
        let is_printed = write!(writes, "{:.0}", $oid).is_ok();
        assert!(is_printed && (writes.0.len() == 1 || $octets.len() > 40), "{text}: {:?}", writes.0);
        check_text_of($oid, &text, $name);
        check_encoded_text(&text, $oid.text_len(), |out| $oid.encode_text(out), |out| $oid.encode_str(out));
        let element = [&model::head($octets.len()), $octets].concat();
        check_encoded(&element, $oid.element_len(), |out| $oid.write_element(out));
        assert_eq!((fed($oid), fed(ByArcs::of($oid))), (fed($octets), fed($octets)));
        let (_, parent) = $arcs.split_last().unwrap();
        let parent = (parent.len() >= 2).then(|| model::encoding(parent));
        assert_eq!($oid.parent().map(|oid| oid.as_bytes().to_vec()), parent);
    };
}

/// The functions of a valid identifier, owned.
fn check_owned<const N: usize>(octets: &[u8], arcs: &[Arc]) {
    let borrowed = ObjectIdentifierRef::from_bytes(octets).unwrap();
    let copied = ObjectIdentifier::<N>::try_from(borrowed);
    assert_eq!(copied, ObjectIdentifier::from_bytes_sized(octets));
    let Ok(oid) = copied else { return };
    let forms: [&ObjectIdentifierRef; 5] = [&oid, oid.borrow(), oid.as_ref(), (&oid).into(), oid.as_oid_ref()];
    for form in forms {
        assert_eq!(form.as_bytes().as_ptr_range(), oid.as_bytes().as_ptr_range());
        assert!(*form == oid && form == borrowed);
    }
    check_values!(&oid, octets, arcs, "ObjectIdentifier");
    for arc in [0, 127, 128, 16_384, Arc::MAX] {
        let child = model::encoding(&[arcs, &[arc]].concat());
        let pushed = oid.push_arc(arc).map(|oid| oid.as_bytes().to_vec());
        let fits = child.len() <= model::capacity(N);
        assert_eq!(pushed, if fits { Ok(child) } else { Err(Error::Length) });
    }
}

/// The functions of an identifier, borrowed, if octets are valid.
fn check_borrowed(octets: &[u8]) {
    let Ok(arcs) = &model::of_octets(octets) else { return };
    let oid = ObjectIdentifierRef::from_bytes(octets).unwrap();
    check_values!(oid, octets, arcs, "ObjectIdentifierRef");
    check_left(oid.arcs(), octets);
    check_iterator(oid.arcs(), arcs);
    assert!(oid.parent().is_none_or(|parent| parent.as_bytes().as_ptr() == octets.as_ptr()), "{octets:02X?}");
    each_capacity!(check_owned(octets, arcs));
}

/// Asserts that each expression has the same value for an iterator and for that of a list.
macro_rules! assert_same {
    ($given:ident, $list:ident, $it:ident: $($answer:expr;)*) => {
        $(let of_list = { let mut $it = $list.iter().copied(); $answer };
        assert_eq!({ let mut $it = $given.clone(); $answer }, of_list, "{}", stringify!($answer));)*
    };
}

/// The methods of an iterator over these items, after it gave some of them, all, or `None`.
fn check_iterator<T: Copy + Debug + Ord>(items: impl FusedIterator<Item = T> + Clone + Debug, all: &[T]) {
    for taken in [0, 1, 2, 3, all.len(), all.len() + 1] {
        let mut given = items.clone();
        let rest = &all[taken.min(all.len())..];
        (0..taken).for_each(|index| assert_eq!(given.next(), all.get(index).copied()));
        let (low, high) = given.size_hint();
        assert!(low <= rest.len() && high >= Some(rest.len()), "{low} to {high:?} of {rest:?}");
        assert!(taken <= all.len() || high == Some(0), "{high:?}");
        assert!(format!("{given:?}").ends_with(&format!("s({rest:?})")), "{given:?}");
        [0, 1, 2, rest.len() / 2, rest.len()].into_iter().for_each(|count| check_methods(&given, rest, count));
    }
}

/// The methods that an iterator can override. Adapters have types that are made in core alone.
#[allow(unused_mut)]
fn check_methods<T: Copy + Debug + Ord>(given: &(impl Iterator<Item = T> + Clone), rest: &[T], count: usize) {
    let is_wanted = |item| Some(&item) == rest.get(count);
    let other = || rest.iter().copied().skip(count);
    assert_same!(given, rest, it:
        it.count(); it.last(); it.max(); it.min(); it.max_by(T::cmp); it.min_by(T::cmp); it.max_by_key(|item| *item);
        it.min_by_key(|item| *item); it.is_sorted(); it.is_sorted_by(T::le); it.is_sorted_by_key(|item| item);
        it.reduce(|first, _| first); it.reduce(|_, last| last); it.cmp(other()); it.partial_cmp(other());
        it.partition::<Vec<_>, _>(|item| Some(item) < rest.get(count)); it.eq(other()); it.ne(other());
        it.eq(other().chain(other())); it.lt(other()); it.le(other()); it.gt(other()); it.ge(other());
        it.fold((0, None), |(sum, _), item| (sum + 1, Some(item)));
        { let mut items = Vec::new(); it.for_each(|item| items.push(item)); items };
        (it.nth(count), it.collect::<Vec<_>>()); (it.by_ref().take(count).count(), it.collect::<Vec<_>>());
        (it.all(|item| !is_wanted(item)), it.collect::<Vec<_>>()); (it.any(is_wanted), it.collect::<Vec<_>>());
        (it.find(|item| is_wanted(*item)), it.collect::<Vec<_>>()); (it.position(is_wanted), it.collect::<Vec<_>>());
        (it.find_map(|item| is_wanted(item).then_some((count, item))), it.collect::<Vec<_>>());
        (it.try_fold(0, |sum, item| (!is_wanted(item)).then_some(sum + 1)), it.collect::<Vec<_>>());
        (it.try_for_each(|item| (!is_wanted(item)).then_some(())), it.collect::<Vec<_>>());
    );
}

/// How many arcs are left, at each of them: at least a fifth of the octets that are left, or of those before the last
/// eight and what ends in these, and at most the octets, besides the second arc, which the first octets hold, too.
fn check_left(mut arcs: Arcs<'_>, octets: &[u8]) {
    let ends = octets.iter().enumerate().filter(|(_, octet)| **octet < 0x80).map(|(index, _)| index + 1);
    let firsts = [(octets.len(), 1), (octets.len() - ends.clone().next().unwrap(), 1)];
    for (left, held) in firsts.into_iter().chain(ends.map(|end| (octets.len() - end, 0))) {
        let last = octets[octets.len() - left..].last_chunk::<8>();
        let ended = last.map(|last| (left - 8) / 5 + last.iter().filter(|octet| **octet < 0x80).count());
        let least = ended.unwrap_or(left.div_ceil(5)) + held;
        assert_eq!(arcs.size_hint(), (least, Some(left + held)), "{octets:02X?}");
        assert!(least <= arcs.clone().count(), "{octets:02X?}");
        arcs.next();
    }
    assert_eq!((arcs.next(), arcs.size_hint()), (None, (0, Some(0))));
}

/// Indices at the edges of a list of this length, and far past it.
fn indices(len: usize) -> impl Iterator<Item = usize> {
    let near = [0, 1, 2, 3, len / 2, len - 1, len, len + 1];
    // Past 32 bits, where an index has more.
    let far = [1 << 32, (1 << 32) + 1].map(|index: u64| usize::try_from(index).unwrap_or(usize::MAX));
    near.into_iter().chain(far).chain([usize::MAX])
}

/// Display and Debug, whatever the options.
fn check_text_of(oid: &(impl Display + Debug + ?Sized), text: &str, name: &str) {
    let wide = text.len() + 30;
    let debug = format!("{name}({text})");
    assert_eq!([oid.to_string(), format!("{oid:>wide$}"), format!("{oid:*>+#0wide$.0}")], [text; 3]);
    let printed = [format!("{oid:?}"), format!("{oid:#?}"), format!("{oid:>wide$?}"), format!("{oid:*>+#0wide$.3x?}")];
    assert_eq!(printed, [&*debug; 4]);
}

/// What is written into outputs near its length: the result is at the start, and the rest is kept.
fn check_encoded(result: &[u8], len: usize, encode: impl Fn(&mut [u8]) -> Option<usize>) {
    assert_eq!(len, result.len());
    for room in [0, 1, len / 2, len - 1, len, len + 1, 4 * len, 4 * len + 300] {
        let expected = if room < len { &[] } else { result };
        let mut out = [0xEE].repeat(room);
        assert_eq!(encode(&mut out), (room >= len).then_some(len), "{}, {room}", result.escape_ascii());
        let written = [expected, &[0xEE].repeat(room - expected.len())].concat();
        assert_eq!(out, written, "{}, {room}", result.escape_ascii());
    }
}

/// A text that is written and borrowed.
fn check_encoded_text(
    text: &str,
    len: usize,
    encode_text: impl Fn(&mut [u8]) -> Option<usize>,
    encode_str: impl for<'o> Fn(&'o mut [u8]) -> Option<&'o str>,
) {
    check_encoded(text.as_bytes(), len, encode_text);
    check_encoded(text.as_bytes(), len, |out| {
        let start = out.as_ptr();
        let borrowed = encode_str(out)?;
        assert_eq!(borrowed.as_ptr(), start, "{text}");
        Some(borrowed.len())
    });
}

/// Each error, with numbers of each length.
#[test]
fn writes_errors() {
    use Error::{ArcInvalid, ArcTooBig, Base128, DigitExpected, Empty, Length, Overflow, RepeatedDot, TrailingDot};
    let plain = [ArcTooBig, Base128, Empty, Length, Overflow, RepeatedDot, TrailingDot];
    let edges = (0..10).flat_map(|digits| [10_u32.pow(digits) - 1, 10_u32.pow(digits)]).chain([Arc::MAX]);
    let arcs = edges.map(|arc| (ArcInvalid { arc }, format!("OID contains out-of-range arc: {arc}")));
    let bytes =
        (0..=255).map(|actual| (DigitExpected { actual }, format!("expected digit, got '{}'", char::from(actual))));
    for (error, text) in plain.map(|error| (error, error.to_string())).into_iter().chain(arcs).chain(bytes) {
        assert_eq!([format!("{error}"), format!("{error:+#060.3}")], [&*text, &*text]);
        check_encoded_text(&text, error.text_len(), |out| error.encode_text(out), |out| error.encode_str(out));
    }
}

/// What std's options do with the numbers of an error and of arcs; and the sum and the product of arcs.
#[test]
fn debug_has_the_options_of_its_numbers() {
    let error = Error::ArcInvalid { arc: 999 };
    let oid = ObjectIdentifier::new_unwrap("2.999");
    let mut arcs = oid.arcs();
    arcs.next();
    let [sum, product] = [oid.arcs().sum::<Arc>(), oid.arcs().product()];
    assert_eq!((sum, product, arcs.clone().sum(), arcs.clone().product()), (1_001, 1_998, 999, 999));
    for (error, arcs, number) in [
        (format!("{error:?}"), format!("{arcs:?}"), "999"),
        (format!("{error:+30.3?}"), format!("{arcs:+30.3?}"), "                          +999"),
        (format!("{error:x?}"), format!("{arcs:x?}"), "3e7"),
    ] {
        assert_eq!((error, arcs), (format!("ArcInvalid {{ arc: {number} }}"), format!("Arcs([{number}])")));
    }
    assert_eq!(format!("{error:#?} {arcs:#?}"), "ArcInvalid {\n    arc: 999,\n} Arcs(\n    [\n        999,\n    ],\n)");
}

/// The comparisons of two values, and what is fed to a hasher, which are those of this order.
fn check_order<T: Ord + Hash + Debug + ?Sized>(a: &T, b: &T, order: Ordering) {
    assert_eq!((a.cmp(b), a.partial_cmp(b)), (order, Some(order)), "{a:?}, {b:?}");
    assert_eq!([a == b, a != b, fed(a) == fed(b)], [order.is_eq(), order.is_ne(), order.is_eq()], "{a:?}, {b:?}");
    let of_order = [order.is_lt(), order.is_le(), order.is_gt(), order.is_ge()];
    assert_eq!([a < b, a <= b, a > b, a >= b], of_order, "{a:?}, {b:?}");
}

/// The lesser and the greater of two values, which are those of their order.
fn check_ends<T: Ord + Copy + Debug>(a: T, b: T) {
    let (least, most) = if a < b { (a, b) } else { (b, a) };
    assert_eq!([a.min(b), a.max(b), a.clamp(least, most)], [least, most, a]);
}

/// The functions of two identifiers, in each pair of forms, if octets are valid.
fn check_pair(a: &[u8], b: &[u8]) {
    let (Ok(p), Ok(q)) = (model::of_octets(a), model::of_octets(b)) else { return };
    let x = ObjectIdentifierRef::from_bytes(a).unwrap();
    let y = ObjectIdentifierRef::from_bytes(b).unwrap();
    let is_equal = a == b;
    let starts = p.starts_with(&q);
    let by_arcs = p.cmp(&q);
    let rest = p.strip_prefix(q.as_slice()).map(Vec::from);
    check_order(x, y, a.cmp(b));
    check_order(ByArcs::of(x), ByArcs::of(y), by_arcs);
    check_order(&ByArcs(x), &ByArcs(y), by_arcs);
    assert_eq!((x.starts_with(y), x.cmp_arcs(y)), (starts, by_arcs), "{a:02X?}, {b:02X?}");
    assert_eq!(x.strip_prefix(y).map(Vec::from_iter), rest, "{a:02X?}, {b:02X?}");
    let (Ok(i), Ok(j)) = (ObjectIdentifier::<255>::try_from(x), ObjectIdentifier::<255>::try_from(y)) else { return };
    let order = a.len().cmp(&b.len()).then(a.cmp(b));
    check_order(&i, &j, order);
    let few = [x, y].map(|oid| ObjectIdentifier::<3>::try_from(oid).ok());
    assert!(few.contains(&None) || few[0].cmp(&few[1]) == order, "{a:02X?}, {b:02X?}");
    check_order(&ByArcs(i), &ByArcs(j), by_arcs);
    check_ends(i, j);
    check_ends(ByArcs(i), ByArcs(j));
    assert_eq!(ByArcs(i).max(ByArcs(j)).0, if by_arcs.is_gt() { i } else { j });
    assert_eq!((i.starts_with(j), i.cmp_arcs(&j)), (starts, by_arcs));
    assert_eq!([*x == j, fed(&i) == fed(y), <&ObjectIdentifierRef>::from(&i) == y], [is_equal; 3]);
    assert_eq!(i.strip_prefix(&j).map(Vec::from_iter), rest);
    let Ok(small) = ObjectIdentifier::<39>::try_from(y) else { return };
    assert_eq!((i.starts_with(small), i.cmp_arcs(&small), *x == small), (starts, by_arcs, is_equal));
}

/// Pairs that differ in bit 2 or 8 of one octet: of few octets each one, of many some at the start, in the midst and
/// late. And those of which one begins with the other.
#[test]
fn compares_long_pairs() {
    let long = [&[0x2A][..], &[1; 65_540]].concat();
    for more in [256, 65_536] {
        check_pair(&long[..5], &long[..5 + more]);
        check_pair(&long[..5 + more], &long[..5]);
    }
    for len in (2..=130).chain([255, 256, 1_001, 4_097, 70_000]) {
        for group in [&[1][..], &[0x81, 1], &[0x8F, 0xFF, 0xFF, 0xFF, 0x7F]] {
            let octets: Vec<u8> = [0x2A].into_iter().chain(group.iter().copied().cycle()).take(len).collect();
            let end = octets.iter().rposition(|octet| *octet < 0x80).unwrap() + 1;
            let octets = &octets[..end];
            let prefix = &octets[..1 + (end - 1).saturating_sub(group.len())];
            check_pair(octets, prefix);
            let some = [0, 1, 2, 7, 8, 9, 31, 32, 33, end / 2, end - 1];
            let lates = (0..end).filter(|late| len <= 130 || some.contains(late));
            for (late, bit) in lates.flat_map(|late| [(late, 2), (late, 0x80)]) {
                let mut other = octets.to_vec();
                other[end - 1 - late] ^= bit;
                check_pair(octets, &other);
                check_pair(&other, octets);
                check_pair(prefix, &other);
            }
        }
    }
}

/// Calls a check for all lists of up to `most` items over some, on a thread for each core. A list that fails is named.
fn all<T: Copy + Debug + Sync>(items: &[T], most: u32, check: impl Fn(&[T]) + Sync) {
    let threads = thread::available_parallelism().map_or(1, usize::from);
    thread::scope(|scope| {
        for start in 0..threads {
            let check = &check;
            scope.spawn(move || {
                for len in 0..=most {
                    let mut list = vec![items[0]; len as usize];
                    for index in (start..items.len().pow(len)).step_by(threads) {
                        let mut left = index;
                        for item in &mut list {
                            *item = items[left % items.len()];
                            left /= items.len();
                        }
                        assert!(catch_unwind(AssertUnwindSafe(|| check(&list))).is_ok(), "{list:?}");
                    }
                }
            });
        }
    });
}

const EDGES: [u8; 8] = [0, 0x4F, 0x50, 0x7F, 0x80, 0x8F, 0x90, 0xFF];

/// Identifiers of many lengths.
fn valid() -> Vec<Vec<u8>> {
    let groups: [&[u8]; 6] = [&[0], &[0x7F], &[0x81, 0], &[0x90, 0], &[0x82, 0x80, 1], &[0x8F, 0xFF, 0xFF, 0xFF, 0x7F]];
    let lengths = (1..=260).chain([300, 1_021, 4_095, 4_096, 4_097, 9_000]);
    let mut out: Vec<Vec<u8>> = (0..0x80).map(|octet| vec![octet]).collect();
    for len in lengths {
        for group in groups {
            let rest = group.repeat((len - 1) / group.len());
            out.extend([0x2A, 0x4F, 0x50].map(|root| [&[root], &rest[..]].concat()));
        }
    }
    out
}

#[test]
fn reads_all_octets_up_to_three() {
    let octets: Vec<u8> = (0..=255).collect();
    all(&octets, 3, check_octets);
}

/// All octets of up to five over a few, and elements around each number of length octets, whole, cut and changed.
#[test]
fn reads_elements() {
    let octets = [0, 1, 2, 5, 6, 0x26, 0x2A, 0x7F, 0x80, 0x81, 0x82, 0x84, 0x86, 0x88, 0x89, 0xA6, 0xFE, 0xFF];
    all(&octets, 5, check_element);
    for len in [1, 126, 127, 128, 129, 254, 255, 256, 257, 65_535, 65_536] {
        let head = model::head(len);
        let element = [&head[..], &vec![0x2A; len]].concat();
        for end in (0..=element.len()).filter(|end| *end < 300 || end + 1 >= element.len()) {
            check_element(&element[..end]);
        }
        for (index, octet) in (0..head.len()).flat_map(|index| octets.map(|octet| (index, octet))) {
            let mut other = [&element[..], &[0x2A; 200]].concat();
            other[index] = octet;
            check_element(&other);
            other.insert(index, octet);
            check_element(&other);
        }
    }
}

#[test]
fn reads_octets_at_edges() {
    all(&EDGES, 8, check_octets);
    all(&EDGES, 4, check_borrowed);
}

/// Drawn ones, and lengths up to 40, of which one octet in turn is another, which no `rust/random_rows` tests elsewhere.
#[test]
fn reads_octets_by_windows() {
    let cases = (0..=40).flat_map(|len| (0..len).map(move |index| (len, index)));
    for ((len, index), group) in cases.flat_map(|case| [[1, 1], [0x81, 1], [1, 0x81]].map(|group| (case, group))) {
        let mut octets: Vec<u8> = group.into_iter().cycle().take(len).collect();
        for other in [0x7F, 0x80, 0x81, 0xFF] {
            octets[index] = other;
            check_octets(&octets);
        }
    }
    let mut state = 1_u64;
    for _ in 0..100_000 {
        state = state.wrapping_mul(6_364_136_223_846_793_005).wrapping_add(1);
        let octet = |place| [1, 2, 0, 0x7F, 0x80, 0x81, 0x81, 0xFF][state.rotate_left(3 * place) as usize % 8];
        check_octets(&Vec::from_iter((0..(state >> 58) as u32).map(octet)));
    }
}

#[test]
fn reads_long_octets() {
    for octets in valid() {
        assert!(model::of_octets(&octets).is_ok());
        check_borrowed(&octets);
        for end in [&[][..], &[0x80], &[0x81], &[0xFF], &[0x90, 0x80, 0x80, 0x80, 0]] {
            let contents = [&octets, end].concat();
            check_octets(&contents);
            check_element(&[&model::head(contents.len())[..], &contents, &[6, 1]].concat());
        }
    }
    for len in [16_385, 70_000] {
        let octets = vec![0x2A; len];
        check_octets(&octets);
        let oid = ObjectIdentifierRef::from_bytes(&octets).unwrap();
        assert!(oid.len() == len + 1 && oid.parent().unwrap().as_bytes() == &octets[1..], "{len}");
    }
}

/// The identifiers that have names, and one of the examples: a function might know each of these.
#[cfg(feature = "db")]
#[test]
fn reads_and_writes_known_identifiers() {
    for text in const_oid::db::DB.entries().iter().map(|entry| entry.0.to_string()).chain(["2.999.3".into()]) {
        let arcs = model::of_text(text.as_bytes(), 255).unwrap();
        let octets = model::encoding(&arcs);
        check_octets(&octets);
        check_element(&[&model::head(octets.len()), &octets[..], &[6, 1, 5]].concat());
        check_borrowed(&octets);
        each_capacity!(read_text(&text));
        each_capacity!(read_arcs(&arcs));
    }
}

/// Names of an identifier in some rows, in a row or in none, with an index and without.
#[cfg(feature = "db")]
#[test]
fn iterates_over_names() {
    use const_oid::db::{DB, Database};
    let rows: Vec<_> = (0..60).map(|row| (DB.entries()[row % 7].0, DB.entries()[row].1)).collect();
    for table in [DB, Database::new(&rows[..1]), Database::new(&rows), Database::new(&rows).indexed(&mut [0; 240])] {
        for (oid, _) in DB.entries() {
            let names = table.entries().iter().filter(|row| row.0 == *oid).map(|row| row.1);
            check_iterator(table.find_names_for_oid(**oid), &Vec::from_iter(names));
        }
    }
}

#[test]
fn compares_pairs() {
    let valid: Vec<Vec<u8>> = valid().into_iter().filter(|octets| octets.len() < 90).step_by(3).collect();
    for a in &valid {
        for b in &valid {
            check_pair(a, b);
        }
    }
    all(&EDGES, 6, |octets| {
        let (a, b) = octets.split_at(octets.len() / 2);
        check_pair(a, b);
    });
}

#[test]
fn parses_texts() {
    all(b"01234 9.x", 8, |text| {
        let text = std::str::from_utf8(text).unwrap();
        check_text(text);
        if text.len() < 8 {
            each_capacity!(read_text(text));
        }
    });
    let pieces = ["0", "1", "2", "39", "40", ".", "4294967295", "4294967296", "00", "é", "99999999999999999999"];
    all(&pieces, 5, |pieces| {
        let text = pieces.concat();
        check_text(&text);
        each_capacity!(read_text(&text));
    });
}

/// What callers forget to remove is part of a text, wherever it is.
#[test]
fn rejects_more_around_a_text() {
    for more in ["\n", "\t", "\0", " ", "urn:oid:"] {
        for text in [format!("{more}1.2.3"), format!("1.{more}2"), format!("1.2.3{more}")] {
            check_text(&text);
        }
    }
}

#[test]
fn encodes_arcs() {
    all(&[0, 1, 2, 3, 39, 40, 47, 48, 127, 128, 16_383, 16_384, u32::MAX], 5, |arcs| {
        each_capacity!(read_arcs(arcs));
    });
    for len in 0..300 {
        for arc in [0, 128, u32::MAX] {
            let arcs = [&[2, 999][..], &[arc].repeat(len)].concat();
            each_capacity!(read_arcs(&arcs));
            for end in ["", ".x", ".", "..1"] {
                each_capacity!(read_text(&(model::text(&arcs) + end)));
            }
        }
    }
    for (len, arc) in [257, 1_001, 70_000].into_iter().flat_map(|len| [(len, 1), (len, 128), (len, u32::MAX)]) {
        let arcs = [&[2, 999][..], &[arc].repeat(len)].concat();
        let octets = model::encoding(&arcs);
        for size in [octets.len() - 1, octets.len(), 5 * arcs.len()] {
            write_arcs(&arcs, size);
            let _ = write_text(&model::text(&arcs), size);
        }
        check_octets(&octets);
    }
}

/// Texts and arcs, whose arcs have all lengths in all orders, with an error anywhere and without one, into outputs of
/// about as many octets.
#[test]
fn writes_octets_at_the_end_of_the_output() {
    all(&[0, 128, 16_384, 1 << 21, u32::MAX], 4, |group| {
        for count in [8, 13, 20, 90] {
            let arcs: Vec<Arc> = [2, 999].into_iter().chain(group.iter().copied().cycle().take(count)).collect();
            let components: Vec<String> = arcs.iter().map(Arc::to_string).collect();
            let len = model::encoding(&arcs).len();
            for size in (len.saturating_sub(6)..len + 6).chain([0, 255, 256]) {
                write_arcs(&arcs, size);
                write_arcs(&[&[size as Arc % 4], &arcs[1..]].concat(), size);
                let _ = write_text(&components.join("."), size);
                for (index, component) in ["", "x", "4294967296", "1x", "\u{e9}", "0001"].into_iter().enumerate() {
                    let mut components = components.clone();
                    components.insert((size + index * components.len() / 6) % (components.len() + 1), component.into());
                    let _ = write_text(&components.join("."), size);
                }
            }
        }
    });
}

/// Maps of owned keys by arcs, searched by borrowed ones.
#[test]
fn maps_of_keys_by_arcs_are_searched_by_borrowed_ones() {
    let valid = valid();
    let borrowed: BTreeSet<_> =
        valid.iter().map(|octets| ByArcs::of(ObjectIdentifierRef::from_bytes(octets).unwrap())).collect();
    let mut names: BTreeSet<Vec<Arc>> = valid.iter().map(|octets| model::of_octets(octets).unwrap()).collect();
    assert!(borrowed.iter().map(|key| key.arcs().collect::<Vec<_>>()).eq(names.iter().cloned()));
    names.retain(|arcs| model::encoding(arcs).len() <= 255);
    let owned = |arcs: &Vec<Arc>| ObjectIdentifier::<255>::from_arcs_sized(arcs.iter().copied()).unwrap();
    let by_arcs: BTreeMap<ByArcs<_>, usize> = names.iter().map(|arcs| owned(arcs).into()).zip(0..).step_by(2).collect();
    let by_hash: HashMap<_, usize> = by_arcs.clone().into_iter().collect();
    let plain: HashMap<_, usize> = by_arcs.iter().map(|(key, index)| (key.0, *index)).collect();
    for (index, arcs) in names.iter().enumerate() {
        let oid = owned(arcs);
        let key = ByArcs::of(&oid);
        let found = (index % 2 == 0).then_some(&index);
        assert_eq!((by_arcs.get(key), by_hash.get(key), plain.get(oid.as_oid_ref())), (found, found, found));
        let next = by_arcs.range::<ByArcs<_>, _>((Excluded(key), Unbounded)).next();
        assert_eq!(next.map(|entry| *entry.1), (index / 2 * 2 + 2 < names.len()).then_some(index / 2 * 2 + 2));
        assert!(key.arcs().eq(arcs.iter().copied()) && ByArcs(oid).parent() == oid.parent());
        assert_eq!(format!("{key} {key:?}"), format!("{oid} ByArcs({:?})", oid.as_oid_ref()));
    }
}

#[test]
fn finds_subtrees() {
    let octets: Vec<Vec<u8>> = valid().into_iter().filter(|octets| octets.len() < 12).collect();
    let mut sorted: Vec<_> = octets.iter().map(|octets| ObjectIdentifierRef::from_bytes(octets).unwrap()).collect();
    sorted.sort_by_key(|oid| oid.as_bytes());
    for prefix in &octets {
        let start = sorted.iter().filter(|oid| oid.as_bytes() < &prefix[..]).count();
        let inside = sorted.iter().filter(|oid| oid.as_bytes().starts_with(prefix)).count();
        let oid = ObjectIdentifierRef::from_bytes(prefix).unwrap();
        assert_eq!(oid.subtree(&sorted), (start, start + inside));
        assert_eq!(ObjectIdentifier::<39>::try_from(oid).unwrap().subtree(&sorted), (start, start + inside));
    }
}

/// Searches in lists: those of identifiers and tables, and those for C.
#[cfg(all(feature = "db", feature = "internal-for-const-oid-c"))]
mod searches {
    use super::{ObjectIdentifier, ObjectIdentifierRef, all};
    use const_oid::db::SortedDatabase;
    use const_oid::internal_for_const_oid_c::search::{Contents, end_of, first_of, nearest_of, start_of, subtree_of};
    use std::cell::Cell;

    /// In a list in any order, a search finds what is in it.
    fn check_any_order(list: &[&ObjectIdentifierRef], oid: &ObjectIdentifierRef) {
        let entries: Vec<(&ObjectIdentifierRef, &str)> = list.iter().map(|oid| (*oid, "name")).collect();
        let table = SortedDatabase::new_unchecked(&entries);
        let found = [table.nearest(oid), table.next_after(oid)].into_iter().flatten().chain(table.subtree(oid));
        let are_entries = found.map(std::ptr::from_ref).all(|entry| entries.as_ptr_range().contains(&entry));
        assert!(are_entries && table.by_oid(oid).is_none_or(|name| name == "name"), "{oid} in {list:?}");
        let range = oid.subtree(list);
        let other = subtree_of(&entries, oid);
        let ends = [first_of, nearest_of].map(|search| search(&entries, oid).map_or(0, |index| index + 1));
        let places = [start_of, end_of].map(|search| search(&entries, oid));
        let most = ends.into_iter().chain(places).chain([range.1, other.1]).max();
        assert!(range.0 <= range.1 && other.0 <= other.1 && most <= Some(list.len()), "{oid} in {list:?}");
    }

    #[test]
    fn finds_what_is_in_the_list_in_any_order() {
        let oids = ["1.2", "1.2.3", "2.5", "1.2.3.4"].map(ObjectIdentifier::new_unwrap);
        all(&oids.each_ref().map(ObjectIdentifier::as_oid_ref)[..3], 10, |list| {
            oids.iter().for_each(|oid| check_any_order(list, oid));
        });
    }

    /// Octets, and how often such items were read.
    struct Item<'a>([u8; 4], &'a Cell<u32>);

    impl Contents for Item<'_> {
        fn contents(&self) -> &[u8] {
            self.1.set(self.1.get() + 1);
            &self.0
        }
    }

    /// A binary search of n items reads log2(n) + 2 at most, a run of n items, one or more, 4/3 log2(n) + 7 at most.
    #[test]
    fn reads_few_items() {
        let reads = Cell::new(0);
        let log = |count: usize| (count.max(1) as f64).log2();
        for len in [1_000, 100_000] {
            let octets = (0..len).map(|row| [0x2A, row >> 14, row >> 7 & 127, row & 127].map(|octet| octet as u8));
            let items: Vec<Item<'_>> = octets.map(|octets| Item(octets, &reads)).collect();
            let runs = [len, len.min(16_384), 128.min(len - 896), 1, 0, 0];
            for (text, run) in ["1.2", "1.2.0", "1.2.0.7", "1.2.0.7.1", "1.2.0.7.1.1", "2.5"].into_iter().zip(runs) {
                let oid = &*ObjectIdentifier::new_unwrap(text);
                let search = log(len) + 2.0;
                let counts = [
                    ((start_of(&items, oid), reads.take()).1, search),
                    ((end_of(&items, oid), reads.take()).1, search),
                    ((first_of(&items, oid), reads.take()).1, search + 1.0),
                    ((nearest_of(&items, oid), reads.take()).1, oid.len() as f64 * (search + 4.0)),
                    ((subtree_of(&items, oid), reads.take()).1, search + 4.0 / 3.0 * log(run) + 7.0),
                ];
                assert!(counts.iter().all(|(count, most)| f64::from(*count) <= *most), "{text} in {len}: {counts:?}");
            }
        }
    }
}

#[cfg(feature = "db")]
#[path = "model/rows.rs"]
mod rows;
