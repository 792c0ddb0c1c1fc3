//! The stand-in for Rattle's library, by itself: what it returns, and that a refused request for memory is an error which
//! leaves a list, a text or a map as it was.

#![allow(clippy::deprecated_cfg_attr)]

// The stand-in is no part of the crate's interface; what it has for the sources alone goes unused here.
#[macro_use]
#[allow(dead_code, unused_imports, unused_macros)]
#[path = "../src/rattle/mod.rs"]
#[cfg_attr(rustfmt, rustfmt_skip)] // (by `rustfmt::skip` its macros would be ambiguous)
mod rattle;
#[cfg(feature = "program")]
#[allow(dead_code, unused_imports)]
#[path = "../src/host/mod.rs"]
#[cfg_attr(rustfmt, rustfmt_skip)]
mod host;

mod heap;

extern crate alloc;

use heap::with;
use rattle::alloc::{AllocError, Global};
use rattle::borrow::CowSlice;
use rattle::collections::HashMap;
use rattle::prelude::{SliceExt, Vec};

/// Calls with no request allowed, one, and so on until none is refused. Each answer must be an error while one is; how many
/// were refused.
fn each_refused<T, E>(mut call: impl FnMut() -> Result<T, E>) -> usize {
    for requests in 0.. {
        let (answer, was_refused) = with(requests, &mut call);
        assert_eq!(answer.is_err(), was_refused, "{}", requests);
        if !was_refused {
            return requests;
        }
    }
    unreachable!()
}

fn list(items: &[u8]) -> Vec<u8> {
    Vec::from_slice(Global, items).unwrap()
}

#[test]
fn lists_answer_as_rusts() {
    let mut items = Vec::new(Global);
    assert_eq!((items.len(), items.capacity(), items.pop()), (0, 0, None));
    for item in 0..5u8 {
        items.push(item).unwrap();
    }
    assert_eq!(items.as_slice(), [0, 1, 2, 3, 4]);
    assert_eq!(items.pop(), Some(4));
    items.extend_from_slice(&[7, 8]).unwrap();
    items.resize(8, 9).unwrap();
    assert_eq!(items.as_slice(), [0, 1, 2, 3, 7, 8, 9, 9]);
    items.resize(3, 1).unwrap();
    items.truncate(5);
    assert_eq!(items.as_slice(), [0, 1, 2]);
    items.reserve(9).unwrap();
    assert!(items.capacity() >= 12);
    items.push_reserved(5);
    items.remove_front(2);
    assert_eq!(items, list(&[2, 5]));
    assert_eq!(items.clone().unwrap(), items);
    items[0] = 6;
    assert_eq!((&items).into_iter().copied().sum::<u8>(), 11);
    for item in &mut items {
        *item += 1;
    }
    assert_eq!(std::format!("{:?}", items), "[7, 6]");
    items.clear();
    assert!(items.is_empty() && items.capacity() >= 12);
    assert_eq!(list(&[3, 4]).into_inner(), std::vec![3, 4]);
    assert_eq!(list(&[3, 4]).into_iter().rev().collect::<std::vec::Vec<_>>(), [4, 3]);
}

#[test]
fn lists_are_made_of_items() {
    let made: Result<Vec<u16>, AllocError> = rattle_vec();
    assert_eq!(made.unwrap().as_slice(), [5, 5, 5]);
    assert_eq!(Vec::of(Global, 0u8, 3).unwrap().as_slice(), [0, 0, 0]);
    assert_eq!(Vec::from_items(Global, [1u8, 2]).unwrap().as_slice(), [1, 2]);
    assert_eq!([1u8, 2].to_vec_with(Global).unwrap().as_slice(), [1, 2]);
    assert_eq!(Vec::<u32>::with_capacity(Global, 7).unwrap().capacity(), 7);
}

fn rattle_vec() -> Result<Vec<u16>, AllocError> {
    vec![in Global; 5; 3]
}

#[test]
fn lists_are_written_out() {
    let listed: Result<Vec<u8>, AllocError> = vec![in Global; 3, 1, 2,];
    assert_eq!(listed.unwrap().as_slice(), [3, 1, 2]);
    let one: Result<Vec<u8>, AllocError> = vec![in Global; 9];
    assert_eq!(one.unwrap().as_slice(), [9]);
    let none: Result<Vec<u8>, AllocError> = vec![in Global];
    assert!(none.unwrap().is_empty());
}

#[test]
fn each_list_is_read_as_a_slice() {
    use rattle::convert::AsSlice;
    fn items<A: AsSlice<u8>>(list: A) -> std::vec::Vec<u8> {
        list.as_slice().to_vec()
    }
    assert_eq!(items(list(&[4, 2, 3])), [4, 2, 3]);
    assert_eq!(items(&[4u8, 2][..]), [4, 2]);
    assert_eq!(items([4u8, 2, 1]), [4, 2, 1]);
}

#[test]
fn lists_are_equal_and_hashed_by_their_items() {
    use std::collections::hash_map::DefaultHasher;
    use std::hash::{Hash, Hasher};
    let hash = |items: &[u8]| {
        let mut state = DefaultHasher::new();
        list(items).hash(&mut state);
        state.finish()
    };
    assert_ne!(hash(&[3, 1]), hash(&[1, 3]));
    let mut as_slice = DefaultHasher::new();
    [3u8, 1][..].hash(&mut as_slice);
    assert_eq!(hash(&[3, 1]), as_slice.finish());
    for other in [&[3u8, 1, 0][..], &[3], &[1, 3], &[]] {
        assert!(list(&[3, 1]) != list(other));
    }
    // The room doesn't count.
    let mut roomy = Vec::with_capacity(Global, 100).unwrap();
    roomy.extend_from_slice(&[3u8, 1]).unwrap();
    assert!(roomy == list(&[3, 1]));
}

#[test]
fn too_much_is_refused_and_not_a_panic() {
    for count in [usize::MAX, usize::MAX / 2, usize::MAX / 8] {
        assert!(Vec::<u64>::with_capacity(Global, count).is_err());
        assert!(Vec::of(Global, 0u64, count).is_err());
        let mut items = Vec::<u64>::from_items(Global, [1]).unwrap();
        assert!(items.reserve(count).is_err());
        assert!(items.resize(count, 0).is_err());
        assert_eq!(items.as_slice(), [1]);
    }
    let mut much = Vec::of(Global, 0u8, 1 << 20).unwrap();
    assert!(much.reserve(usize::MAX).is_err());
    assert!(much.reserve(usize::MAX - (1 << 20)).is_err());
    assert_eq!(much.len(), 1 << 20);
}

#[test]
fn a_refused_request_leaves_a_list_as_it_was() {
    for len in [0, 1, 4096, 70_000] {
        let mut items = list(&std::vec![3; len]);
        let room = items.capacity();
        let whole = |items: &Vec<u8>| items.as_slice() == std::vec![3; len].as_slice() && items.capacity() == room;
        for _ in 0..2 {
            assert_eq!(with(0, || items.push(9).map_err(|failed| failed.value)), (Err(9), true));
            assert!(with(0, || items.reserve(1)).0.is_err() && whole(&items));
            assert!(with(0, || items.extend_from_slice(&[1])).0.is_err() && whole(&items));
            assert!(with(0, || items.resize(len + 1, 1)).0.is_err() && whole(&items));
            assert_eq!(with(0, || items.clone().is_err()), (len > 0, len > 0));
            assert!(whole(&items));
        }
        assert_eq!(with(0, || items.extend_from_slice(&[])), (Ok(()), false));
        assert_eq!(with(0, || items.resize(len, 1)), (Ok(()), false));
    }
}

#[test]
fn each_request_of_a_list_can_be_refused() {
    assert_eq!(each_refused(|| Vec::<u8>::with_capacity(Global, 3)), 1);
    assert_eq!(each_refused(|| Vec::<u8>::with_capacity(Global, 0)), 0);
    assert_eq!(each_refused(|| Vec::of(Global, 1u8, 3)), 1);
    assert_eq!(each_refused(|| Vec::from_items(Global, [1u8])), 1);
    assert_eq!(each_refused(|| Vec::from_slice(Global, &[1u8])), 1);
    assert_eq!(each_refused(|| [1u8].to_vec_with(Global)), 1);
    assert_eq!(each_refused(rattle_vec), 1);
    let pushed = each_refused(|| {
        let mut items = Vec::new(Global);
        (0..1000u16).try_for_each(|item| items.push(item).map_err(AllocError::from))
    });
    assert!((5..12).contains(&pushed), "{}", pushed);
    // Room that was reserved takes no request.
    let mut items = Vec::with_capacity(Global, 3).unwrap();
    let filled = with(0, || {
        items.push(1u8).map_err(AllocError::from)?;
        items.push_reserved(2);
        items.extend_from_slice(&[3])
    });
    assert_eq!(filled, (Ok(()), false));
    assert_eq!(items.as_slice(), [1, 2, 3]);
}

#[test]
fn little_of_a_large_lists_room_is_spare() {
    let (mut items, mut grown) = (Vec::new(Global), 0);
    for count in 1..1_000_000usize {
        let room = items.capacity();
        items.push(count).unwrap();
        if items.capacity() == room {
            continue;
        }
        grown += 1;
        let wanted = match room * std::mem::size_of::<usize>() {
            0 => 4,
            1..=4095 => 2 * room,
            4096..=65535 => room + room / 4,
            _ => room + room / 8,
        };
        assert_eq!(items.capacity(), wanted, "{}", count);
    }
    assert!(grown < 100, "{}", grown);
    // The room that is spare counts, too.
    for (len, room, more, wanted) in [
        (7_000, 8_000, 1_001, 10_000),
        (90_000, 100_000, 10_001, 112_500),
        (90_000, 100_000, 22_500, 112_500),
        (90_000, 100_000, 22_501, 112_501),
        (90_000, 100_000, 10_000, 100_000),
        // From 4 and from 64 KiB on.
        (4_095, 4_095, 1, 8_190),
        (4_096, 4_096, 1, 5_120),
        (65_535, 65_535, 1, 81_918),
        (65_536, 65_536, 1, 73_728),
    ] {
        let mut items = Vec::with_capacity(Global, room).unwrap();
        items.resize(len, 1u8).unwrap();
        items.reserve(more).unwrap();
        assert_eq!((items.len(), items.capacity()), (len, wanted), "{}", more);
    }
    let mut bytes = list(&[1; 100_000]);
    bytes.extend_from_slice(&[2; 300_000]).unwrap();
    assert_eq!((bytes.len(), bytes.capacity()), (400_000, 400_000));
}

#[test]
fn spare_room_is_given_back() {
    for (len, room) in [(0, 10), (1, 2), (100, 200), (4000, 8192), (100_000, 200_000)] {
        let mut items = Vec::with_capacity(Global, room).unwrap();
        items.resize(len, 7u8).unwrap();
        // Where the copy is refused all stays.
        if len > 0 {
            assert_eq!(with(0, || items.shrink_to_fit()), ((), true));
            assert_eq!(items.capacity(), room);
        }
        items.shrink_to_fit();
        assert_eq!(items.capacity(), len);
        assert_eq!(items.as_slice(), std::vec![7; len].as_slice());
    }
    let mut items = Vec::with_capacity(Global, 100).unwrap();
    items.resize(90, 7u8).unwrap();
    assert_eq!(with(0, || items.shrink_to_fit()), ((), false));
    assert_eq!((items.len(), items.capacity()), (90, 100));
    // A quarter of the items, and one more.
    for (len, room) in [(80, 100), (79, 79), (4, 5), (3, 3), (0, 0)] {
        let mut items = Vec::with_capacity(Global, if len < 79 { 5 } else { 100 }).unwrap();
        items.resize(len, 7u8).unwrap();
        items.shrink_to_fit();
        assert_eq!((items.len(), items.capacity()), (len, room));
    }
}

#[test]
fn items_are_dropped_once() {
    let item = std::rc::Rc::new(());
    let mut items = Vec::new(Global);
    for _ in 0..10 {
        items.push(item.clone()).unwrap();
    }
    items.reserve(30).unwrap();
    items.shrink_to_fit();
    assert_eq!(std::rc::Rc::strong_count(&item), 11);
    items.truncate(7);
    items.remove_front(2);
    assert_eq!(std::rc::Rc::strong_count(&item), 6);
    assert!(with(0, || items.push(item.clone())).1 || items.len() == 6);
    drop(items);
    assert_eq!(std::rc::Rc::strong_count(&item), 1);
}

#[test]
fn slices_are_borrowed_or_owned() {
    assert_eq!(*CowSlice::Borrowed(&[1u8, 2]), [1, 2]);
    assert_eq!(*CowSlice::Owned(list(&[3])), [3]);
}

#[test]
fn a_refused_request_leaves_a_map_as_it_was() {
    let mut map = HashMap::new(Global);
    for key in 0..3000u32 {
        let (answer, was_refused) = with(0, || map.insert(key, key + 1));
        if was_refused {
            assert_eq!(answer.unwrap_err().value, (key, key + 1));
            assert_eq!(map.get(&key), None);
            assert!((0..key).all(|known| map.get(&known) == Some(&(known + 1))));
            // Of several requests the second is refused, too.
            let (answer, was_refused) = with(1, || map.insert(key, key + 2));
            assert_eq!(answer.is_err(), was_refused);
            if was_refused {
                assert_eq!(map.get(&key), None);
                assert!((0..key).all(|known| map.get(&known) == Some(&(known + 1))));
                map.insert(key, key + 1).unwrap();
            } else {
                assert_eq!(map.insert(key, key + 1).unwrap(), Some(key + 2));
            }
        }
        assert_eq!(map.get(&key), Some(&(key + 1)));
        assert_eq!(map.get(&(key / 2)), Some(&(key / 2 + 1)));
    }
    for key in 0..3000 {
        assert_eq!(map.get(&key), Some(&(key + 1)));
    }
}

#[cfg(feature = "variable-fonts")]
#[test]
fn iterators_are_collected() {
    use rattle::prelude::IteratorExt;
    assert_eq!((0..5u8).collect_with::<Vec<u8>>(Global).unwrap().as_slice(), [0, 1, 2, 3, 4]);
    assert_eq!(each_refused(|| (0..500u16).collect_with::<Vec<u16>>(Global)), 1);
    let odd = || (0..500u16).filter(|n| n % 2 == 1);
    assert_eq!(odd().collect_with::<Vec<u16>>(Global).unwrap().len(), 250);
    assert!(each_refused(|| odd().collect_with::<Vec<u16>>(Global)) > 3);
    #[cfg(feature = "program")]
    {
        let text = "ab€".chars().collect_with::<rattle::prelude::String>(Global).unwrap();
        assert_eq!(text.as_str(), "ab€");
    }
}

#[test]
fn casts_keep_the_bits() {
    use rattle::prelude::Cast;
    macro_rules! check {
        ($($unsigned:ident $signed:ident)*) => {$(
            let of_most: $signed = $unsigned::MAX.to_signed();
            let of_least: $unsigned = $signed::MIN.to_unsigned();
            assert_eq!((of_most, of_least), (-1, $unsigned::MAX / 2 + 1));
            let (same, own): ($signed, $unsigned) = ($signed::MAX.to_signed(), $unsigned::MAX.to_unsigned());
            assert_eq!((same, own), ($signed::MAX, $unsigned::MAX));
        )*};
    }
    check!(u8 i8 u16 i16 u32 i32 u64 i64 u128 i128 usize isize);
}

#[cfg(feature = "program")]
mod program {
    use super::*;
    use rattle::io::{BufWriter, Error, ErrorKind, Read, Write};
    use rattle::prelude::String;
    use std::cell::{Cell, RefCell};

    #[test]
    fn texts_answer_as_rusts() {
        let text = String::from_str(Global, "a text").unwrap();
        assert_eq!((text.as_str(), text.len()), ("a text", 6));
        assert_eq!(text.clone().unwrap().as_str(), "a text");
        assert_eq!(std::format!("{:?}", text), "\"a text\"");
        let made = String::format(Global, format_args!("{}-{:02}", text.as_str(), 7)).unwrap();
        assert_eq!(made.as_str(), "a text-07");
    }

    #[test]
    fn texts_are_shown_as_rusts() {
        let plain = "a\"\u{e9}";
        let text = String::from_str(Global, plain).unwrap();
        for (shown, wanted) in [
            (std::format!("{:>6}|", text), std::format!("{:>6}|", plain)),
            (std::format!("{:.2}|", text), std::format!("{:.2}|", plain)),
            (std::format!("{:<5}|", text), std::format!("{:<5}|", plain)),
            (std::format!("{:?}|", text), std::format!("{:?}|", plain)),
        ] {
            assert_eq!(shown, wanted);
        }
        let made = format!(in Global; "{}-{:02}", text, 7).unwrap();
        assert_eq!(made.as_str(), std::format!("{}-07", plain));
        assert_eq!(String::from(std::string::String::from("one")).as_str(), "one");
        let mut made = String::new(Global);
        assert_eq!(made.as_str(), "");
        made.push_str("ab").unwrap();
        made.push_str("").unwrap();
        made.push_str("c").unwrap();
        let long = "x".repeat(1000);
        assert_eq!(with(0, || made.push_str(&long).is_err()), (true, true));
        assert_eq!(made.as_str(), "abc");
    }

    #[test]
    fn each_request_of_a_text_can_be_refused() {
        assert_eq!(each_refused(|| String::from_str(Global, "a")), 1);
        assert_eq!(each_refused(|| String::from_str(Global, "")), 0);
        let text = String::from_str(Global, "abc").unwrap();
        assert_eq!(each_refused(|| text.clone()), 1);
        let long = "x".repeat(500);
        assert!(each_refused(|| String::format(Global, format_args!("{}{}{}", 1, long, long))) > 1);
    }

    /// A stream of steps: some bytes, or an error.
    struct Steps(std::vec::Vec<Result<usize, ErrorKind>>, std::vec::Vec<u8>);

    impl Steps {
        fn next(&mut self) -> Result<usize, Error> {
            if self.0.is_empty() {
                return Ok(usize::MAX);
            }
            self.0.remove(0).map_err(Error::from)
        }
    }

    impl Read for Steps {
        fn read(&mut self, buf: &mut [u8]) -> Result<usize, Error> {
            let count = self.next()?.min(buf.len()).min(self.1.len());
            buf[..count].copy_from_slice(&self.1[..count]);
            self.1.drain(..count);
            Ok(count)
        }
    }

    impl Write for Steps {
        fn write(&mut self, buf: &[u8]) -> Result<usize, Error> {
            let count = self.next()?.min(buf.len());
            self.1.extend_from_slice(&buf[..count]);
            Ok(count)
        }

        fn flush(&mut self) -> Result<(), Error> {
            self.next().map(|_| ())
        }
    }

    const LONG: usize = 300_000;

    fn bytes(len: usize) -> std::vec::Vec<u8> {
        (0..len).map(|i| (i % 251) as u8).collect()
    }

    #[test]
    fn all_is_read_to_the_end() {
        for len in [0, 1, 8192, LONG] {
            let steps = std::vec![Ok(1), Err(ErrorKind::Interrupted), Ok(5000), Err(ErrorKind::Interrupted)];
            let mut all = list(b"front");
            assert_eq!(Steps(steps, bytes(len)).read_to_end(&mut all).unwrap(), len);
            assert_eq!(all.as_slice(), [b"front".to_vec(), bytes(len)].concat());
        }
    }

    #[test]
    fn a_failure_leaves_what_was_read() {
        let steps = std::vec![Ok(10), Ok(20), Err(ErrorKind::NotFound), Ok(9)];
        let mut all = list(b"front");
        all.reserve(100).unwrap();
        let failed = Steps(steps, bytes(LONG)).read_to_end(&mut all).unwrap_err();
        assert_eq!(failed.kind(), ErrorKind::NotFound);
        assert_eq!(all.as_slice(), [b"front".to_vec(), bytes(30)].concat());
        for requests in 0..3 {
            let mut all = Vec::new(Global);
            let mut steps = Steps(std::vec![], bytes(LONG));
            let (failed, was_refused) = with(requests, || steps.read_to_end(&mut all));
            assert!(was_refused);
            assert_eq!(failed.unwrap_err().kind(), ErrorKind::OutOfMemory);
            assert_eq!(all.as_slice(), &bytes(LONG)[..all.len()]);
        }
    }

    /// Notes how many bytes are asked for at once, and gives up to .1 of these, up to .2 in all.
    struct Noted<'a>(&'a RefCell<std::vec::Vec<usize>>, usize, usize);

    impl Read for Noted<'_> {
        fn read(&mut self, buf: &mut [u8]) -> Result<usize, Error> {
            self.0.borrow_mut().push(buf.len());
            let count = self.1.min(self.2).min(buf.len());
            self.2 -= count;
            Ok(count)
        }
    }

    #[test]
    fn what_there_is_room_for_is_read_in_steps() {
        for (room, most, len, wanted) in [
            (300_000, 100_000, 250_000, &[131_072, 31_072, 131_072, 31_072, 12_144][..]),
            (131_072, 131_071, 131_071, &[131_072, 1]),
            (131_073, 200_000, 131_072, &[131_072, 1]),
            (8, 100, 8, &[8, 8]),
            (8, 7, 7, &[8, 1]),
        ] {
            let asked = RefCell::new(std::vec::Vec::with_capacity(10));
            let mut all = Vec::with_capacity(Global, room).unwrap();
            let (answer, was_refused) =
                with(usize::from(room == len), || Noted(&asked, most, len).read_to_end(&mut all));
            assert_eq!((answer.unwrap(), was_refused), (len, false));
            assert_eq!((all.len(), asked.borrow().as_slice()), (len, wanted));
            assert!(room == len || all.capacity() == room);
        }
    }

    #[test]
    fn all_is_written() {
        let mut steps = Steps(std::vec![Ok(3), Err(ErrorKind::Interrupted), Ok(1)], std::vec![]);
        steps.write_all(&bytes(100)).unwrap();
        assert_eq!(steps.1, bytes(100));
        write!(steps, "{}-x", 1).unwrap();
        assert_eq!(steps.1[100..], *b"1-x");
        for (step, kind) in [(Ok(0), ErrorKind::Other), (Err(ErrorKind::NotFound), ErrorKind::NotFound)] {
            let mut steps = Steps(std::vec![Ok(3), step], std::vec![]);
            assert_eq!(write!(steps, "12345").unwrap_err().kind(), kind);
            assert_eq!(steps.1, b"123");
        }
    }

    #[test]
    fn refused_memory_has_its_own_error() {
        use super::rattle::alloc::{AllocError, AllocFailed};
        let errors = [Error::from(AllocError), Error::from(AllocFailed { value: 0 })];
        for error in errors {
            assert_eq!(error.kind(), ErrorKind::OutOfMemory);
            assert_eq!(error.raw_os_error(), None);
        }
        assert_eq!(AllocError::from(AllocFailed { value: 0 }), AllocError);
        assert_eq!(std::format!("{:?}", AllocFailed { value: 0 }), "AllocFailed");
    }

    #[test]
    fn lists_can_be_written_to() {
        let mut all = list(b"a");
        write!(all, "{}", 12).unwrap();
        all.flush().unwrap();
        assert_eq!(all.as_slice(), b"a12");
        let long = bytes(LONG);
        let (failed, was_refused) = with(0, || all.write_all(&long));
        assert!(was_refused && failed.unwrap_err().kind() == ErrorKind::OutOfMemory);
        assert_eq!(all.as_slice(), b"a12");
    }

    #[test]
    fn what_is_buffered_is_written_in_order() {
        for piece in [1, 7, 4000, 8191, 8192, 8193, 20_000] {
            let mut out = Steps(std::vec![Ok(3), Err(ErrorKind::Interrupted), Ok(100)], std::vec![]);
            let mut writer = BufWriter::new(Global, Lent(&mut out)).unwrap();
            for part in bytes(LONG / 10).chunks(piece) {
                writer.write_all(part).unwrap();
            }
            writer.flush().unwrap();
            drop(writer);
            assert_eq!(out.1, bytes(LONG / 10), "{}", piece);
        }
    }

    #[test]
    fn a_writer_that_goes_writes_what_it_holds() {
        let mut out = Steps(std::vec![], std::vec![]);
        let mut writer = BufWriter::new(Global, Lent(&mut out)).unwrap();
        writer.write_all(b"held").unwrap();
        drop(writer);
        assert_eq!(out.1, b"held");
        let mut out = Steps(std::vec![Err(ErrorKind::Other), Ok(2)], std::vec![]);
        let mut writer = BufWriter::new(Global, Lent(&mut out)).unwrap();
        writer.write_all(b"held").unwrap();
        assert!(writer.flush().is_err());
        writer.flush().unwrap();
        drop(writer);
        assert_eq!(out.1, b"held");
        let mut out = Steps(std::vec![], std::vec![]);
        assert!(with(0, || BufWriter::new(Global, Lent(&mut out)).is_err()).0);
    }

    #[test]
    fn a_failure_leaves_what_is_buffered() {
        for (step, kind) in [(Ok(0), ErrorKind::Other), (Err(ErrorKind::StorageFull), ErrorKind::StorageFull)] {
            let mut out = Steps(std::vec![Ok(3), step, step, step], std::vec![]);
            let mut writer = BufWriter::new(Global, Lent(&mut out)).unwrap();
            writer.write_all(&bytes(8190)).unwrap();
            // Neither what doesn't fit in after it is taken, nor what is as long as the buffer.
            assert_eq!(writer.write(b"xyz").unwrap_err().kind(), kind);
            assert_eq!(writer.write(&bytes(9000)).unwrap_err().kind(), kind);
            assert_eq!(writer.flush().unwrap_err().kind(), kind);
            assert_eq!(writer.write(b"ab").unwrap(), 2);
            drop(writer);
            assert_eq!(out.1, [bytes(8190), b"ab".to_vec()].concat());
        }
        // What isn't buffered may be written in part.
        let mut out = Steps(std::vec![Ok(5000)], std::vec![]);
        let mut writer = BufWriter::new(Global, Lent(&mut out)).unwrap();
        assert_eq!(writer.write(&bytes(9000)).unwrap(), 5000);
        drop(writer);
        assert_eq!(out.1, bytes(5000));
        // A writer that fails while it goes ends nothing.
        let mut out = Steps(std::vec![Ok(1), Err(ErrorKind::Other)], std::vec![]);
        let mut writer = BufWriter::new(Global, Lent(&mut out)).unwrap();
        writer.write_all(b"held").unwrap();
        drop(writer);
        assert_eq!((out.0.len(), out.1), (0, b"h".to_vec()));
    }

    #[test]
    fn a_flush_reaches_the_writer_behind() {
        let mut out = Steps(std::vec![Ok(9), Err(ErrorKind::StorageFull), Ok(0)], std::vec![]);
        let mut writer = BufWriter::new(Global, Lent(&mut out)).unwrap();
        writer.write_all(b"held").unwrap();
        // (the bytes are written then)
        assert_eq!(writer.flush().unwrap_err().kind(), ErrorKind::StorageFull);
        writer.flush().unwrap();
        drop(writer);
        assert_eq!((out.0.len(), out.1), (0, b"held".to_vec()));
        fn flush<W: Write>(mut to: W) -> Result<(), Error> {
            to.flush()
        }
        let mut out = Steps(std::vec![Err(ErrorKind::StorageFull)], std::vec![]);
        let failed = flush(&mut out).unwrap_err();
        assert_eq!(failed.kind(), ErrorKind::StorageFull);
        assert!(flush(&mut out).is_ok());
    }

    /// What counts its calls.
    struct Counted<'a>(&'a Cell<usize>);

    impl Write for Counted<'_> {
        fn write(&mut self, buf: &[u8]) -> Result<usize, Error> {
            self.0.set(self.0.get() + 1);
            Ok(buf.len())
        }

        fn flush(&mut self) -> Result<(), Error> {
            Ok(())
        }
    }

    #[test]
    fn little_is_written_at_once() {
        let calls = Cell::new(0);
        let mut writer = BufWriter::new(Global, Counted(&calls)).unwrap();
        let mut counts = std::vec![];
        for len in [8191, 1, 1, 8191, 8192, 8192, 1, 0] {
            assert_eq!(writer.write(&bytes(len)).unwrap(), len);
            counts.push(calls.get());
        }
        writer.flush().unwrap();
        counts.push(calls.get());
        writer.flush().unwrap();
        drop(writer);
        counts.push(calls.get());
        // 8 KiB are kept back, and as many at once aren't kept.
        assert_eq!(counts, [0, 0, 1, 1, 3, 4, 4, 4, 5, 5]);
        // (the buffer takes no memory but its own)
        let mut writer = BufWriter::new(Global, Counted(&calls)).unwrap();
        let (answer, was_refused) = with(0, || (0..9000).try_for_each(|_| writer.write_all(b"x")));
        assert!(answer.is_ok() && !was_refused);
    }

    #[test]
    fn an_error_keeps_its_kind_beside_its_number() {
        for kind in [ErrorKind::NotFound, ErrorKind::StorageFull, ErrorKind::Other] {
            let error = Error::from(kind);
            assert_eq!((error.kind(), error.raw_os_error()), (kind, None));
            let error = error.with_code(Some(-5));
            assert_eq!((error.kind(), error.raw_os_error()), (kind, Some(-5)));
            let error = error.with_code(None);
            assert_eq!((error.kind(), error.raw_os_error()), (kind, None));
        }
    }

    /// A writer that another has.
    struct Lent<'a>(&'a mut Steps);

    impl Write for Lent<'_> {
        fn write(&mut self, buf: &[u8]) -> Result<usize, Error> {
            self.0.write(buf)
        }

        fn flush(&mut self) -> Result<(), Error> {
            self.0.flush()
        }
    }
}

#[cfg(all(feature = "program", unix))]
#[path = "rattle/host.rs"]
mod host_calls;
