//! Encodings of each type of keys beside its `Ord`: of all pairs of boundary and random values, alone and as parts of tuples.
mod common;

use common::Random;
use std::borrow::Cow;
use std::cmp::{Ordering, Reverse};
use std::fmt::Debug;
use std::net::{IpAddr, Ipv4Addr, Ipv6Addr};
use std::num::{NonZeroI16, NonZeroU64, Wrapping};
use std::panic::{catch_unwind, AssertUnwindSafe};
use std::rc::Rc;
use std::sync::Arc;
use std::time::Duration;
use verified_art::{Encoding, Map, MapKey};

/// An encoding by value.
#[derive(Debug, PartialEq, Eq, PartialOrd, Ord)]
enum Encoded {
    Number(u64),
    Bytes(Vec<u8>),
}

fn encoded(key: &(impl MapKey + ?Sized)) -> Encoded {
    key.encode(|encoding| match encoding {
        Encoding::Number(number) => Encoded::Number(number),
        Encoding::Bytes(bytes) => Encoded::Bytes(bytes.to_vec()),
    })
}

/// Compares the encodings of all pairs, as what has them is compared.
fn sort_as(encodings: Vec<Encoded>, compare: &dyn Fn(usize, usize) -> Ordering) {
    for (one, its) in encodings.iter().enumerate() {
        for (other, of_other) in encodings.iter().enumerate() {
            assert_eq!(its.cmp(of_other), compare(one, other), "{its:?} {of_other:?}");
            assert_eq!(matches!(its, Encoded::Number(_)), matches!(of_other, Encoded::Number(_)));
        }
    }
}

/// The encodings of keys, and of keys that have them as parts; and each key through a map.
fn are_keys<K: MapKey + Clone + Debug>(keys: Vec<K>) {
    let mut random = Random(keys.len() as u64);
    let mut any = || random.below(keys.len() as u64) as usize;
    let picked: Vec<[usize; 3]> = (0..99).map(|_| [any(), any(), any()]).collect();
    let order = |one: usize, other: usize| keys[one].cmp(&keys[other]);
    // Of two of what was picked, the order of these parts.
    let part = |one: usize, other: usize, at: usize| order(picked[one][at], picked[other][at]);
    let of_parts = |one, other| part(one, other, 0).then_with(|| part(one, other, 1)).then_with(|| part(one, other, 2));
    let backwards =
        |one, other| part(other, one, 0).then_with(|| part(one, other, 1)).then_with(|| part(other, one, 2));

    sort_as(keys.iter().map(encoded).collect(), &order);
    sort_as(keys.iter().map(|key| encoded(&Reverse(key))).collect(), &|one, other| order(other, one));
    let mut some: Vec<_> = keys.iter().map(|key| encoded(&Some(key))).collect();
    some.push(encoded(&None::<&K>));
    let is_some = |at: usize| at < keys.len();
    sort_as(some, &|one, other| match (is_some(one), is_some(other)) {
        (true, true) => order(one, other),
        both => both.0.cmp(&both.1),
    });
    let parts = picked.iter().map(|picked| picked.map(|at| &keys[at]));
    sort_as(parts.clone().map(|[a, b, c]| encoded(&(a, b, c))).collect(), &of_parts);
    sort_as(parts.clone().map(|[a, b, c]| encoded(&((Some(a), 'x', Some(b)), (), c))).collect(), &of_parts);
    sort_as(parts.clone().map(|[a, b, c]| encoded(&(Reverse(a), b, Reverse((c, 1u8))))).collect(), &backwards);
    sort_as(parts.map(|[a, b, c]| encoded(&Reverse((Some(a), Some(Reverse(b)), c)))).collect(), &backwards);

    let mut map = Map::new();
    for key in &keys {
        map.insert(key, ());
    }
    assert!(map.keys().is_sorted_by(|one, other| one < other));
    assert!(keys.iter().all(|key| map.get_key_value(key) == Some((&key, &()))));
}

/// Boundary values of a type of numbers and random ones of all sizes.
macro_rules! numbers {
    ($($number:ty),*) => {
        $({
            let (mut random, bits) = (Random(9), <$number>::BITS);
            let mut keys = vec![<$number>::MIN, <$number>::MAX, 0, 1, <$number>::MIN + 1, <$number>::MAX - 1, <$number>::MAX / 2];
            keys.extend((0..bits).flat_map(|bit| [1 << bit, (1 as $number) << bit.saturating_sub(1) | 1]));
            keys.extend((0..bits).map(|bit| !(1 << bit)));
            let wide = |random: &mut Random| (random.next() as u128) << 64 | random.next() as u128;
            keys.extend((0..40).map(|_| (wide(&mut random) as $number) >> random.below(bits.into())));
            are_keys(keys);
        })*
    };
}

#[test]
fn unsigned_numbers() {
    numbers!(u8, u16, u32, u64, u128, usize);
}

#[test]
fn signed_numbers() {
    numbers!(i8, i16, i32, i64, i128, isize);
}

#[test]
fn other_numbers() {
    are_keys(vec![false, true]);
    are_keys(vec!['\0', 'a', '\u{7f}', '\u{80}', '\u{d7ff}', '\u{e000}', '\u{ffff}', '\u{10000}', char::MAX]);
    are_keys(vec![Ordering::Less, Ordering::Equal, Ordering::Greater]);
    are_keys(vec![()]);
    are_keys([1, 2, 255, 256, u64::MAX].map(|it| NonZeroU64::new(it).unwrap()).to_vec());
    are_keys([-1, 1, i16::MIN, i16::MAX].map(|it| NonZeroI16::new(it).unwrap()).to_vec());
    are_keys([-1, 0, 1, i64::MIN, i64::MAX].map(Wrapping).to_vec());
    let durations = [(0, 0), (0, 1), (0, 999_999_999), (1, 0), (u64::MAX, 999_999_999), (1 << 40, 5)];
    are_keys(durations.map(|(seconds, more)| Duration::new(seconds, more)).to_vec());
}

#[test]
fn strings() {
    let mut random = Random(4);
    let mut keys: Vec<String> = [
        "",
        "\0",
        "\0\0",
        "\0\u{1}",
        "\u{1}",
        "a",
        "a\0",
        "a\0b",
        "a\u{1}",
        "ab",
        "é",
        "\u{7f}",
        "\u{ff}",
        "\u{10ffff}",
    ]
    .map(String::from)
    .to_vec();
    keys.extend((0..60).map(|_| String::from_utf8_lossy(&random.bytes()).into_owned()));
    keys.extend((40..80).map(|length| "\0é".repeat(length / 2)));
    are_keys(keys.iter().map(String::as_str).collect());
    are_keys(keys.iter().map(|it| it.clone().into_boxed_str()).collect());
    are_keys(keys.iter().map(|it| Rc::<str>::from(it.as_str())).collect());
    are_keys(keys.iter().map(|it| Cow::from(it.as_str())).collect());
    are_keys(keys);
}

#[test]
fn byte_strings() {
    let mut random = Random(5);
    let letters = [0, 1, 2, 254, 255];
    let mut keys: Vec<Vec<u8>> = vec![vec![]];
    for first in letters {
        keys.push(vec![first]);
        keys.extend(letters.iter().map(|second| vec![first, *second]));
        keys.extend(letters.iter().map(|second| vec![0, first, *second]));
    }
    keys.extend((0..40).map(|_| random.bytes()));
    keys.extend((45..52).flat_map(|length| [vec![0; length], vec![255; length]]));
    are_keys(keys.iter().map(Vec::as_slice).collect());
    are_keys(keys.iter().map(|it| it.clone().into_boxed_slice()).collect());
    are_keys(keys.iter().map(|it| Arc::<[u8]>::from(it.as_slice())).collect());
    are_keys(keys);
}

#[test]
fn arrays_of_bytes() {
    let mut random = Random(6);
    let number = |random: &mut Random| random.number();
    are_keys((0..80).map(|_| number(&mut random).to_be_bytes()).collect());
    are_keys((0..80).map(|_| [number(&mut random) as u8, number(&mut random) as u8, 0]).collect());
    are_keys(vec![[0u8; 0]]);
    are_keys((0..20).map(|_| [number(&mut random) as u8; 70]).collect());
    let map: Map<[u8; 2], u32> = [([1, 2], 12), ([3, 4], 34)].into();
    assert_eq!((map.get(&[3, 4]), map.get(&[3u8, 4][..]), map.get(&[3u8][..])), (Some(&34), Some(&34), None));
}

#[test]
fn addresses() {
    let mut random = Random(7);
    let mut fours = vec![Ipv4Addr::UNSPECIFIED, Ipv4Addr::LOCALHOST, Ipv4Addr::BROADCAST];
    fours.extend((0..40).map(|_| Ipv4Addr::from_bits(random.number() as u32)));
    let mut sixes = vec![Ipv6Addr::UNSPECIFIED, Ipv6Addr::LOCALHOST, Ipv6Addr::from_bits(u128::MAX)];
    sixes.extend((0..40).map(|_| Ipv6Addr::from_bits((random.number() as u128) << random.below(65))));
    are_keys(fours.iter().copied().map(IpAddr::from).chain(sixes.iter().copied().map(IpAddr::from)).collect());
    are_keys(fours);
    are_keys(sixes);
}

#[test]
fn parts_of_eight_bytes_and_more() {
    let mut random = Random(8);
    let mut small = |end: u64| random.below(end);
    are_keys((0..90).map(|_| (small(3) as u32, small(300) as u32)).collect());
    are_keys((0..90).map(|_| (small(3) as u32, small(300) as u32, small(2) == 0)).collect());
    are_keys((0..90).map(|_| (Some(small(3) as i8 - 1).filter(|it| *it < 1), small(300) as u16)).collect());
    are_keys((0..90).map(|_| Some(small(3) as i64 - 1).filter(|it| *it < 1)).collect());
    are_keys((0..90).map(|_| Some(Some(small(3) as u16)).filter(|it| *it < Some(2))).collect());
    are_keys((0..90).map(|_| (Reverse(small(3) as i16 - 1), (small(3) as u8, 'a'), false)).collect());
    are_keys((0..90).map(|_| ([small(3) as u8, small(2) as u8], Reverse([small(3) as u8]))).collect());
    are_keys((0..90).map(|_| Reverse([small(3) as u8, small(300) as u8])).collect());
}

#[test]
fn forms_that_are_borrowed_have_the_same_encodings() {
    assert_eq!(encoded("tin\0"), encoded(&"tin\0".to_string()));
    assert_eq!(encoded(&"tin\0"), encoded(&Box::<str>::from("tin\0")));
    assert_eq!(encoded(&[1, 0][..]), encoded(&vec![1, 0]));
    assert_eq!(encoded(&[1, 0][..]), encoded(&[1, 0]));
    assert_eq!(encoded(&Rc::new(5)), encoded(&5));
    assert_eq!(encoded(&(1, "a")), encoded(&(&1, &"a".to_string())));
}

/// A key of a type of one's own, whose own order is another one than that of its parts.
#[derive(Clone, Debug, PartialEq, Eq)]
struct Priority {
    level: u8,
    name: String,
}

impl PartialOrd for Priority {
    fn partial_cmp(&self, other: &Self) -> Option<Ordering> {
        Some(self.cmp(other))
    }
}

impl Ord for Priority {
    fn cmp(&self, other: &Self) -> Ordering {
        other.level.cmp(&self.level).then_with(|| self.name.cmp(&other.name))
    }
}

impl MapKey for Priority {
    fn encode<T>(&self, take: impl FnOnce(Encoding<'_>) -> T) -> T {
        (Reverse(self.level), &self.name).encode(take)
    }
}

#[derive(Clone, Copy, Debug, PartialEq, Eq, PartialOrd, Ord)]
struct UserId(u32);

impl MapKey for UserId {
    fn encode<T>(&self, take: impl FnOnce(Encoding<'_>) -> T) -> T {
        self.0.encode(take)
    }
}

#[test]
fn types_of_ones_own() {
    let mut random = Random(10);
    let name = |random: &mut Random| String::from_utf8_lossy(&random.bytes()).into_owned();
    are_keys((0..60).map(|_| Priority { level: random.below(3) as u8, name: name(&mut random) }).collect());
    are_keys((0..60).map(|_| UserId(random.number() as u32)).collect());
}

/// Keys that break what is asked of them: a map of them may find anything, and stays whole.
#[test]
fn keys_without_order_break_no_map() {
    use std::cell::Cell;
    thread_local!(static STEPS: Cell<u64> = const { Cell::new(0) });

    #[derive(Clone, Copy, Debug, PartialEq, Eq, PartialOrd, Ord)]
    struct Unsteady(u64);

    impl MapKey for Unsteady {
        fn encode<T>(&self, take: impl FnOnce(Encoding<'_>) -> T) -> T {
            STEPS.set(STEPS.get() + 1);
            take(Encoding::Number(self.0 ^ Random(STEPS.get()).below(3)))
        }
    }

    let (mut random, counted) = (Random(11), Rc::new(()));
    let mut map = Map::new();
    for step in 0..30_000 {
        let key = Unsteady(random.below(100));
        match random.below(12) {
            0..=4 => drop(map.insert(key, counted.clone())),
            5..=6 => drop(map.remove(&key)),
            7 => drop(map.entry(key).or_insert_with(|| counted.clone())),
            8 => drop(map.first_entry().map(|entry| entry.remove())),
            9 if step % 50 == 0 => map.retain(|key, _| key.0 % 5 > 0),
            10 if step % 50 == 0 => drop(catch_unwind(AssertUnwindSafe(|| map.split_off(&key)))),
            11 => drop((map.pop_last(), map.range(key..).count(), map.get(&key))),
            _ => map.values_mut().for_each(|value| *value = counted.clone()),
        }
        assert_eq!(Rc::strong_count(&counted), 1 + map.len());
        assert_eq!(map.iter().count(), map.len());
    }
    drop(map);
    assert_eq!(Rc::strong_count(&counted), 1);
}

#[test]
#[should_panic(expected = "all numbers, or all bytes")]
fn keys_of_two_kinds_panic() {
    #[derive(PartialEq, Eq, PartialOrd, Ord)]
    struct Either(Option<u64>);

    impl MapKey for Either {
        fn encode<T>(&self, take: impl FnOnce(Encoding<'_>) -> T) -> T {
            take(self.0.map_or(Encoding::Bytes(b"none"), Encoding::Number))
        }
    }

    let mut map = Map::from([(Either(None), 1)]);
    assert_eq!((map.get(&Either(Some(1))), map.get(&Either(None))), (None, Some(&1)));
    map.insert(Either(Some(1)), 2);
}
