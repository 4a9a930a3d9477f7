//! Each allocation of the library is refused in turn, and all after it, while a call moves, makes or changes many entries: none
//! is lost, none is twice, and each value is dropped once. `clear` and drops need none, of Rust's memory neither.
#![cfg(all(target_os = "linux", target_env = "gnu"))]

#[path = "common/memory.rs"]
mod memory;

use memory::{each_refused, granted, without_memory, Counted, ASKED_BY_RUST, LIVE};
use std::collections::BTreeMap;
use std::fmt::Debug;
use verified_art::map::Entry;
use verified_art::{AsKey, Key, Map, MapKey, Network, RouteTable, WordMap};

trait AnyKey: Ord + Clone + Debug {
    fn of(number: u64) -> Self;
}

impl AnyKey for u64 {
    /// In nodes of all sizes, and in no order.
    fn of(number: u64) -> u64 {
        ((number % 17) << 32) | (number / 17)
    }
}

impl AnyKey for Vec<u8> {
    /// Some are long.
    fn of(number: u64) -> Vec<u8> {
        let mut key = u64::of(number).to_be_bytes().to_vec();
        key.resize(if number % 7 == 6 { 300 } else { 10 }, 0);
        key
    }
}

impl AnyKey for (u64, String) {
    fn of(number: u64) -> Self {
        (number % 17, (number / 17).to_string())
    }
}

/// The maps of words and those of values, seen as the same one of std.
trait AnyMap<K>: Sized {
    fn of(entries: &BTreeMap<K, u64>) -> Self;
    /// By one call of the library.
    fn loaded(entries: &BTreeMap<K, u64>) -> Self;
    fn entries(&self) -> BTreeMap<K, u64>;
    fn append(&mut self, other: &mut Self);
    fn split_off(&mut self, key: &K) -> Self;
    fn retain(&mut self, keeps: impl FnMut(u64) -> bool);
    fn extend(&mut self, entries: &[(K, u64)]);
    fn collected(entries: &[(K, u64)]) -> Self;
    fn copied(&self) -> Self;
    fn clear(&mut self);
    /// How many values this has that count themselves.
    fn counted(&self) -> usize;
}

macro_rules! any_map {
    ($key:path, $map:ty, $ref:expr, $value:expr, $word:expr, $counted:expr) => {
        impl<K: AnyKey + $key> AnyMap<K> for $map {
            fn of(entries: &BTreeMap<K, u64>) -> Self {
                let mut map = Self::new();
                for (key, value) in entries {
                    map.insert(key.clone(), $value(*value));
                }
                map
            }

            fn loaded(entries: &BTreeMap<K, u64>) -> Self {
                Self::from_ascending(entries.iter().map(|(key, value)| (key.clone(), $value(*value)))).unwrap()
            }

            fn entries(&self) -> BTreeMap<K, u64> {
                self.iter().map(|(key, value)| (key.clone(), $word(value))).collect()
            }

            fn append(&mut self, other: &mut Self) {
                self.append(other)
            }

            fn split_off(&mut self, key: &K) -> Self {
                self.split_off($ref(key))
            }

            fn retain(&mut self, mut keeps: impl FnMut(u64) -> bool) {
                self.retain(|_, value| keeps($word(value)))
            }

            fn extend(&mut self, entries: &[(K, u64)]) {
                Extend::extend(self, entries.iter().map(|(key, value)| (key.clone(), $value(*value))))
            }

            fn collected(entries: &[(K, u64)]) -> Self {
                entries.iter().map(|(key, value)| (key.clone(), $value(*value))).collect()
            }

            fn copied(&self) -> Self {
                self.clone()
            }

            fn clear(&mut self) {
                self.clear()
            }

            fn counted(&self) -> usize {
                $counted(self)
            }
        }
    };
}

/// The word of a value, as an iterator gives it or a closure has it.
trait Word {
    fn word(self) -> u64;
}

impl Word for u64 {
    fn word(self) -> u64 {
        self
    }
}

impl Word for &u64 {
    fn word(self) -> u64 {
        *self
    }
}

impl Word for &mut u64 {
    fn word(self) -> u64 {
        *self
    }
}

impl Word for &Counted {
    fn word(self) -> u64 {
        self.0
    }
}

impl Word for &mut Counted {
    fn word(self) -> u64 {
        self.0
    }
}

any_map!(WordKey, WordMap<K>, K::clone, |value| value, Word::word, |_| 0);
any_map!(MapKey, Map<K, Counted>, |key| key, Counted::new, Word::word, Map::len);
any_map!(MapKey, Map<K, u64>, |key| key, |value| value, Word::word, |_| 0);

/// The keys of maps of words.
trait WordKey: Key + AsKey<Self> {}

impl<K: Key + AsKey<K>> WordKey for K {}

/// Entries of some keys, each with another value.
fn entries<K: AnyKey>(numbers: std::ops::Range<u64>, more: u64) -> BTreeMap<K, u64> {
    numbers.map(|number| (K::of(number), number + more)).collect()
}

fn appends<K: AnyKey, M: AnyMap<K>>() {
    let (ones, others) = (entries::<K>(0..80, 0), entries::<K>(40..300, 1000));
    each_refused(|allocations| {
        let (mut one, mut other) = (M::of(&ones), M::loaded(&others));
        let refused = granted(allocations, || one.append(&mut other)).is_none();
        // So many of the other one have moved, from the first one on.
        let moved = others.len() - other.entries().len();
        let (mut due, mut rest) = (ones.clone(), others.clone());
        due.extend((0..moved).map(|_| rest.pop_first().unwrap()));
        assert_eq!((one.entries(), other.entries()), (due, rest));
        assert_eq!(refused, moved < others.len());
        assert_eq!(LIVE.get(), one.counted() + other.counted());
        drop((one, other));
        assert_eq!(LIVE.get(), 0);
        refused
    });
}

fn splits_off<K: AnyKey, M: AnyMap<K>>() {
    let due = entries::<K>(0..300, 0);
    let middle = due.keys().nth(100).unwrap();
    each_refused(|allocations| {
        let mut map = M::loaded(&due);
        let split = granted(allocations, || map.split_off(middle));
        let mut rest = due.clone();
        if let Some(split) = &split {
            assert_eq!(split.entries(), rest.split_off(middle));
        }
        let refused = split.is_none();
        assert_eq!(map.entries(), rest);
        assert_eq!(LIVE.get(), map.counted() + split.as_ref().map_or(0, M::counted));
        drop((map, split));
        assert_eq!(LIVE.get(), 0);
        refused
    });
}

/// While all memory of the library is refused, since it needs none.
fn retains<K: AnyKey, M: AnyMap<K>>() {
    let all = entries::<K>(0..300, 0);
    let mut due = all.clone();
    due.retain(|_, value| *value % 3 == 0);
    for make in [M::of, M::loaded] {
        let mut map = make(&all);
        granted(0, || map.retain(|value| value % 3 == 0)).expect("nothing is refused");
        assert_eq!((map.entries(), LIVE.get()), (due.clone(), map.counted()));
        drop(map);
        assert_eq!(LIVE.get(), 0);
    }
}

fn extends<K: AnyKey, M: AnyMap<K>>() {
    let ones = entries::<K>(0..80, 0);
    let given: Vec<_> = (40..200).map(|number| (K::of(number), number + 1000)).collect();
    each_refused(|allocations| {
        let mut map = M::of(&ones);
        let refused = granted(allocations, || map.extend(&given)).is_none();
        let entries = map.entries();
        // Those before some place are in, and no others.
        let is_due = |done: usize| {
            let mut due = ones.clone();
            due.extend(given[..done].iter().cloned());
            entries == due
        };
        assert!(if refused { (0..given.len()).any(is_due) } else { is_due(given.len()) });
        assert_eq!(LIVE.get(), map.counted());
        drop(map);
        assert_eq!(LIVE.get(), 0);
        refused
    });
}

fn collects<K: AnyKey, M: AnyMap<K>>() {
    let due = entries::<K>(0..300, 0);
    let ascending: Vec<_> = due.clone().into_iter().collect();
    let few = entries::<K>(0..40, 0);
    let descending = few.clone().into_iter().rev().collect();
    for (given, due) in [(ascending, &due), (descending, &few)] {
        each_refused(|allocations| {
            let map = granted(allocations, || M::collected(&given));
            assert_eq!(LIVE.get(), map.as_ref().map_or(0, M::counted));
            assert!(map.as_ref().is_none_or(|map| map.entries() == *due));
            map.is_none()
        });
    }
    let map = M::of(&due);
    each_refused(|allocations| {
        let copy = granted(allocations, || map.copied());
        assert_eq!(LIVE.get(), map.counted() + copy.as_ref().map_or(0, M::counted));
        assert!(copy.as_ref().is_none_or(|copy| copy.entries() == due));
        copy.is_none()
    });
}

fn clears_and_drops<K: AnyKey, M: AnyMap<K>>() {
    let due = entries::<K>(0..300, 0);
    for make in [M::of, M::loaded] {
        let mut map = make(&due);
        without_memory(|| map.clear());
        assert_eq!((LIVE.get(), map.entries()), (0, BTreeMap::new()));
        map.extend(&[(K::of(6), 6)]);
        assert_eq!(map.entries(), entries(6..7, 0));
        without_memory(|| drop(map));
        assert_eq!(LIVE.get(), 0);
        let mut map = make(&due);
        let split = map.split_off(due.keys().nth(100).unwrap());
        map.retain(|value| value % 3 == 0);
        without_memory(|| drop((map, split)));
        assert_eq!(LIVE.get(), 0);
    }
}

macro_rules! tests {
    ($($name:ident),*) => {
        $(mod $name {
            use super::*;

            #[test]
            fn of_words() {
                super::$name::<u64, WordMap<u64>>();
                super::$name::<Vec<u8>, WordMap<Vec<u8>>>();
            }

            #[test]
            fn of_values() {
                super::$name::<u64, Map<u64, u64>>();
                super::$name::<u64, Map<u64, Counted>>();
                super::$name::<Vec<u8>, Map<Vec<u8>, Counted>>();
                super::$name::<(u64, String), Map<(u64, String), Counted>>();
            }
        })*
    };
}

tests!(appends, splits_off, retains, extends, collects, clears_and_drops);

/// Each kind of removal while all memory of the library is refused. What is put in again later finds its place.
fn removes<K: AnyKey + MapKey>() {
    let all = entries::<K>(0..300, 0);
    let (mut map, mut due) = (Map::<K, Counted>::loaded(&all), all.clone());
    let keys: Vec<K> = all.keys().cloned().collect();
    for turn in 0..6 {
        granted(0, || {
            for key in keys.iter().skip(turn).step_by(3).take(60) {
                assert_eq!(map.remove(key).map(|value| value.0), due.remove(key));
            }
            for _ in 0..20 {
                assert_eq!(map.pop_first().map(|(key, value)| (key, value.0)), due.pop_first());
                assert_eq!(map.pop_last().map(|(_, value)| value.0), due.pop_last().map(|(_, value)| value));
                assert_eq!(map.last_entry().map(|entry| entry.remove().0), due.pop_last().map(|(_, value)| value));
                assert_eq!(map.first_key_value().map(|(key, _)| key), due.keys().next());
            }
            map.retain(|_, value| value.0 % 5 != turn as u64);
            due.retain(|_, value| *value % 5 != turn as u64);
        })
        .expect("no removal is refused");
        assert_eq!((map.entries(), map.len(), LIVE.get()), (due.clone(), due.len(), due.len()));
        assert!(map.iter().rev().map(|(key, _)| key).eq(due.keys().rev()));
        let (copy, more) = (map.clone(), entries::<K>(50 * turn as u64..250, 1000 * turn as u64));
        assert_eq!((copy.entries(), map.get(&keys[7]).map(|value| value.0)), (due.clone(), due.get(&keys[7]).copied()));
        drop(copy);
        Extend::extend(&mut map, more.iter().map(|(key, value)| (key.clone(), Counted::new(*value))));
        due.extend(more);
        assert_eq!((map.entries(), LIVE.get()), (due.clone(), due.len()));
        assert!(due.iter().all(|(key, value)| map[key].0 == *value));
    }
    let (mut other, middle) = (Map::new(), &keys[150]);
    other.append(&mut map.split_off(middle));
    assert!(map.entries().into_iter().chain(other.entries()).eq(due));
}

/// The same of a map of words, and what looks at it.
fn removes_words<K: WordKey + AnyKey>() {
    let mut due = entries::<K>(0..300, 0);
    let (mut map, keys) = (WordMap::loaded(&due), due.keys().cloned().collect::<Vec<K>>());
    granted(0, || {
        for key in keys.iter().step_by(3) {
            assert_eq!(
                (map.get(key.clone()), map.insert(key.clone(), 7)),
                (due.get(key).copied(), due.insert(key.clone(), 7))
            );
            assert_eq!((map.remove(key.clone()), map.remove(key.clone())), (due.remove(key), None));
        }
        for _ in 0..20 {
            assert_eq!((map.pop_first(), map.pop_last()), (due.pop_first(), due.pop_last()));
            assert_eq!(map.last_entry().map(|entry| entry.remove_entry()), due.pop_last());
            assert_eq!(map.first_key_value(), due.first_key_value().map(|(key, value)| (key.clone(), *value)));
        }
        map.values_mut().for_each(|mut value| *value += 1);
        due.values_mut().for_each(|value| *value += 1);
        assert!(map.iter().rev().eq(due.clone().into_iter().rev()));
        let picks = |_: &K, value: &mut u64| *value % 2 == 0;
        assert!(map.extract_if(.., picks).map(|(key, _)| due.remove(&key)).all(|removed| removed.is_some()));
    })
    .expect("nothing is refused");
    assert_eq!(map.entries(), due);
}

/// A map of which some entries were moved out before memory was refused, as all later calls see it.
#[test]
fn what_an_append_leaves_is_a_map() {
    type Key = (u64, String);
    let (ones, others) = (entries::<Key>(0..5, 0), entries::<Key>(0..300, 1000));
    let left = |allocations: u64| -> Option<(Map<Key, Counted>, BTreeMap<Key, u64>)> {
        let (mut one, mut other) = (Map::of(&ones), Map::loaded(&others));
        granted(allocations, || Map::append(&mut one, &mut other)).is_none().then_some(())?;
        let moved = others.len() - other.len();
        Some((other, others.clone().into_iter().skip(moved).collect()))
    };
    let allocations = (1..).find(|allocations| left(*allocations).is_none_or(|(map, _)| map.len() < 250)).unwrap();
    let made = || left(allocations).expect("some have moved");
    let ((mut map, mut due), gone) = (made(), others.keys().take(3).cloned().collect::<Vec<_>>());
    let first = due.first_key_value().unwrap().0.clone();
    assert_eq!(map.first_key_value().map(|(key, _)| key), Some(&first));
    assert!(map.get(&gone[0]).is_none() && !map.contains_key(&gone[0]) && map.remove(&gone[0]).is_none());
    assert!(matches!(map.entry(gone[1].clone()), Entry::Vacant(_)));
    assert_eq!((map.clone().entries(), map.len()), (due.clone(), due.len()));
    assert!(map.values().rev().map(|value| value.0).eq(due.values().rev().copied()));
    assert_eq!(map.pop_first().map(|(key, value)| (key, value.0)), due.pop_first());
    let mut rest = made().0;
    let split = rest.split_off(&gone[2]);
    assert_eq!((rest.len(), split.len()), (0, due.len() + 1));
    map.insert(gone[1].clone(), Counted::new(9));
    due.insert(gone[1].clone(), 9);
    assert!(map.into_iter().map(|(key, value)| (key, value.0)).eq(due));
    drop((rest, split));
    assert_eq!(LIVE.get(), 0);
}

#[test]
fn removals_take_no_memory() {
    removes::<u64>();
    removes::<(u64, String)>();
    removes_words::<u64>();
    removes_words::<Vec<u8>>();
}

/// The place of an entry that is gone is that of the next one, whichever way it went.
#[test]
fn places_are_used_again() {
    let mut map: Map<u64, u64> = (0..1000).map(|number| (u64::of(number), number)).collect();
    let mut turn = |number: u64| {
        let (key, value) = map.pop_first().expect("there is a first one");
        assert_eq!((map.insert(key, value), map.insert(key, value)), (None, Some(value)));
        let key = u64::of(number);
        assert_eq!((map.remove(&key), map.insert(key, 5)), (Some(number), None));
        match map.entry(key) {
            Entry::Occupied(entry) => assert_eq!(entry.remove(), 5),
            Entry::Vacant(_) => unreachable!("{key} was put in"),
        }
        map.entry(key).or_insert(number);
    };
    turn(999);
    let asked = ASKED_BY_RUST.get();
    (0..900).chain(0..900).for_each(turn);
    assert_eq!(ASKED_BY_RUST.get(), asked);
}

#[test]
fn a_table_is_extended_copied_and_cleared() {
    let route = |number: u8| {
        (Network::truncated([10, number % 7, number, 0], 8 + number % 17).unwrap(), Counted::new(number.into()))
    };
    let first = |count: u8| -> BTreeMap<String, u64> {
        (0..count).map(route).map(|(network, value)| (network.to_string(), value.0)).collect()
    };
    let shown = |table: &RouteTable<Counted>| -> BTreeMap<String, u64> {
        table.iter().map(|(network, value)| (network.to_string(), value.0)).collect()
    };
    let mut whole = RouteTable::new();
    whole.extend((0..200).map(route));
    each_refused(|allocations| {
        let mut table = RouteTable::new();
        let refused = granted(allocations, || table.extend((0..200).map(route))).is_none();
        assert!((0..=200).any(|count| shown(&table) == first(count)) && (refused || shown(&table) == shown(&whole)));
        assert_eq!(LIVE.get(), whole.len() + table.len());
        let copy = granted(allocations, || whole.clone());
        assert_eq!(LIVE.get(), whole.len() + table.len() + copy.as_ref().map_or(0, RouteTable::len));
        assert!(copy.as_ref().is_none_or(|copy| shown(copy) == shown(&whole)));
        refused || copy.is_none()
    });
    without_memory(|| whole.clear());
    assert_eq!((LIVE.get(), whole.len(), whole.iter().count()), (0, 0, 0));
    whole.extend((0..9).map(route));
    assert_eq!((LIVE.get(), shown(&whole)), (whole.len(), first(9)));
    without_memory(|| drop(whole));
    assert_eq!(LIVE.get(), 0);
}

#[test]
fn a_table_is_retained_and_routes_are_added() {
    let made = || (0..=255u8).map(|at| ([at, 0, 0, 0].into(), Counted::new(at.into()))).collect::<RouteTable<_>>();
    let is_kept = |number: u64| number % 100 == 0;
    each_refused(|allocations| {
        let (mut table, mut calls) = (made(), 0);
        // So that no node of another kind has room.
        table.compact();
        let keeps = |_: &Network, value: &mut Counted| {
            calls += 1;
            is_kept(value.0)
        };
        let refused = granted(allocations, || table.retain(keeps)).is_none();
        // The one at which it ended stays, and those behind it.
        let done = if refused { calls - 1 } else { 256 };
        assert!(table.values().map(|value| value.0).eq((0..256).filter(|&at| is_kept(at) || at >= done)));
        assert_eq!(LIVE.get(), table.len());
        refused
    });
    each_refused(|allocations| {
        let mut table = RouteTable::new();
        let refused = (0..=255u8).any(|at| {
            let added =
                granted(allocations, || table.entry([at, 0, 0, 0].into()).or_insert_with(|| Counted::new(at.into())).0);
            added.is_none()
        });
        assert_eq!(LIVE.get(), table.len());
        refused
    });
}

#[test]
fn a_table_is_read_without_memory() {
    let route = |number: u8| (Network::from([10, number, 0, 0]), Counted::new(number.into()));
    let (table, other) =
        ((0..99).map(route).collect::<RouteTable<_>>(), (50..=120).map(route).collect::<RouteTable<_>>());
    let all = Network::truncated([10, 0, 0, 0], 8).unwrap();
    without_memory(|| {
        assert_eq!((table.iter().rev().count(), table.children(all).rev().count()), (99, 99));
        assert_eq!((table.free(all, 16).count(), table.direct_children(all).count()), (157, 99));
    });
    without_memory(|| {
        let mut routes = table.into_iter();
        assert_eq!((routes.next().unwrap().1 .0, routes.next_back().unwrap().1 .0, routes.len()), (0, 98, 97));
        routes.by_ref().take(50).for_each(drop);
        assert_eq!(LIVE.get(), 47 + other.len());
    });
    without_memory(|| drop(other));
    assert_eq!(LIVE.get(), 0);
}
