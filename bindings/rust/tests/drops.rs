//! Each value of a `Map` is dropped exactly once, whichever way it leaves the map.
mod common;

use common::Random;
use std::cell::Cell;
use std::panic::{catch_unwind, AssertUnwindSafe};
use std::rc::Rc;
use verified_art::Map;

/// Counts its drops, and may panic in one.
struct Counted<'a> {
    drops: &'a Cell<u32>,
    panics: bool,
}

impl Drop for Counted<'_> {
    fn drop(&mut self) {
        self.drops.set(self.drops.get() + 1);
        if self.panics {
            panic!("a drop that panics");
        }
    }
}

fn filled(drops: &Cell<u32>, count: u64) -> Map<u64, Counted<'_>> {
    (0..count).map(|key| (key, Counted { drops, panics: false })).collect()
}

#[test]
fn a_map_drops_all_values() {
    let drops = Cell::new(0);
    drop(filled(&drops, 1000));
    assert_eq!(drops.get(), 1000);
}

#[test]
fn clear_drops_all_values_and_leaves_a_map() {
    let drops = Cell::new(0);
    let mut map = filled(&drops, 100);
    map.clear();
    assert_eq!((drops.get(), map.len()), (100, 0));
    map.insert(5, Counted { drops: &drops, panics: false });
    drop(map);
    assert_eq!(drops.get(), 101);
}

#[test]
fn what_is_replaced_or_removed_is_dropped_by_the_caller() {
    let drops = Cell::new(0);
    let mut map = filled(&drops, 10);
    let before = map.insert(3, Counted { drops: &drops, panics: false });
    assert_eq!(drops.get(), 0);
    drop(before);
    assert_eq!(drops.get(), 1);
    let removed = (map.remove(&4), map.pop_first(), map.pop_last());
    assert_eq!(drops.get(), 1);
    drop(removed);
    assert_eq!(drops.get(), 4);
    assert!(map.remove(&4).is_none());
    drop(map);
    assert_eq!(drops.get(), 11);
}

#[test]
fn an_iterator_by_value_drops_what_it_does_not_give() {
    let drops = Cell::new(0);
    let mut entries = filled(&drops, 50).into_iter();
    let given: Vec<_> = entries.by_ref().take(10).collect();
    let last = entries.next_back();
    assert_eq!((drops.get(), entries.len()), (0, 39));
    drop(entries);
    assert_eq!(drops.get(), 39);
    drop((given, last));
    assert_eq!(drops.get(), 50);
}

#[test]
fn a_drop_that_panics_leaves_the_others_to_be_dropped() {
    let drops = Cell::new(0);
    let mut map = filled(&drops, 200);
    map.insert(70, Counted { drops: &drops, panics: true });
    assert_eq!(drops.get(), 1);
    assert!(catch_unwind(AssertUnwindSafe(move || drop(map))).is_err());
    assert_eq!(drops.get(), 201);
    let mut map = filled(&drops, 200);
    drop(map.insert(70, Counted { drops: &drops, panics: true }));
    assert!(catch_unwind(AssertUnwindSafe(|| map.clear())).is_err());
    assert_eq!((drops.get(), map.len(), map.iter().count()), (402, 0, 0));
    map.insert(5, Counted { drops: &drops, panics: false });
    drop(map);
    assert_eq!(drops.get(), 403);
}

#[test]
fn clones_of_values_are_dropped_with_the_clone() {
    let value = Rc::new(());
    let map: Map<&str, Rc<()>> = ["tin", "gold", ""].into_iter().map(|key| (key, value.clone())).collect();
    let copy = map.clone();
    assert_eq!(Rc::strong_count(&value), 7);
    drop(map);
    assert_eq!(Rc::strong_count(&value), 4);
    assert_eq!(copy.len(), 3);
    drop(copy);
    assert_eq!(Rc::strong_count(&value), 1);
}

#[test]
fn ascending_entries_are_dropped_where_no_map_is_made_of_them() {
    let drops = Cell::new(0);
    let counted = |panics| Counted { drops: &drops, panics };
    let map = Map::from_ascending((0..50u64).map(|key| (key, counted(false)))).unwrap();
    assert_eq!((drops.get(), map.len()), (0, 50));
    drop(map);
    assert_eq!(drops.get(), 50);
    assert!(Map::from_ascending([(7u64, counted(false)), (5, counted(false))]).is_err());
    assert_eq!(drops.get(), 52);
    let stopped = (0..50u64).map(|key| (key, if key < 30 { counted(false) } else { panic!("no more entries") }));
    assert!(catch_unwind(AssertUnwindSafe(|| Map::from_ascending(stopped))).is_err());
    assert_eq!(drops.get(), 82);
    let refused = [9u64, 8, 7, 6].map(|key| (key, counted(key == 8)));
    assert!(catch_unwind(AssertUnwindSafe(|| Map::from_ascending(refused))).is_err());
    assert_eq!(drops.get(), 86);
}

#[test]
fn random_calls_lose_no_value() {
    let value = Rc::new(());
    let mut random = Random(3);
    let mut map = Map::<Vec<u8>, Rc<()>>::new();
    for _ in 0..100_000 {
        let key = random.bytes();
        match random.below(8) {
            0..=4 => drop(map.insert(key, value.clone())),
            5..=6 => drop(map.remove(&key)),
            _ if random.below(2000) == 0 => map.clear(),
            _ => drop(map.pop_last()),
        }
        assert_eq!(Rc::strong_count(&value), map.len() + 1);
    }
}

#[test]
fn values_without_a_size_are_counted_too() {
    let mut map: Map<&str, ()> = [("a", ()), ("b", ())].into();
    assert_eq!(map.insert("a", ()), Some(()));
    assert_eq!((map.len(), map.remove("b"), map.remove("b")), (2, Some(()), None));
}

#[test]
fn calls_that_move_many_entries_drop_each_value_once() {
    let drops = Cell::new(0);
    let (mut map, mut other) = (filled(&drops, 50), filled(&drops, 30));
    map.append(&mut other);
    assert_eq!((drops.get(), map.len(), other.len()), (30, 50, 0));
    let split = map.split_off(&40);
    assert_eq!((drops.get(), map.len(), split.len()), (30, 40, 10));
    drop(split);
    assert_eq!(drops.get(), 40);
    map.retain(|key, _| key % 2 == 0);
    assert_eq!((drops.get(), map.len()), (60, 20));
    let taken: Vec<_> = map.extract_if(10.., |_, _| true).take(3).collect();
    assert_eq!((drops.get(), map.len()), (60, 17));
    drop(taken);
    assert_eq!((map.into_keys().count(), drops.get()), (17, 80));
    let mut values = filled(&drops, 10).into_values();
    drop(values.next_back());
    assert_eq!(drops.get(), 81);
    drop(values);
    assert_eq!(drops.get(), 90);
}

#[test]
fn entries_drop_what_they_replace() {
    let drops = Cell::new(0);
    let counted = || Counted { drops: &drops, panics: false };
    let mut map = filled(&drops, 3);
    map.entry(1).or_insert(counted());
    assert_eq!((drops.get(), map.len()), (1, 3));
    map.entry(7).or_insert_with(counted);
    assert_eq!((drops.get(), map.len()), (1, 4));
    drop(map.first_entry().map(|mut entry| entry.insert(counted())));
    assert_eq!((drops.get(), map.len()), (2, 4));
    drop(map.last_entry().map(|entry| entry.remove()));
    assert_eq!((drops.get(), map.len()), (3, 3));
    drop(map);
    assert_eq!(drops.get(), 6);
}

#[test]
fn a_closure_that_panics_keeps_all_entries() {
    let drops = Cell::new(0);
    let mut map = filled(&drops, 100);
    let call = AssertUnwindSafe(|| {
        map.retain(|key, _| if *key == 50 { panic!("a closure that panics") } else { *key % 2 == 0 })
    });
    assert!(catch_unwind(call).is_err());
    assert_eq!((drops.get(), map.len()), (25, 75));
    drop(map);
    assert_eq!(drops.get(), 100);
}

/// How many values are dropped once one of them panics, by which call, and what is left in the map.
#[test]
fn calls_in_which_a_drop_panics_drop_the_others() {
    let drops = Cell::new(0);
    let with_one = |count, panics| {
        let mut map = filled(&drops, count);
        drop(map.insert(panics, Counted { drops: &drops, panics: true }));
        drops.set(0);
        map
    };
    let mut entries = with_one(100, 70).into_iter();
    drop((entries.next(), entries.next_back()));
    assert!(catch_unwind(AssertUnwindSafe(|| drop(entries))).is_err());
    assert_eq!(drops.get(), 100);
    let mut map = with_one(100, 70);
    assert!(catch_unwind(AssertUnwindSafe(|| map.retain(|key, _| key % 2 == 1))).is_err());
    assert_eq!((drops.get(), map.len(), map.contains_key(&70), map.contains_key(&72)), (36, 64, false, true));
    map.retain(|key, _| key % 2 == 1);
    assert_eq!((drops.get(), map.len(), map.keys().all(|key| key % 2 == 1)), (50, 50, true));
    let (mut one, mut other) = (filled(&drops, 10), with_one(20, 15));
    one.append(&mut other);
    assert_eq!((drops.get(), one.len(), other.len()), (10, 20, 0));
    assert!(catch_unwind(AssertUnwindSafe(|| drop(one.split_off(&5)))).is_err());
    assert_eq!((drops.get(), one.len()), (25, 5));
}

/// A closure or a copy that panics leaves a map in which all other calls go on.
#[test]
fn closures_that_panic_lose_no_small_entry() {
    let mut map: Map<u64, u32> = (0..500).map(|key| (key, 0)).collect();
    let call = AssertUnwindSafe(|| {
        map.extract_if(.., |key, value| {
            *value += 1;
            assert!(*key != 300, "a closure that panics");
            key % 3 == 0
        })
        .for_each(drop)
    });
    assert!(catch_unwind(call).is_err());
    assert_eq!((map.len(), map[&299], map[&300], map[&301]), (400, 1, 1, 0));
    assert!(map.keys().is_sorted() && map.keys().all(|key| key % 3 > 0 || *key >= 300));

    #[derive(Debug)]
    struct Panics(u32);

    impl Clone for Panics {
        fn clone(&self) -> Self {
            assert!(self.0 != 70, "a copy that panics");
            Panics(self.0)
        }
    }

    let map: Map<u16, Panics> = (0..100).map(|key| (key, Panics(u32::from(key)))).collect();
    assert!(catch_unwind(AssertUnwindSafe(|| map.clone())).is_err());
    assert!(map.values().map(|value| value.0).eq(0..100));
}
