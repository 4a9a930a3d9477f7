//! Maps whose entries lie in the library: keys and values lie where they are lent, and change there.
mod common;

use common::Random;
use std::cell::Cell;
use std::num::NonZero;
use std::sync::atomic::{AtomicU32, Ordering};
use verified_art::map::Entry;
use verified_art::{Encoding, Map, MapKey, Set};

#[test]
fn what_is_lent_lies_where_it_is_found_again() {
    let mut map: Map<u64, u64> = (0..1000).map(|key| (key * 3, key)).collect();
    let found = std::ptr::from_ref(&map[&300]);
    assert!(map.iter().any(|(_, value)| std::ptr::eq(value, found)));
    let (key, value) = map.get_key_value(&300).unwrap();
    assert!((*key, *value) == (300, 100) && std::ptr::eq(value, found));
    assert!(std::ptr::eq(map.range(300..).next().unwrap().0, key));
    assert!(std::ptr::eq(map.range(..=300).next_back().unwrap().0, key));
    *map.get_mut(&300).unwrap() += 1;
    *map.entry(300).or_insert(0) *= 2;
    map.range_mut(299..301).for_each(|(_, value)| *value += 5);
    assert_eq!((map[&300], map.remove(&300), map.remove(&300), map.get(&300)), (207, Some(207), None, None));
    assert_eq!((map.len(), map.first_key_value(), map.last_key_value()), (999, Some((&0, &0)), Some((&2997, &999))));
}

#[test]
fn entries_of_a_map_of_pairs() {
    let mut map = Map::new();
    for turn in 0..3u8 {
        for key in ['z', 'a', '\u{10ffff}', 'q'] {
            match map.entry(key) {
                Entry::Vacant(entry) => assert_eq!((turn, *entry.key(), *entry.insert(7i16)), (0, key, 7)),
                Entry::Occupied(mut entry) => {
                    *entry.get_mut() += 1;
                    assert_eq!((*entry.key(), *entry.get()), (key, 7 + i16::from(turn)));
                }
            }
        }
    }
    assert_eq!(map.first_entry().unwrap().remove_entry(), ('a', 9));
    assert_eq!(map.last_entry().unwrap().insert(1), 9);
    assert_eq!(map.entry('m').insert_entry(3).remove(), 3);
    assert!(map.into_iter().eq([('q', 9), ('z', 9), ('\u{10ffff}', 1)]));
}

#[test]
fn pairs_with_padding_and_addresses() {
    let texts: Vec<String> = (0..300).map(|it| it.to_string()).collect();
    let mut lent: Map<u32, Option<&String>> =
        texts.iter().zip(0..).map(|(text, key)| (key, (key % 3 > 0).then_some(text))).collect();
    assert!(lent.iter().all(|(key, text)| text.is_none_or(|text| **text == key.to_string())));
    lent.retain(|_, text| text.is_some());
    assert_eq!((lent.len(), lent[&299].map(String::as_str)), (200, Some("299")));
    let mut padded: Map<usize, (u8, u32)> = (0..300).map(|key| (key, (key as u8, 5))).collect();
    padded.values_mut().for_each(|value| value.1 += u32::from(value.0));
    let copy = padded.clone();
    assert!(copy == padded && copy.into_values().all(|(small, large)| large == 5 + u32::from(small)));
    let maybe: Map<NonZero<u8>, Option<u32>> = (1..=255).filter_map(NonZero::new).map(|key| (key, None)).collect();
    assert!(maybe.iter().all(|(_, value)| value.is_none()) && maybe.len() == 255);
    let flags: Map<bool, f64> = [(true, 0.5), (false, f64::NAN)].into();
    assert_eq!((flags[&true], flags[&false].is_nan(), flags.keys().count()), (0.5, true, 2));
}

#[test]
fn values_are_changed_behind_shared_references() {
    let cells: Map<u64, Cell<u64>> = (0..300).map(|key| (key, Cell::new(0))).collect();
    let lent: Vec<_> = cells.iter().collect();
    lent.iter().rev().for_each(|(key, cell)| cell.set(**key + 1));
    assert!(cells.iter().all(|(key, cell)| cell.get() == key + 1));
    let counts: Map<u16, AtomicU32> = (0..100).map(|key| (key, AtomicU32::new(0))).collect();
    std::thread::scope(|scope| {
        for _ in 0..4 {
            scope.spawn(|| {
                for round in 0..100 {
                    counts.values().for_each(|count| {
                        count.fetch_add(1, Ordering::Relaxed);
                    });
                    assert!(counts[&round].load(Ordering::Relaxed) > u32::from(round));
                }
            });
        }
    });
    assert!(counts.into_values().all(|count| count.into_inner() == 400));
}

/// Keys that are equal and not the same, in the word of an entry.
#[test]
fn the_key_that_is_there_stays() {
    #[derive(Clone, Copy, Debug)]
    struct Labelled(u16, u16);

    impl PartialEq for Labelled {
        fn eq(&self, other: &Self) -> bool {
            self.0 == other.0
        }
    }

    impl Eq for Labelled {}

    impl PartialOrd for Labelled {
        fn partial_cmp(&self, other: &Self) -> Option<std::cmp::Ordering> {
            Some(self.cmp(other))
        }
    }

    impl Ord for Labelled {
        fn cmp(&self, other: &Self) -> std::cmp::Ordering {
            self.0.cmp(&other.0)
        }
    }

    impl MapKey for Labelled {
        fn encode<T>(&self, take: impl FnOnce(Encoding<'_>) -> T) -> T {
            self.0.encode(take)
        }
    }

    let mut map = Map::from([(Labelled(5, 1), 'a'), (Labelled(4, 1), 'b')]);
    assert_eq!(map.insert(Labelled(5, 2), 'c'), Some('a'));
    assert_eq!(map.get_key_value(&Labelled(5, 3)).map(|(key, value)| (key.1, *value)), Some((1, 'c')));
    assert_eq!(map.remove_entry(&Labelled(5, 3)).map(|(key, value)| (key.1, value)), Some((1, 'c')));
    let mut set = Set::from([Labelled(7, 1)]);
    assert!(!set.insert(Labelled(7, 2)) && set.first().unwrap().1 == 1);
    assert_eq!(set.replace(Labelled(7, 3)).map(|key| key.1), Some(1));
    assert_eq!(set.take(&Labelled(7, 4)).map(|key| key.1), Some(3));
}

#[test]
fn removals_while_entries_are_picked() {
    let mut random = Random(31);
    for size in [0, 1, 63, 64, 65, 700, 5000] {
        let mut map: Map<u64, u64> = (0..size).map(|_| (random.number(), 0)).collect();
        let all: Vec<u64> = map.keys().copied().collect();
        let picked: Vec<_> = map.extract_if(.., |key, _| key % 3 == 0).map(|(key, _)| key).collect();
        assert!(picked.iter().eq(all.iter().filter(|key| *key % 3 == 0)));
        assert!(map.keys().eq(all.iter().filter(|key| *key % 3 > 0)));
        let Some(middle) = all.get(all.len() / 2) else { continue };
        let taken = map.extract_if(middle.., |_, _| true).count();
        assert!(map.keys().all(|key| key < middle) && taken + map.len() + picked.len() == all.len());
    }
}
