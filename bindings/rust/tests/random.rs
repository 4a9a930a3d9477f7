//! A million random calls of each map beside `BTreeMap`: what each returns, and the entries at the end.
mod common;

use common::{change_both, is_range, walk_both, Random};
use std::collections::BTreeMap;
use std::fmt::Debug;
use verified_art::{AsKey, ByteMap, Key, WordMap};

const CALLS: u32 = 1_000_000;

fn same_calls<K: Key + AsKey<K> + Debug>(seed: u64, any_key: impl Fn(&mut Random) -> K)
where
    for<'a> &'a K: AsKey<K>,
{
    let mut random = Random(seed);
    let mut map = WordMap::<K>::new();
    let mut model = BTreeMap::<K, u64>::new();
    for _ in 0..CALLS {
        let key = any_key(&mut random);
        match random.below(16) {
            0..=4 => {
                let value = random.next();
                assert_eq!(map.insert(&key, value), model.insert(key, value));
            }
            5..=6 => assert_eq!(map.get(&key), model.get(&key).copied()),
            7 => assert_eq!(map.contains_key(&key), model.contains_key(&key)),
            8..=9 => {
                // Of a key that is there, as a rule.
                let key = model.range(&key..).next().map_or(key.clone(), |(key, _)| key.clone());
                assert_eq!(map.remove(&key), model.remove(&key));
            }
            10 => assert_eq!(map.first_key_value(), model.first_key_value().map(|(key, value)| (key.clone(), *value))),
            11 => assert_eq!(map.last_key_value(), model.last_key_value().map(|(key, value)| (key.clone(), *value))),
            12 => match random.below(8) {
                0 => assert_eq!(map.pop_first(), model.pop_first()),
                1 => assert_eq!(map.pop_last(), model.pop_last()),
                _ => (),
            },
            _ => {
                let other = any_key(&mut random);
                let (start, end) = (random.bound(key), random.bound(other));
                let most = random.below(40);
                if is_range(&start, &end) && random.coin() {
                    let theirs = model.range_mut((start.clone(), end.clone()));
                    change_both(&mut random, most, map.range_mut((start, end)), theirs);
                } else if is_range(&start, &end) {
                    let theirs = model.range((start.clone(), end.clone())).map(|(key, value)| (key.clone(), *value));
                    walk_both(&mut random, most, map.range((start.clone(), end.clone())), theirs);
                } else {
                    assert_eq!(map.range((start.clone(), end.clone())).next(), None);
                    assert_eq!(map.range((start.clone(), end.clone())).next_back(), None);
                    assert!(map.range_mut((start, end)).next().is_none());
                }
            }
        }
        assert_eq!(map.len(), model.len());
        if random.below(100_000) == 0 {
            map.clear();
            model.clear();
        }
    }
    walk_both(&mut random, u64::MAX, map.iter(), model.iter().map(|(key, value)| (key.clone(), *value)));
    change_both(&mut random, u64::MAX, map.iter_mut(), model.iter_mut());
    let copy = map.clone();
    assert_eq!(copy, map);
    walk_both(&mut random, u64::MAX, copy.into_iter(), model.clone().into_iter());
    assert!(map.keys().eq(model.keys().cloned()));
    assert!(map.values().eq(model.values().copied()));
}

#[test]
fn maps_by_numbers_do_what_a_btree_map_does() {
    same_calls::<u64>(20261128, Random::number);
}

#[test]
fn maps_by_dense_numbers_do_what_a_btree_map_does() {
    same_calls::<u64>(7, |random| random.below(3000));
}

#[test]
fn maps_by_bytes_do_what_a_btree_map_does() {
    same_calls::<Vec<u8>>(1128, Random::bytes);
}

#[test]
fn prefixes_have_the_entries_that_a_scan_finds() {
    let mut random = Random(5);
    let map: ByteMap = (0..3000).map(|value| (random.bytes(), value)).collect();
    for _ in 0..3000 {
        let mut prefix = random.bytes();
        prefix.truncate(random.below(4) as usize);
        let due: Vec<_> = map.iter().filter(|(key, _)| key.starts_with(&prefix)).collect();
        assert_eq!(map.count_prefix(&prefix), due.len());
        assert!(map.prefix(&prefix).eq(due.iter().cloned()));
        assert!(map.prefix(&prefix).rev().eq(due.into_iter().rev()));
    }
}
