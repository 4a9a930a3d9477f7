//! The calls of `Map` that `BTreeMap` has too, each beside it.
mod common;

use common::Random;
use std::collections::hash_map::DefaultHasher;
use std::collections::BTreeMap;
use std::fmt::Debug;
use std::hash::{Hash, Hasher};
use std::iter::FusedIterator;
use verified_art::map::{
    Entry, IntoIter, IntoKeys, IntoValues, Iter, IterMut, Keys, Range, RangeMut, Values, ValuesMut,
};
use verified_art::{set, Map, MapKey, Refusal, Set};

/// How many maps each test makes.
const TURNS: u64 = 100;

/// What a test is run on: keys of both kinds.
trait AnyKey: MapKey + Clone + Debug {
    fn any(random: &mut Random) -> Self;
}

impl AnyKey for Vec<u8> {
    fn any(random: &mut Random) -> Self {
        random.bytes()
    }
}

impl AnyKey for i64 {
    fn any(random: &mut Random) -> Self {
        random.number() as i64 % 1000
    }
}

impl AnyKey for (String, u8) {
    fn any(random: &mut Random) -> Self {
        (String::from_utf8_lossy(&random.bytes()).into_owned(), random.below(3) as u8)
    }
}

/// A map of up to 100 entries, and the same one of std.
fn both<K: AnyKey>(random: &mut Random) -> (Map<K, String>, BTreeMap<K, String>) {
    let entries: Vec<_> = (0..random.below(100)).map(|_| (K::any(random), random.below(20).to_string())).collect();
    (entries.iter().cloned().collect(), entries.into_iter().collect())
}

fn same<K: AnyKey>(ours: &Map<K, String>, theirs: &BTreeMap<K, String>) {
    assert_eq!(ours.len(), theirs.len());
    assert!(ours.iter().eq(theirs));
    assert!(ours.iter().rev().eq(theirs.iter().rev()));
}

fn entries_of<K: AnyKey>() {
    let mut random = Random(2);
    for _ in 0..TURNS {
        let (mut ours, mut theirs) = both::<K>(&mut random);
        for _ in 0..50 {
            let (key, value) = (K::any(&mut random), random.below(20).to_string());
            match random.below(6) {
                0 => assert_eq!(ours.entry(key.clone()).or_insert(value.clone()), theirs.entry(key).or_insert(value)),
                1 => {
                    let found = ours.entry(key.clone()).and_modify(|it| it.push('!')).or_default();
                    assert_eq!(found, theirs.entry(key).and_modify(|it| it.push('!')).or_default());
                }
                2 => {
                    let found = ours.entry(key.clone()).or_insert_with_key(|key| format!("{key:?}"));
                    found.push('?');
                    let due = theirs.entry(key).or_insert_with_key(|key| format!("{key:?}"));
                    due.push('?');
                    assert_eq!(found, due);
                }
                3 => {
                    let before = theirs.insert(key.clone(), value.clone());
                    match ours.entry(key.clone()) {
                        Entry::Occupied(mut entry) => {
                            assert_eq!((entry.key(), Some(entry.get())), (&key, before.as_ref()));
                            assert_eq!(Some(entry.insert(value.clone())), before);
                            assert_eq!(*entry.into_mut(), value);
                        }
                        Entry::Vacant(entry) => {
                            assert_eq!((entry.key(), before), (&key, None));
                            assert_eq!(*entry.insert(value.clone()), value);
                        }
                    }
                }
                4 => match ours.entry(key.clone()) {
                    Entry::Occupied(entry) => assert_eq!(Some(entry.remove_entry()), theirs.remove_entry(&key)),
                    Entry::Vacant(entry) => assert_eq!((entry.into_key(), theirs.remove(&key)), (key, None)),
                },
                _ if random.coin() => {
                    let found = ours.first_entry().map(|entry| entry.remove());
                    assert_eq!(found, theirs.first_entry().map(|entry| entry.remove()));
                }
                _ => {
                    let found = ours.last_entry().map(|mut entry| entry.insert(value.clone()));
                    assert_eq!(found, theirs.last_entry().map(|mut entry| entry.insert(value)));
                }
            }
        }
        same(&ours, &theirs);
    }
}

#[test]
fn entries() {
    entries_of::<i64>();
    entries_of::<Vec<u8>>();
    entries_of::<(String, u8)>();
}

fn appended_and_split<K: AnyKey>() {
    let mut random = Random(4);
    for _ in 0..TURNS {
        let ((mut ours, mut theirs), (mut our_other, mut their_other)) = (both::<K>(&mut random), both(&mut random));
        ours.append(&mut our_other);
        theirs.append(&mut their_other);
        same(&ours, &theirs);
        assert!(our_other.is_empty() && our_other.first_key_value().is_none());
        let key = K::any(&mut random);
        same(&ours.split_off(&key), &theirs.split_off(&key));
        same(&ours, &theirs);
        let (key, value) = (K::any(&mut random), "one more".to_string());
        assert_eq!(ours.insert(key.clone(), value.clone()), theirs.insert(key, value));
        same(&ours, &theirs);
    }
}

#[test]
fn append_and_split_off() {
    appended_and_split::<i64>();
    appended_and_split::<Vec<u8>>();
    appended_and_split::<(String, u8)>();
}

fn collected<K: AnyKey>() {
    let mut random = Random(17);
    for turn in 0..TURNS {
        let size = if turn < 10 { turn } else { random.below(400) };
        let entries: Vec<(K, String)> = (0..size).map(|_| (K::any(&mut random), random.next().to_string())).collect();
        let given = |entries: &[(K, String)]| -> Map<K, String> { entries.iter().cloned().collect() };
        let (ours, theirs) = (given(&entries), BTreeMap::from_iter(entries));
        same(&ours, &theirs);
        same(&ours.clone(), &theirs);
        let mut sorted: Vec<_> = theirs.clone().into_iter().collect();
        same(&given(&sorted), &theirs);
        let ascending = |entries: &[(K, String)]| Map::<K, String>::from_ascending(entries.iter().cloned());
        same(&ascending(&sorted).unwrap(), &theirs);
        if let Some(last) = sorted.last().cloned() {
            sorted.push(last);
            assert_eq!(ascending(&sorted), Err(Refusal::NotAscending));
            sorted.pop();
            sorted.reverse();
            assert_eq!(ascending(&sorted).is_err(), sorted.len() > 1);
        }
    }
}

#[test]
fn collect_and_from_ascending() {
    collected::<Vec<u8>>();
    collected::<i64>();
    collected::<(String, u8)>();
}

fn parts<K: AnyKey>() {
    let mut random = Random(9);
    for _ in 0..TURNS {
        let (mut ours, mut theirs) = both::<K>(&mut random);
        assert!(ours.keys().eq(theirs.keys()) && ours.values().eq(theirs.values()));
        assert!(ours.clone().into_keys().rev().eq(theirs.clone().into_keys().rev()));
        assert!(ours.clone().into_values().eq(theirs.clone().into_values()));
        assert!(ours.clone().into_values().rev().eq(theirs.clone().into_values().rev()));
        let short = |_: &K, value: &mut String| {
            value.push('0');
            value.len() < 3
        };
        ours.retain(short);
        theirs.retain(short);
        same(&ours, &theirs);
        let (first, all) = (K::any(&mut random), ours.len());
        assert!(ours.range(..&first).count() + ours.range(&first..).count() == all);
        assert!(ours.extract_if(.., |_, _| false).next().is_none());
        assert_eq!(ours.extract_if(first.clone().., |_, _| true).count(), theirs.split_off(&first).len());
        same(&ours, &theirs);
    }
}

#[test]
fn keys_values_and_what_is_taken_out() {
    parts::<i64>();
    parts::<Vec<u8>>();
    parts::<(String, u8)>();
}

fn hash_of(value: impl Hash) -> u64 {
    let mut hasher = DefaultHasher::new();
    value.hash(&mut hasher);
    hasher.finish()
}

#[test]
fn order_and_hash() {
    let mut random = Random(7);
    for _ in 0..2000 {
        let mut small = || -> Vec<(i8, u64)> {
            (0..random.below(4)).map(|_| (random.below(3) as i8 - 1, random.below(3))).collect()
        };
        let entries = [small(), small()];
        let theirs = entries.clone().map(BTreeMap::from_iter);
        let ours = entries.map(Map::from_iter);
        assert_eq!(ours[0].cmp(&ours[1]), theirs[0].cmp(&theirs[1]));
        assert_eq!(ours[0].partial_cmp(&ours[1]), theirs[0].partial_cmp(&theirs[1]));
        assert_eq!((ours[0] == ours[1], ours[0] < ours[1]), (theirs[0] == theirs[1], theirs[0] < theirs[1]));
        assert_eq!(hash_of(&ours[0]), hash_of(&theirs[0]));
    }
    let floats = [Map::from([("a", f64::NAN)]), Map::from([("a", 1.0)])];
    assert_eq!((floats[0].partial_cmp(&floats[1]), floats[0] == floats[0]), (None, false));
    let sets = [Set::from([1, 2]), Set::from([1, 3])];
    assert!(sets[0] < sets[1] && hash_of(&sets[0]) == hash_of(std::collections::BTreeSet::from([2, 1])));
}

/// A copy of an iterator goes on where the iterator stands, from both ends, and leaves it there.
fn copied<I: Iterator + DoubleEndedIterator + Clone>(mut entries: I)
where
    I::Item: PartialEq + Debug,
{
    for steps in 0.. {
        let mut copy = entries.clone();
        assert!(copy.clone().eq(entries.clone()));
        assert!(copy.clone().rev().eq(entries.clone().rev()));
        let (one, other) =
            if steps % 3 == 0 { (copy.next_back(), entries.next_back()) } else { (copy.next(), entries.next()) };
        assert_eq!(one, other);
        if one.is_none() {
            break;
        }
    }
}

#[test]
fn iterators_are_copied() {
    let metals = Map::from([("gold", 79), ("iron", 26), ("tin", 50), ("titanium", 22), ("zinc", 30), ("lead", 82)]);
    copied(metals.iter());
    copied(metals.keys());
    copied(metals.values());
    copied(metals.range(.."tin"));
    copied(metals.prefix("t"));
    copied((0..300).map(|key| (key, ())).collect::<Map<u16, ()>>().keys());
    copied(Set::from([3, 1, 2]).iter());
    copied(Set::from([3, 1, 2]).range(2..));
}

#[test]
fn iterators_show_what_is_left() {
    let entries = [(3u8, 'c'), (1, 'a'), (2, 'b')];
    let (mut ours, mut theirs) = (Map::from(entries), BTreeMap::from(entries));
    {
        let (mut ours, mut theirs) = (ours.iter(), theirs.iter());
        assert_eq!(ours.next(), theirs.next());
        assert_eq!(format!("{ours:?}"), format!("{theirs:?}"));
    }
    assert_eq!(
        format!("{ours:?} {:?} {:?}", ours.keys(), ours.values()),
        format!("{theirs:?} {:?} {:?}", theirs.keys(), theirs.values())
    );
    assert_eq!(format!("{:?}", ours.range(2..)), format!("{:?}", theirs.range(2..)));
    {
        let (mut ours, mut theirs) = (ours.iter_mut(), theirs.iter_mut());
        let given = (ours.next(), theirs.next());
        assert_eq!(format!("{ours:?} {:?}", given.0), format!("{theirs:?} {:?}", given.1));
    }
    assert_eq!(format!("{:?} {:?}", ours.clone().into_keys(), ours.clone().into_values()), "[1, 2, 3] ['a', 'b', 'c']");
    assert_eq!(format!("{:?}", ours.range_mut(..3)), format!("{:?}", theirs.range_mut(..3)));
    assert_eq!(format!("{:?}", ours.values_mut()), format!("{:?}", theirs.values_mut()));
    assert_eq!(format!("{:?}", ours.extract_if(.., |_, _| true)), "ExtractIf { .. }");
    let mut left = ours.into_iter();
    left.next_back();
    assert_eq!(format!("{left:?} {}", left.len()), "[(1, 'a'), (2, 'b')] 2");
    let set = Set::from([2, 1]);
    assert_eq!(
        format!("{set:?} {:?} {:?} {:?}", set.iter(), set.range(2..), set.clone().into_iter()),
        "{1, 2} [1, 2] [2] [1, 2]"
    );
    assert_eq!(format!("{:?}", set.union(&Set::from([5]))), "[1, 2, 5]");
}

fn is<T: FusedIterator + Iterator + Send + Sync>() {}

fn shared<T: Send + Sync>() {}

#[test]
fn types_of_iterators() {
    is::<Iter<u8, u64>>();
    is::<IterMut<u8, u64>>();
    is::<Range<u8, String>>();
    is::<RangeMut<u8, String>>();
    is::<Keys<String, u64>>();
    is::<Values<u8, u64>>();
    is::<ValuesMut<u8, u64>>();
    is::<IntoIter<u8, u64>>();
    is::<IntoKeys<u8, u64>>();
    is::<IntoValues<u8, u64>>();
    is::<set::Iter<u8>>();
    is::<set::Range<u8>>();
    is::<set::IntoIter<String>>();
    is::<set::Union<String>>();
    shared::<Map<String, String>>();
    shared::<Set<String>>();
}

#[test]
fn values_are_changed_on_another_thread() {
    let mut map: Map<u64, Vec<u64>> = (0..1000).map(|key| (key, vec![key])).collect();
    let entries = map.iter_mut();
    std::thread::scope(|scope| {
        scope.spawn(move || entries.for_each(|(key, value)| value.push(key * key)));
    });
    assert!(map.iter().all(|(key, value)| *value == [*key, key * key]));
}

#[test]
fn threads_read_one_map() {
    let texts = Map::from([(1, "one".to_string()), (2, "two".to_string())]);
    let names = Map::from([("tin", 50), ("gold", 79)]);
    std::thread::scope(|scope| {
        for _ in 0..4 {
            scope.spawn(|| {
                for _ in 0..2000 {
                    assert_eq!((texts[&2].as_str(), texts.values().rev().count()), ("two", 2));
                    assert_eq!((names.prefix("t").count(), names.last_key_value()), (1, Some((&"tin", &50))));
                }
            });
        }
    });
}

/// A key that has no encoding leaves nothing behind.
#[test]
fn a_key_that_panics_drops_the_value() {
    #[derive(PartialEq, Eq, PartialOrd, Ord)]
    struct Panics;

    impl MapKey for Panics {
        fn encode<T>(&self, _: impl FnOnce(verified_art::Encoding<'_>) -> T) -> T {
            panic!("no key")
        }
    }

    let value = std::rc::Rc::new(());
    let mut map = Map::new();
    let copy = value.clone();
    let call = std::panic::AssertUnwindSafe(|| map.insert(Panics, copy));
    assert!(std::panic::catch_unwind(call).is_err());
    assert_eq!((std::rc::Rc::strong_count(&value), map.len()), (1, 0));
}
