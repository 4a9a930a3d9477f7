//! The calls of maps of words that `BTreeMap` has too, each beside it.
mod common;

use common::{change_both, Random};
use std::collections::hash_map::DefaultHasher;
use std::collections::BTreeMap;
use std::fmt::Debug;
use std::hash::{Hash, Hasher};
use std::iter::FusedIterator;
use std::marker::PhantomData;
use verified_art::entry::{ValueMut, WordEntry};
use verified_art::iter::{IntoIter, IntoKeys, IntoValues, Iter, IterMut, Keys, Range, RangeMut, Values, ValuesMut};
use verified_art::{AsKey, ByteMap, Key, NumberMap, Refusal, WordMap};

/// How many maps each test makes.
const TURNS: u64 = 200;

/// What a test is run on: both kinds of keys.
trait AnyKey: Key + AsKey<Self> + Debug {
    fn any(random: &mut Random) -> Self;
}

impl AnyKey for Vec<u8> {
    fn any(random: &mut Random) -> Self {
        random.bytes()
    }
}

impl AnyKey for u64 {
    fn any(random: &mut Random) -> Self {
        random.number() % 1000
    }
}

/// A map of up to 100 entries, and the same one of std.
fn words<K: AnyKey>(random: &mut Random) -> (WordMap<K>, BTreeMap<K, u64>) {
    let entries: Vec<_> = (0..random.below(100)).map(|_| (K::any(random), random.below(20))).collect();
    (entries.iter().cloned().collect(), entries.into_iter().collect())
}

fn same_words<K: AnyKey>(ours: &WordMap<K>, theirs: &BTreeMap<K, u64>) {
    assert_eq!(ours.len(), theirs.len());
    assert!(ours.iter().eq(theirs.iter().map(|(key, value)| (key.clone(), *value))));
    assert!(ours.iter().rev().eq(theirs.iter().rev().map(|(key, value)| (key.clone(), *value))));
}

fn entries_of_words<K: AnyKey>() {
    let mut random = Random(1);
    for _ in 0..TURNS {
        let (mut ours, mut theirs) = words::<K>(&mut random);
        for _ in 0..50 {
            let (key, value) = (K::any(&mut random), random.below(20));
            match random.below(6) {
                0 => assert_eq!(ours.entry(key.clone()).or_insert(value), *theirs.entry(key).or_insert(value)),
                5 => {
                    let (one, other) = (ours.get_mut(key.clone()), theirs.get_mut(&key));
                    assert_eq!(one.as_deref(), other.as_deref());
                    if let (Some(mut one), Some(other)) = (one, other) {
                        (*one, *other) = (value, value);
                    }
                }
                1 => {
                    let found = ours.entry(key.clone()).and_modify(|it| *it += 1).or_insert_with(|| value);
                    assert_eq!(found, *theirs.entry(key).and_modify(|it| *it += 1).or_insert(value));
                }
                2 => {
                    let before = theirs.insert(key.clone(), value);
                    match ours.entry(key.clone()) {
                        WordEntry::Occupied(mut entry) => {
                            assert_eq!((entry.key(), Some(entry.get())), (&key, before));
                            assert_eq!((Some(entry.insert(value)), entry.get()), (before, value));
                        }
                        WordEntry::Vacant(entry) => {
                            assert_eq!((entry.key(), before), (&key, None));
                            assert_eq!(entry.insert(value), value);
                        }
                    }
                }
                3 => match ours.entry(key.clone()) {
                    WordEntry::Occupied(entry) => assert_eq!(Some(entry.remove_entry()), theirs.remove_entry(&key)),
                    WordEntry::Vacant(entry) => {
                        assert_eq!((entry.into_key(), theirs.remove(&key)), (key, None));
                    }
                },
                _ if random.coin() => {
                    let found = ours.first_entry().map(|entry| entry.remove_entry());
                    assert_eq!(found, theirs.first_entry().map(|entry| entry.remove_entry()));
                }
                _ => {
                    let found = ours.last_entry().map(|entry| (entry.key().clone(), entry.remove()));
                    assert_eq!(found, theirs.last_entry().map(|entry| (entry.key().clone(), entry.remove())));
                }
            }
        }
        same_words(&ours, &theirs);
    }
}

#[test]
fn entries() {
    entries_of_words::<u64>();
    entries_of_words::<Vec<u8>>();
}

fn keys_with_their_values<K: AnyKey>() {
    let mut random = Random(3);
    let (mut ours, mut theirs) = words::<K>(&mut random);
    for _ in 0..300 {
        let key = K::any(&mut random);
        assert_eq!(
            ours.get_key_value(key.clone()),
            theirs.get_key_value(&key).map(|(key, value)| (key.clone(), *value))
        );
        assert_eq!(ours.remove_entry(key.clone()), theirs.remove_entry(&key));
    }
    same_words(&ours, &theirs);
}

#[test]
fn get_key_value_and_remove_entry() {
    keys_with_their_values::<u64>();
    keys_with_their_values::<Vec<u8>>();
}

fn appended_and_split<K: AnyKey>() {
    let mut random = Random(4);
    for _ in 0..TURNS {
        let ((mut ours, mut theirs), (mut our_other, mut their_other)) = (words::<K>(&mut random), words(&mut random));
        ours.append(&mut our_other);
        theirs.append(&mut their_other);
        same_words(&ours, &theirs);
        assert!(our_other.is_empty());
        let key = K::any(&mut random);
        same_words(&ours.split_off(key.clone()), &theirs.split_off(&key));
        same_words(&ours, &theirs);
    }
}

#[test]
fn append_and_split_off() {
    appended_and_split::<u64>();
    appended_and_split::<Vec<u8>>();
}

fn collected<K: AnyKey>() {
    let mut random = Random(17);
    for turn in 0..200 {
        let size = if turn < 10 { turn } else { random.below(400) };
        let entries: Vec<(K, u64)> = (0..size).map(|_| (K::any(&mut random), random.next())).collect();
        let given = |entries: &[(K, u64)]| -> WordMap<K> { entries.iter().cloned().collect() };
        let (ours, theirs) = (given(&entries), BTreeMap::from_iter(entries));
        same_words(&ours, &theirs);
        same_words(&ours.clone(), &theirs);
        let mut sorted: Vec<_> = theirs.iter().map(|(key, value)| (key.clone(), *value)).collect();
        same_words(&given(&sorted), &theirs);
        let ascending = |entries: &[(K, u64)]| WordMap::<K>::from_ascending(entries.iter().cloned());
        same_words(&ascending(&sorted).unwrap(), &theirs);
        if let Some(last) = sorted.last().cloned() {
            sorted.push(last);
            assert_eq!(ascending(&sorted).err(), Some(Refusal::NotAscending));
            sorted.pop();
            sorted.reverse();
            assert_eq!(ascending(&sorted).is_err(), sorted.len() > 1);
        }
    }
}

#[test]
fn collect_and_from_ascending() {
    collected::<Vec<u8>>();
    collected::<u64>();
}

fn kept<K: AnyKey>() {
    let mut random = Random(5);
    for _ in 0..TURNS {
        let (mut ours, mut theirs) = words::<K>(&mut random);
        let odd = |_: &K, value: &mut u64| {
            *value += 1;
            *value % 3 != 0
        };
        ours.retain(odd);
        theirs.retain(odd);
        same_words(&ours, &theirs);
    }
}

#[test]
fn retain() {
    kept::<u64>();
    kept::<Vec<u8>>();
}

/// `extract_if` of std is younger than the Rust that this crate needs: what it takes out is told by hand.
fn extracted<K: AnyKey>() {
    let mut random = Random(6);
    for _ in 0..TURNS {
        let (start, most) = (K::any(&mut random), random.below(10) as usize);
        let (mut ours, mut theirs) = words::<K>(&mut random);
        let found: Vec<_> = ours.extract_if(start.clone().., |_, value| *value % 2 == 0).take(most).collect();
        let due: Vec<_> = theirs.range(&start..).filter(|(_, value)| *value % 2 == 0).take(most).collect();
        let due: Vec<_> = due.into_iter().map(|(key, value)| (key.clone(), *value)).collect();
        due.iter().for_each(|(key, _)| assert!(theirs.remove(key).is_some()));
        assert_eq!(found, due);
        same_words(&ours, &theirs);
    }
}

#[test]
fn extract_if() {
    extracted::<u64>();
    extracted::<Vec<u8>>();
    let mut map: NumberMap = (0..200u64).map(|key| (key, key)).collect();
    assert_eq!(map.extract_if(10..20, |_, _| true).count(), 10);
    map.extract_if(.., |_, value| {
        *value *= 2;
        false
    })
    .for_each(drop);
    assert_eq!((map.len(), map.get(5), map.get(15), map.get(199)), (190, Some(10), None, Some(398)));
}

fn hash_of(value: impl Hash) -> u64 {
    let mut hasher = DefaultHasher::new();
    value.hash(&mut hasher);
    hasher.finish()
}

#[test]
fn order_and_hash() {
    let mut random = Random(7);
    for _ in 0..2000 {
        let small = |random: &mut Random| -> Vec<(u64, u64)> {
            (0..random.below(4)).map(|_| (random.below(3), random.below(3))).collect()
        };
        let (one, other) = (small(&mut random), small(&mut random));
        let theirs: [BTreeMap<u64, u64>; 2] = [one.iter().copied().collect(), other.iter().copied().collect()];
        let ours: [NumberMap; 2] = [one.iter().copied().collect(), other.iter().copied().collect()];
        assert_eq!(ours[0].cmp(&ours[1]), theirs[0].cmp(&theirs[1]));
        assert_eq!((ours[0] == ours[1], ours[0] < ours[1]), (theirs[0] == theirs[1], theirs[0] < theirs[1]));
        assert_eq!(hash_of(&ours[0]), hash_of(&theirs[0]));
    }
}

#[test]
fn extend_by_another_map() {
    let mut random = Random(8);
    let ((mut ours, mut theirs), (our_other, their_other)) = (words::<Vec<u8>>(&mut random), words(&mut random));
    ours.extend(&our_other);
    theirs.extend(their_other);
    same_words(&ours, &theirs);
}

fn parts_of_words<K: AnyKey>() {
    let mut random = Random(9);
    for _ in 0..TURNS {
        let (ours, theirs) = words::<K>(&mut random);
        assert!(ours.keys().eq(theirs.keys().cloned()) && ours.values().eq(theirs.values().copied()));
        assert!(ours.keys().rev().eq(theirs.keys().rev().cloned()));
        assert!(ours.clone().into_keys().eq(theirs.clone().into_keys()));
        assert!(ours.clone().into_keys().rev().eq(theirs.clone().into_keys().rev()));
        assert!(ours.clone().into_values().rev().eq(theirs.clone().into_values().rev()));
        assert_eq!(ours.range(..).count(), theirs.len());
    }
}

#[test]
fn keys_and_values() {
    parts_of_words::<u64>();
    parts_of_words::<Vec<u8>>();
}

fn changed_by_guards<K: AnyKey>() {
    let mut random = Random(18);
    for _ in 0..TURNS {
        let (mut ours, mut theirs) = words::<K>(&mut random);
        let most = random.below(150);
        change_both(&mut random, most, ours.iter_mut(), theirs.iter_mut());
        same_words(&ours, &theirs);
        let (start, end) = (K::any(&mut random), K::any(&mut random));
        if start <= end {
            let due = theirs.range_mut(start.clone()..end.clone());
            change_both(&mut random, most, ours.range_mut(start.clone()..end.clone()), due);
            same_words(&ours, &theirs);
            change_both(&mut random, most, ours.range_mut(start.clone()..=end.clone()), theirs.range_mut(start..=end));
            same_words(&ours, &theirs);
        }
        for ((key, mut value), (due_key, due)) in (&mut ours).into_iter().zip(&mut theirs) {
            assert_eq!((&key, *value), (due_key, *due));
            *value = value.wrapping_mul(3);
            *due = due.wrapping_mul(3);
        }
        same_words(&ours, &theirs);
        let (mut values, mut due) = (ours.values_mut(), theirs.values_mut());
        while due.len() > 0 {
            assert_eq!(values.len(), due.len());
            let (one, other) =
                if random.coin() { (values.next(), due.next()) } else { (values.nth_back(1), due.nth_back(1)) };
            assert_eq!(one.as_deref(), other.as_deref());
            if let (Some(mut one), Some(other)) = (one, other) {
                (*one, *other) = (due.len() as u64, due.len() as u64);
            }
        }
        assert!(values.next().is_none() && values.next_back().is_none());
        same_words(&ours, &theirs);
        // All at once, and more than are fetched at once.
        let (mut held, due): (Vec<_>, Vec<_>) = (ours.iter_mut().collect(), theirs.iter_mut().collect());
        for ((_, value), (_, due)) in held.iter_mut().zip(due).step_by(2) {
            *due = random.next();
            **value = *due;
        }
        held.reverse();
        drop(held);
        same_words(&ours, &theirs);
    }
}

#[test]
fn iter_mut_range_mut_and_values_mut() {
    changed_by_guards::<u64>();
    changed_by_guards::<Vec<u8>>();
}

#[test]
fn a_guard_writes_when_it_is_dropped() {
    let mut map = ByteMap::from([("gold", 79), ("iron", 26), ("tin", 50), ("zinc", 30)]);
    let mut entries = map.iter_mut();
    let [mut gold, mut iron, tin] = [(); 3].map(|_| entries.next().unwrap().1);
    *gold += 1;
    *iron += 1;
    drop(gold);
    let (name, mut zinc) = entries.next_back().unwrap();
    *zinc = *tin;
    assert_eq!((name.as_slice(), *iron, *tin, *zinc), (&b"zinc"[..], 27, 50, 50));
    drop((zinc, tin));
    std::mem::forget(iron);
    assert!(map.values().eq([80, 26, 50, 50]));
}

/// A copy of an iterator goes on where the iterator stands, from both ends, and leaves it there.
fn copied<I: Iterator + DoubleEndedIterator + Clone>(mut entries: I)
where
    I::Item: PartialEq + Debug,
{
    for steps in 0.. {
        let mut copy = entries.clone();
        assert!(copy.clone().eq(entries.clone()));
        assert!(copy.clone().rev().eq(entries.clone().rev()));
        let (one, other) =
            if steps % 3 == 0 { (copy.next_back(), entries.next_back()) } else { (copy.next(), entries.next()) };
        assert_eq!(one, other);
        if one.is_none() {
            break;
        }
    }
}

#[test]
fn iterators_are_copied() {
    let metals = [("gold", 79), ("iron", 26), ("tin", 50), ("titanium", 22), ("zinc", 30)];
    let words = ByteMap::from(metals);
    copied(words.iter());
    copied(words.keys());
    copied(words.values());
    copied(words.range("h"..));
    copied(words.prefix("ti"));
}

#[test]
fn iterators_show_what_is_left() {
    let mut words = NumberMap::from([(1u64, 10), (2, 20), (3, 30)]);
    let theirs = BTreeMap::from([(1u64, 10), (2, 20), (3, 30)]);
    let (mut ours, mut due) = (words.iter(), theirs.iter());
    assert_eq!((ours.next().is_some(), due.next().is_some()), (true, true));
    assert_eq!(format!("{ours:?}"), format!("{due:?}"));
    assert_eq!(format!("{:?}", words.range(2..)), "[(2, 20), (3, 30)]");
    assert_eq!(
        format!("{:?} {:?}", words.keys(), words.values()),
        format!("{:?} {:?}", theirs.keys(), theirs.values())
    );
    assert_eq!(format!("{:?}", words.clone().into_iter()), format!("{:?}", theirs.clone().into_iter()));
    assert_eq!(format!("{:?}", words.clone().into_keys()), "[1, 2, 3]");
    assert_eq!(format!("{:?}", words.clone().into_values()), "[10, 20, 30]");
    assert_eq!(format!("{:?}", words.entry(1)), "Occupied(OccupiedWord { key: 1, value: 10 })");
    assert_eq!(format!("{:?}", words.extract_if(.., |_, _| true)), "ExtractIf { .. }");
    let mut ours = words.iter_mut();
    let guard = ours.next();
    assert_eq!(format!("{ours:?} {guard:?}"), format!("{due:?} Some((1, 10))"));
    drop(guard);
    assert_eq!(format!("{:?}", words.range_mut(..=2)), "[(1, 10), (2, 20)]");
    assert_eq!(format!("{:?}", words.values_mut()), "[10, 20, 30]");
}

fn fused<T: FusedIterator + DoubleEndedIterator>() {}

fn sent<T: Send>() {}

fn shared<T: Sync>() {}

#[test]
fn types_of_iterators() {
    fused::<Iter<u64>>();
    fused::<Range<u64>>();
    fused::<Keys<u64>>();
    fused::<Values<u64>>();
    fused::<IterMut<u64>>();
    fused::<RangeMut<u64>>();
    fused::<ValuesMut<u64>>();
    shared::<ByteMap>();
    shared::<NumberMap>();
    sent::<Iter<u64>>();
    sent::<Range<Vec<u8>>>();
    sent::<Keys<u64>>();
    sent::<IntoIter<Vec<u8>>>();
    sent::<IntoKeys<u64>>();
    sent::<IntoValues<u64>>();
}

/// Whether a type is `Send`, and `Sync`: what a type has of its own goes before what a trait gives it.
struct Is<T>(PhantomData<T>);

trait Otherwise {
    const SENT: bool = false;
    const SHARED: bool = false;
}

impl<T> Otherwise for Is<T> {}

impl<T: Send> Is<T> {
    const SENT: bool = true;
}

impl<T: Sync> Is<T> {
    const SHARED: bool = true;
}

/// Two of them in two threads would write one map at once.
#[test]
fn guards_stay_in_their_thread() {
    assert_eq!((Is::<Iter<u64>>::SENT, Is::<Iter<u64>>::SHARED), (true, true));
    assert_eq!((Is::<ValueMut<u64>>::SENT, Is::<ValueMut<u64>>::SHARED), (false, false));
    assert_eq!((Is::<IterMut<u64>>::SENT, Is::<IterMut<u64>>::SHARED), (false, false));
    assert_eq!((Is::<RangeMut<u64>>::SENT, Is::<RangeMut<u64>>::SHARED), (false, false));
    assert_eq!((Is::<ValuesMut<u64>>::SENT, Is::<ValuesMut<u64>>::SHARED), (false, false));
}

#[test]
fn threads_read_one_map() {
    let metals = ByteMap::from([("tin", 50), ("gold", 79), ("titanium", 22)]);
    std::thread::scope(|scope| {
        for _ in 0..4 {
            scope.spawn(|| {
                for _ in 0..2000 {
                    assert_eq!((metals.get("tin"), metals.len()), (Some(50), 3));
                    assert_eq!(metals.prefix("ti").map(|(_, value)| value).collect::<Vec<_>>(), [50, 22]);
                    assert_eq!(metals.last_key_value().map(|(_, value)| value), Some(22));
                }
            });
        }
    });
}
