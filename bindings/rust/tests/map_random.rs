//! Random calls of a map beside `BTreeMap`, for keys and values of many types: what each returns, and the entries at the end.
mod common;

use common::{is_range, walk_both, Random};
use std::cmp::Reverse;
use std::collections::BTreeMap;
use std::fmt::Debug;
use std::ops::Bound;
use verified_art::{Map, MapKey};

const CALLS: u32 = 60_000;

/// Values, of which many differ.
trait Value: Clone + PartialEq + Debug + Default {
    fn of(number: u64) -> Self;
    /// Makes another one of it.
    fn change(&mut self, by: char);
    /// Whether a closure picks it.
    fn is_picked(&self) -> bool;
}

impl Value for String {
    fn of(number: u64) -> Self {
        number.to_string()
    }

    fn change(&mut self, by: char) {
        self.push(by);
    }

    fn is_picked(&self) -> bool {
        self.len() % 2 == 0
    }
}

/// Of numbers, by one of 64 bits.
macro_rules! values {
    ($($value:ty, |$number:ident| $of:expr, |$this:ident| $word:expr;)*) => {
        $(impl Value for $value {
            fn of($number: u64) -> Self {
                $of
            }

            fn change(&mut self, by: char) {
                let $this = *self;
                *self = Self::of($word.wrapping_mul(3).wrapping_add(u64::from(by)));
            }

            fn is_picked(&self) -> bool {
                let $this = *self;
                $word % 3 == 0
            }
        })*
    };
}

values! {
    u64, |number| number, |it| it;
    u8, |number| number as u8, |it| u64::from(it);
    bool, |number| number % 2 == 0, |it| u64::from(it);
    (), |_number| (), |_it| 0u64;
    [u8; 3], |number| [number as u8, (number >> 8) as u8, 7], |it| u64::from(it[0]);
    Option<i32>, |number| (number % 4 > 0).then_some(number as i32), |it| it.map_or(1, |it| it as u64);
    (u32, char), |number| (number as u32, 'a'), |it| u64::from(it.0);
    u128, |number| u128::from(number) << 60, |it| (it >> 60) as u64;
}

/// Changes some values that two iterators give, each time from a random end. They are held meanwhile.
fn change_both<'a, K: PartialEq + Debug + 'a, V: Value + 'a>(
    random: &mut Random,
    most: u64,
    mut ours: impl DoubleEndedIterator<Item = (&'a K, &'a mut V)>,
    mut theirs: impl DoubleEndedIterator<Item = (&'a K, &'a mut V)>,
) {
    let mut held = Vec::new();
    for _ in 0..most {
        let found = if random.coin() { (ours.next(), theirs.next()) } else { (ours.next_back(), theirs.next_back()) };
        assert_eq!(found.0, found.1);
        let (Some((_, one)), Some((_, other))) = found else { break };
        other.change('+');
        held.push((one, other));
    }
    for (one, other) in held {
        one.change('+');
        assert_eq!(one, other);
    }
}

/// A map, and the same one of std.
struct Both<K, V> {
    map: Map<K, V>,
    model: BTreeMap<K, V>,
}

impl<K: MapKey + Clone + Debug, V: Value> Both<K, V> {
    fn change(&mut self, random: &mut Random, key: K) {
        let Both { map, model } = self;
        match random.below(12) {
            0..=4 => {
                let value = V::of(random.next());
                assert_eq!(map.insert(key.clone(), value.clone()), model.insert(key, value));
            }
            5..=6 => {
                // Of a key that is there, as a rule.
                let key = model.range(&key..).next().map_or(key.clone(), |(key, _)| key.clone());
                assert_eq!(map.remove_entry(&key), model.remove_entry(&key));
            }
            7 => {
                map.get_mut(&key).into_iter().for_each(|value| value.change('!'));
                model.get_mut(&key).into_iter().for_each(|value| value.change('!'));
            }
            8 => assert_eq!(map.entry(key.clone()).or_default(), model.entry(key).or_default()),
            9 if random.below(4) == 0 => assert_eq!(map.pop_first(), model.pop_first()),
            10 if random.below(4) == 0 => assert_eq!(map.pop_last(), model.pop_last()),
            _ if random.below(40) == 0 => self.change_many(random, key),
            _ => (),
        }
    }

    fn change_many(&mut self, random: &mut Random, key: K) {
        let Both { map, model } = self;
        match random.below(5) {
            0 => self.split_and_append(random, key),
            1 => {
                let most = random.below(100) as usize;
                let picked: Vec<_> = map.extract_if(&key.., |_, value| value.is_picked()).take(most).collect();
                let due = model.range(&key..).filter(|(_, value)| value.is_picked()).take(most);
                let due: Vec<_> = due.map(|(key, value)| (key.clone(), value.clone())).collect();
                due.iter().for_each(|(key, _)| assert!(model.remove(key).is_some()));
                assert_eq!(picked, due);
            }
            2 => {
                map.retain(|it, value| *it < key || !value.is_picked());
                model.retain(|it, value| *it < key || !value.is_picked());
            }
            3 if random.below(20) == 0 => {
                map.clear();
                model.clear();
            }
            _ => *map = map.clone(),
        }
    }

    fn split_and_append(&mut self, random: &mut Random, key: K) {
        let (mut ours, mut theirs) = (self.map.split_off(&key), self.model.split_off(&key));
        walk_both(random, u64::MAX, ours.iter(), theirs.iter());
        if random.coin() {
            std::mem::swap(&mut ours, &mut self.map);
            std::mem::swap(&mut theirs, &mut self.model);
        }
        ours.insert(key.clone(), V::of(5));
        theirs.insert(key, V::of(5));
        self.map.append(&mut ours);
        self.model.append(&mut theirs);
        assert!(ours.is_empty());
    }

    fn look(&mut self, random: &mut Random, key: K, other: K) {
        let Both { map, model } = self;
        match random.below(6) {
            0 => assert_eq!(map.get_key_value(&key), model.get_key_value(&key)),
            1 => assert_eq!(map.contains_key(&key), model.contains_key(&key)),
            2 => {
                assert_eq!(map.first_key_value(), model.first_key_value());
                assert_eq!(map.last_key_value(), model.last_key_value());
            }
            _ => {
                let range = (random.bound(key), random.bound(other));
                let most = random.below(60);
                if !is_range(&range.0, &range.1) {
                    assert!(map.range(range.clone()).next().is_none() && map.range_mut(range).next_back().is_none());
                } else if random.coin() {
                    change_both(random, most, map.range_mut(range.clone()), model.range_mut(range));
                } else {
                    walk_both(random, most, map.range(range.clone()), model.range(range));
                }
            }
        }
    }

    fn end(mut self, random: &mut Random) {
        walk_both(random, u64::MAX, self.map.iter(), self.model.iter());
        change_both(random, u64::MAX, self.map.iter_mut(), self.model.iter_mut());
        let Both { map, model } = self;
        let copy = map.clone();
        assert_eq!(copy, map);
        assert!(map.keys().eq(model.keys()) && map.values().eq(model.values()));
        assert!(model.clone().into_iter().collect::<Map<_, _>>() == map);
        walk_both(random, u64::MAX, copy.into_iter(), model.into_iter());
    }
}

fn same_calls<K: MapKey + Clone + Debug>(seed: u64, any_key: impl Fn(&mut Random) -> K) {
    same_calls_of::<K, String>(seed, any_key);
}

fn same_calls_of<K: MapKey + Clone + Debug, V: Value>(seed: u64, any_key: impl Fn(&mut Random) -> K) {
    let mut random = Random(seed);
    let mut both = Both::<K, V> { map: Map::new(), model: BTreeMap::new() };
    for _ in 0..CALLS {
        let key = any_key(&mut random);
        if random.below(3) > 0 {
            both.change(&mut random, key);
        } else {
            let other = any_key(&mut random);
            both.look(&mut random, key, other);
        }
        assert_eq!(both.map.len(), both.model.len());
    }
    both.end(&mut random);
}

fn text(random: &mut Random) -> String {
    String::from_utf8_lossy(&random.bytes()).into_owned()
}

#[test]
fn by_numbers() {
    same_calls::<u64>(1, Random::number);
    same_calls::<i32>(2, |random| random.below(3000) as i32 - 1500);
}

/// Entries that lie in the library, or would if they were smaller.
#[test]
fn small_entries() {
    same_calls_of::<u64, u64>(8, Random::number);
    same_calls_of::<u64, Option<i32>>(9, |random| u64::MAX - random.below(3000));
    same_calls_of::<usize, (u32, char)>(10, |random| random.below(2000) as usize);
    same_calls_of::<u64, u128>(11, |random| random.below(2000));
    same_calls_of::<u16, [u8; 3]>(12, |random| random.number() as u16);
    same_calls_of::<u8, u8>(13, |random| random.below(256) as u8);
    same_calls_of::<bool, u64>(14, Random::coin);
    same_calls_of::<char, bool>(15, |random| char::from_u32(random.below(0xd000) as u32).unwrap());
    same_calls_of::<u32, ()>(16, |random| random.below(5000) as u32);
}

/// Entries that lie in the word of the library, or would if they were smaller.
#[test]
fn small_entries_by_other_numbers() {
    same_calls_of::<i32, u8>(17, |random| random.below(3000) as i32 - 1500);
    same_calls_of::<i64, ()>(18, |random| random.number() as i64);
    same_calls_of::<i64, u8>(19, |random| random.number() as i64);
    same_calls_of::<(u16, u16), [u8; 3]>(20, |random| (random.below(40) as u16, random.below(90) as u16));
    same_calls_of::<Option<u32>, ()>(21, |random| random.coin().then(|| random.below(1000) as u32));
    same_calls_of::<Reverse<u32>, u8>(22, |random| Reverse(random.below(2000) as u32));
    same_calls_of::<[u8; 4], u8>(23, |random| (random.below(2000) as u32).to_be_bytes());
    same_calls_of::<(), u64>(24, |_| ());
}

#[test]
fn by_strings() {
    same_calls::<String>(3, text);
    same_calls::<Vec<u8>>(4, Random::bytes);
}

#[test]
fn by_small_tuples() {
    same_calls::<(u32, i16)>(5, |random| (random.below(9) as u32, random.below(200) as i16 - 100));
}

#[test]
fn by_tuples() {
    same_calls::<(Reverse<u8>, String)>(6, |random| (Reverse(random.below(9) as u8), text(random)));
    same_calls::<Option<(Vec<u8>, u128)>>(7, |random| {
        let key = (random.bytes(), u128::from(random.number()) << random.below(64));
        Some(key).filter(|(_, number)| number % 7 > 0)
    });
}

#[test]
fn prefixes_have_the_entries_that_a_scan_finds() {
    let mut random = Random(5);
    let mut map: Map<Vec<u8>, u64> = (0..3000).map(|value| (random.bytes(), value)).collect();
    for _ in 0..3000 {
        let mut prefix = random.bytes();
        prefix.truncate(random.below(4) as usize);
        let due: Vec<_> = map.iter().filter(|(key, _)| key.starts_with(&prefix)).collect();
        assert_eq!(map.count_prefix(&prefix), due.len());
        assert!(map.prefix(&prefix).eq(due.iter().copied()));
        assert!(map.prefix(&prefix).rev().eq(due.into_iter().rev()));
    }
    map.prefix_mut([0]).for_each(|(_, value)| *value = 5000);
    assert!(map.iter().all(|(key, value)| (*value == 5000) == key.starts_with(&[0])));
    let names = Map::from(["tin", "titanium", "tīn", "gold", "t"].map(|name| (name.to_string(), name.len())));
    assert_eq!(names.prefix("ti").map(|(name, _)| name.as_str()).collect::<Vec<_>>(), ["tin", "titanium"]);
    assert_eq!((names.count_prefix("t"), names.count_prefix("x"), names.count_prefix(String::new())), (4, 0, 5));
}

/// The bounds of a long range, beside a scan: what a batch has and what it does not have.
#[test]
fn ranges_of_all_lengths() {
    let map: Map<u32, u32> = (0..700).map(|key| (key * 2, key)).collect();
    let texts: Map<String, u32> = map.iter().map(|(key, value)| (format!("{key:04}"), *value)).collect();
    for length in (0..700).step_by(7) {
        let range = (Bound::Included(100), Bound::Excluded(100 + length * 2));
        let due: Vec<_> = (50..700.min(50 + length)).collect();
        assert!(map.range(range).map(|(_, value)| value).eq(&due));
        assert!(map.range(range).rev().map(|(_, value)| value).eq(due.iter().rev()));
        let range = format!("{:04}", 100)..format!("{:04}", 100 + length * 2);
        assert!(texts.range(range.clone()).map(|(_, value)| value).eq(&due));
        assert!(texts.range(range).rev().map(|(_, value)| value).eq(due.iter().rev()));
    }
}

/// Keys of more bytes than one fetch has room for.
#[test]
fn long_keys() {
    let key = |at: usize| vec![(at % 251) as u8; at * 97 % 9000];
    let map: Map<Vec<u8>, usize> = (0..120).map(|at| (key(at), at)).collect();
    let model: BTreeMap<Vec<u8>, usize> = (0..120).map(|at| (key(at), at)).collect();
    assert!(map.iter().eq(&model) && map.iter().rev().eq(model.iter().rev()));
    assert!(map.range(key(60)..).eq(model.range(key(60)..)));
    assert_eq!((map.last_key_value(), map.clone().pop_last()), (model.last_key_value(), model.clone().pop_last()));
    assert!((0..120).all(|at| map.get(&key(at)) == model.get(&key(at))));
    assert_eq!(map.clone(), map);
}
