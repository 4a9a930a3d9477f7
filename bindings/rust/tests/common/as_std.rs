// Calls of `BTreeMap` and `BTreeSet`, included beside `use` lines that name those of std, or those of this crate.

/// Whole entries, as an iterator gives them.
fn pairs<'a, K: Copy + 'a, V: Copy + 'a>(entries: impl Iterator<Item = (&'a K, &'a V)>) -> Vec<(K, V)> {
    entries.map(|(key, value)| (*key, *value)).collect()
}

#[test]
fn a_large_map_of_numbers() {
    let mut map = BTreeMap::new();
    let size = 10_000;
    assert_eq!((map.len(), map.is_empty()), (0, true));
    for i in 0..size {
        assert_eq!(map.insert(i, 10 * i), None);
        assert_eq!(map.len(), i + 1);
    }
    assert_eq!(map.first_key_value(), Some((&0, &0)));
    assert_eq!(map.last_key_value(), Some((&(size - 1), &(10 * (size - 1)))));
    for i in 0..size {
        assert_eq!(map.get(&i).unwrap(), &(i * 10));
        assert_eq!(map.insert(i, 100 * i), Some(10 * i));
    }
    assert_eq!(map.get(&size), None);
    for i in 0..size / 2 {
        assert_eq!(map.remove(&(i * 2)), Some(i * 200));
        assert_eq!(map.len(), size - i - 1);
    }
    for i in 0..size / 2 {
        assert_eq!((map.get(&(2 * i)), map[&(2 * i + 1)]), (None, i * 200 + 100));
        assert_eq!(map.remove(&(2 * i)), None);
        assert_eq!(map.remove(&(2 * i + 1)), Some(i * 200 + 100));
    }
    assert_eq!((map.len(), map.iter().next()), (0, None));
}

#[test]
fn a_small_map() {
    let mut map = BTreeMap::new();
    assert_eq!((map.remove(&1), map.get(&1)), (None, None));
    assert_eq!(map.get_mut(&1), None);
    assert_eq!((map.first_key_value(), map.last_key_value()), (None, None));
    assert_eq!(map.range(0..=1).next(), None);
    assert_eq!(map.insert(1, 1), None);
    assert_eq!(map.get(&1), Some(&1));
    assert_eq!(map.get_mut(&1), Some(&mut 1));
    assert_eq!(map.insert(1, 2), Some(1));
    assert_eq!((map.len(), map.values().collect::<Vec<_>>()), (1, vec![&2]));
    assert_eq!(map.insert(2, 4), None);
    assert_eq!((map.first_key_value(), map.last_key_value()), (Some((&1, &2)), Some((&2, &4))));
    assert_eq!(map.keys().collect::<Vec<_>>(), vec![&1, &2]);
    assert_eq!(map.remove_entry(&1), Some((1, 2)));
    assert_eq!((map.pop_first(), map.pop_last(), map.len()), (Some((2, 4)), None, 0));
}

#[test]
fn iterators_of_numbers() {
    let size = 10_000;
    let mut map: BTreeMap<_, _> = (0..size).map(|i| (i, i)).collect();
    fn check<T: Iterator<Item = (usize, usize)> + ExactSizeIterator + DoubleEndedIterator>(
        size: usize,
        mut entries: T,
    ) {
        for i in 0..size / 4 {
            assert_eq!(entries.size_hint(), (size - i * 2, Some(size - i * 2)));
            assert_eq!((entries.next(), entries.next_back()), (Some((i, i)), Some((size - i - 1, size - i - 1))));
        }
        for i in size / 4..size * 3 / 4 {
            assert_eq!(entries.len(), size * 3 / 4 - i);
            assert_eq!(entries.next(), Some((i, i)));
        }
        assert_eq!((entries.size_hint(), entries.next(), entries.next_back()), ((0, Some(0)), None, None));
    }
    check(size, map.iter().map(|(&k, &v)| (k, v)));
    check(size, map.iter_mut().map(|(&k, &mut v)| (k, v)));
    check(size, map.clone().into_iter());
    assert!(map.iter().rev().eq((0..size).rev().map(|i| (i, i)).collect::<BTreeMap<_, _>>().iter().rev()));
    for (key, value) in map.iter_mut() {
        *value += key;
    }
    for value in map.values_mut().rev().step_by(2) {
        *value = 0;
    }
    assert!(map.values().enumerate().all(|(i, value)| *value == if i % 2 == 0 { 2 * i } else { 0 }));
    assert_eq!((map.iter().min(), map.iter().max()), (Some((&0, &0)), Some((&(size - 1), &0))));
    assert_eq!(
        (map.keys().min(), map.keys().max(), map.keys().last()),
        (Some(&0), Some(&(size - 1)), Some(&(size - 1)))
    );
    assert_eq!((map.values().last(), map.range(5..9).last()), (Some(&0), Some((&8, &16))));
    let mut sum = 0;
    for (key, value) in &map {
        sum += key + value;
    }
    for (key, value) in &mut map {
        *value = sum - key;
    }
    for (key, value) in map {
        assert_eq!(key + value, sum);
    }
}

#[test]
fn ranges_of_numbers() {
    for size in [1, 2, 5, 11, 100, 300] {
        let map: BTreeMap<i32, i32> = (0..size).map(|i| (i * 2 - size, i)).collect();
        let all: Vec<_> = pairs(map.iter());
        let inside =
            |range: &dyn Fn(i32) -> bool| -> Vec<_> { all.iter().copied().filter(|(key, _)| range(*key)).collect() };
        let steps = (size / 6).max(1) as usize;
        for i in (-size - 2..=size + 2).step_by(steps) {
            assert_eq!(pairs(map.range(i..)), inside(&|key| key >= i));
            assert_eq!(pairs(map.range(..i)), inside(&|key| key < i));
            assert_eq!(pairs(map.range(..=i)), inside(&|key| key <= i));
            assert_eq!(pairs(map.range((Excluded(i), Unbounded))), inside(&|key| key > i));
            for j in (i..=size + 2).step_by(steps) {
                assert_eq!(pairs(map.range(i..j)), inside(&|key| i <= key && key < j));
                assert_eq!(pairs(map.range(i..=j)), inside(&|key| i <= key && key <= j));
                assert_eq!(pairs(map.range((Excluded(&i), Included(&j)))), inside(&|key| i < key && key <= j));
                let mut due = inside(&|key| i <= key && key < j);
                due.reverse();
                assert_eq!(pairs(map.range(i..j).rev()), due);
                let mut both_ends = map.range(i..j);
                while let Some(last) = due.pop() {
                    assert_eq!(both_ends.next(), Some((&last.0, &last.1)));
                    if !due.is_empty() {
                        let first = due.remove(0);
                        assert_eq!(both_ends.next_back(), Some((&first.0, &first.1)));
                    }
                }
                assert_eq!((both_ends.next(), both_ends.next_back()), (None, None));
            }
        }
        assert_eq!(pairs(map.range::<i32, _>(..)), all);
        assert_eq!(pairs(map.range::<i32, (Bound<&i32>, Bound<&i32>)>((Unbounded, Unbounded))), all);
    }
}

#[test]
fn ranges_by_borrowed_keys() {
    let mut map = BTreeMap::new();
    for key in ["aardvark", "baboon", "coyote", "dingo"] {
        map.insert(key.to_string(), key.len());
    }
    let mut range = map.range::<str, _>((Included("b"), Excluded("d")));
    assert_eq!(range.next(), Some((&"baboon".to_string(), &6)));
    assert_eq!(range.next(), Some((&"coyote".to_string(), &6)));
    assert_eq!(range.next(), None);
    for (_, value) in map.range_mut::<str, (Bound<&str>, Bound<&str>)>((Included("c"), Unbounded)) {
        *value += 1;
    }
    assert_eq!(map.range("coyote".to_string()..).map(|(_, value)| *value).collect::<Vec<_>>(), [7, 6]);
    let dingo = String::from("dingo");
    assert_eq!((map.get("dingo"), map.get(&dingo), map.contains_key("cat")), (Some(&6), Some(&6), false));
    assert_eq!((map["baboon"], map[&"coyote".to_string()]), (6, 7));
    assert_eq!(map.remove("baboon"), Some(6));
    assert_eq!(map.remove_entry("aardvark"), Some(("aardvark".to_string(), 8)));
    assert_eq!(map.get_key_value("dingo"), Some((&"dingo".to_string(), &6)));
    *map.get_mut("dingo").unwrap() = 0;
    assert_eq!(format!("{map:?}"), r#"{"coyote": 7, "dingo": 0}"#);
    let right = map.split_off("d");
    assert_eq!((map.len(), right.len()), (1, 1));

    let slices: BTreeMap<Vec<u8>, u8> = BTreeMap::from([(vec![1, 2], 3), (vec![], 0)]);
    assert_eq!((slices.get(&[1, 2][..]), slices.get(&[][..]), slices.get([1].as_slice())), (Some(&3), Some(&0), None));
    let names: BTreeMap<&'static str, u8> = BTreeMap::from([("tin", 50)]);
    fn found<'a>(map: &BTreeMap<&'a str, u8>, name: &'a str) -> Option<u8> {
        map.get(name).or(map.get(&name)).copied()
    }
    let owned = String::from("tin");
    assert_eq!(found(&names, &owned), Some(50));
}

#[test]
fn ranges_with_values_to_be_changed() {
    let mut map: BTreeMap<_, _> = (0..200).map(|i| (i, i)).collect();
    let mut entries = map.range_mut(50..150);
    let (first, last) = (entries.next().unwrap(), entries.next_back().unwrap());
    std::mem::swap(first.1, last.1);
    entries.for_each(|(_, value)| *value = 0);
    assert_eq!((map[&49], map[&50], map[&51], map[&148], map[&149], map[&150]), (49, 149, 0, 0, 50, 150));
    let [one, other] = {
        let mut values = map.values_mut();
        [values.next().unwrap(), values.nth(98).unwrap()]
    };
    std::mem::swap(one, other);
    assert_eq!((map[&0], map[&99]), (0, 0));
}

#[test]
fn entries() {
    let mut map: BTreeMap<_, _> = [(1, 10), (2, 20), (3, 30), (4, 40), (5, 50), (6, 60)].into_iter().collect();
    match map.entry(1) {
        Vacant(_) => unreachable!(),
        Occupied(mut view) => {
            assert_eq!((view.key(), view.get()), (&1, &10));
            assert_eq!(view.insert(100), 10);
        }
    }
    match map.entry(2) {
        Vacant(_) => unreachable!(),
        Occupied(mut view) => *view.get_mut() *= 10,
    }
    match map.entry(3) {
        Vacant(_) => unreachable!(),
        Occupied(view) => assert_eq!(view.remove(), 30),
    }
    assert_eq!((map.get(&1), map.get(&2), map.get(&3), map.len()), (Some(&100), Some(&200), None, 5));
    match map.entry(10) {
        Occupied(_) => unreachable!(),
        Vacant(view) => assert_eq!((*view.key(), *view.insert(1000)), (10, 1000)),
    }
    assert_eq!(map.entry(10).key(), &10);
    assert_eq!(format!("{:?}", map.entry(2)), "Entry(OccupiedEntry { key: 2, value: 200 })");
    assert_eq!(format!("{:?}", map.entry(3)), "Entry(VacantEntry(3))");
}

#[test]
fn entries_that_are_made() {
    let mut map = BTreeMap::from([(1, 100), (2, 200)]);
    *map.entry(11).or_insert(1) += 1;
    *map.entry(11).or_default() += 1;
    *map.entry(12).or_default() += 1;
    *map.entry(13).or_insert_with(|| 5) += 1;
    *map.entry(14).or_insert_with_key(|key| key * 2) += 1;
    map.entry(14).and_modify(|value| *value += 1).or_insert(0);
    map.entry(15).and_modify(|value| *value += 1).or_insert(0);
    assert_eq!(map.range(11..).map(|(_, value)| *value).collect::<Vec<_>>(), [3, 1, 6, 30, 0]);
    let entry = map.entry(16).insert_entry(7);
    assert_eq!((*entry.key(), *entry.get()), (16, 7));
    assert_eq!(map.entry(16).insert_entry(8).remove_entry(), (16, 8));
    if let Vacant(entry) = map.entry(16) {
        assert_eq!(entry.into_key(), 16);
    }
    *map.first_entry().unwrap().into_mut() = 0;
    assert_eq!(map.first_entry().unwrap().remove_entry(), (1, 0));
    assert_eq!(map.last_entry().unwrap().remove(), 0);
    assert_eq!(map.last_entry().map(|entry| *entry.key()), Some(14));
    let mut words: BTreeMap<String, Vec<usize>> = BTreeMap::new();
    for (line, word) in ["tin", "gold", "tin"].iter().enumerate() {
        words.entry(word.to_string()).or_default().push(line);
    }
    assert_eq!(words, BTreeMap::from([("gold".to_string(), vec![1]), ("tin".to_string(), vec![0, 2])]));
}

#[test]
fn maps_are_extended_and_moved() {
    let mut one = BTreeMap::from([(1, "one")]);
    let other = BTreeMap::from([(2, "two"), (3, "three")]);
    one.extend(&other);
    one.extend(vec![(3, "drei"), (4, "vier")]);
    assert_eq!(pairs(one.iter()), [(1, "one"), (2, "two"), (3, "drei"), (4, "vier")]);
    let mut two: BTreeMap<_, _> = (3..6).map(|i| (i, "many")).collect();
    one.append(&mut two);
    assert_eq!((one.len(), two.len(), one[&3], one[&5]), (5, 0, "many", "many"));
    for at in 0..8 {
        let mut left = one.clone();
        let right = left.split_off(&at);
        assert!(left.keys().all(|key| *key < at) && right.keys().all(|key| *key >= at));
        assert_eq!(left.len() + right.len(), 5);
    }
    one.retain(|key, value| {
        *value = "kept";
        key % 2 == 0
    });
    assert_eq!(pairs(one.iter()), [(2, "kept"), (4, "kept")]);
    let taken = std::mem::take(&mut one);
    assert_eq!((taken.len(), one.len()), (2, 0));
    assert_eq!(taken.clone().into_keys().collect::<Vec<_>>(), [2, 4]);
    assert_eq!(taken.into_values().collect::<Vec<_>>(), ["kept", "kept"]);
    one.clear();
    assert_eq!(one.insert(9, "again"), None);
    one.clear();
    assert_eq!((one.len(), one.get(&9)), (0, None));
}

#[test]
fn collected_entries_keep_the_last_value() {
    let map: BTreeMap<_, _> = [(3, 'a'), (1, 'b'), (3, 'c'), (2, 'd'), (1, 'e')].into_iter().collect();
    assert_eq!(pairs(map.iter()), [(1, 'e'), (2, 'd'), (3, 'c')]);
    assert_eq!(map, BTreeMap::from([(3, 'c'), (2, 'd'), (1, 'e')]));
    let counted: BTreeMap<char, usize> = "hello".chars().fold(BTreeMap::new(), |mut map, letter| {
        *map.entry(letter).or_insert(0) += 1;
        map
    });
    assert_eq!(format!("{counted:?}"), "{'e': 1, 'h': 1, 'l': 2, 'o': 1}");
}

#[test]
fn keys_of_all_kinds() {
    let signed = BTreeMap::from([(-5i64, 'a'), (i64::MIN, 'b'), (3, 'c'), (i64::MAX, 'd')]);
    assert_eq!(signed.into_values().collect::<String>(), "bacd");
    let addresses =
        BTreeMap::from(["10.0.0.9", "::1", "9.255.0.1"].map(|text| (text.parse::<std::net::IpAddr>().unwrap(), text)));
    assert_eq!(addresses.into_values().collect::<Vec<_>>(), ["9.255.0.1", "10.0.0.9", "::1"]);
    let queue = BTreeMap::from([((Reverse(3u8), "b"), 1), ((Reverse(9), "a"), 2), ((Reverse(3), "a"), 3)]);
    assert_eq!(queue.values().copied().collect::<Vec<_>>(), [2, 3, 1]);
    let maybe = BTreeMap::from([(Some(1u8), 1), (None, 0), (Some(0), 2)]);
    assert_eq!((maybe.get(&None), maybe.first_key_value()), (Some(&0), Some((&None, &0))));
    let mut deep = BTreeMap::new();
    deep.insert((1u16, "x".to_string(), vec![0u8], true, 'q', -1i8), 1);
    deep.insert((1, "x".to_string(), vec![], true, 'q', -1), 2);
    assert_eq!(deep.values().copied().collect::<Vec<_>>(), [2, 1]);
    assert_eq!(deep.range((1, String::new(), vec![], false, '\0', 0)..).count(), 2);
    let boxes: BTreeMap<Box<str>, u8> = BTreeMap::from([("b".into(), 2), ("a".into(), 1)]);
    assert_eq!((boxes.get("b"), boxes.values().next()), (Some(&2), Some(&1)));
    let empty: BTreeMap<(), i32> = [((), 1), ((), 2)].into();
    assert_eq!(empty.get(&()), Some(&2));
    let sizes = BTreeMap::from([(7usize, ()), (1, ())]);
    assert!(sizes.keys().eq(&[1, 7]));
}

#[test]
fn maps_in_statics_and_structs() {
    static NAMES: Mutex<BTreeMap<u32, String>> = Mutex::new(BTreeMap::new());
    NAMES.lock().unwrap().insert(50, "tin".to_string());
    assert_eq!(NAMES.lock().unwrap().get(&50).map(String::as_str), Some("tin"));

    #[derive(Clone, Debug, Default, PartialEq, Eq, PartialOrd, Ord, Hash)]
    struct Held<K, V> {
        map: BTreeMap<K, V>,
        keys: BTreeSet<K>,
    }

    let mut held = Held::<u8, String>::default();
    assert_eq!(held, held.clone());
    held.map.insert(1, "one".to_string());
    held.keys.insert(1);
    assert!(held > Held::default());
    assert_eq!(format!("{held:?}"), r#"Held { map: {1: "one"}, keys: {1} }"#);
    let groups: BTreeMap<u8, BTreeMap<u8, BTreeSet<u8>>> = [(1, [(2, [3].into())].into())].into();
    assert_eq!(format!("{groups:?}"), "{1: {2: {3}}}");
    let mut by_map = BTreeMap::new();
    by_map.insert(1u8, held);
    std::thread::spawn(move || assert_eq!(by_map[&1].map[&1], "one")).join().unwrap();
}

#[test]
fn old_keys_stay() {
    let (one, other) = (Rc::<str>::from("tin"), Rc::<str>::from("tin"));
    let mut map = BTreeMap::from([(one.clone(), 1)]);
    assert_eq!(map.insert(other.clone(), 2), Some(1));
    assert!(Rc::ptr_eq(map.first_key_value().unwrap().0, &one));
    map.entry(other.clone()).and_modify(|value| *value += 1);
    assert_eq!((Rc::strong_count(&one), Rc::strong_count(&other), map["tin"]), (2, 1, 3));
    let mut set = BTreeSet::from([one.clone()]);
    assert!(!set.insert(other.clone()) && Rc::ptr_eq(set.get("tin").unwrap(), &one));
    assert!(Rc::ptr_eq(&set.replace(other.clone()).unwrap(), &one));
    assert!(Rc::ptr_eq(&set.take("tin").unwrap(), &other) && set.is_empty());
    assert_eq!(set.replace(one), None);
}

#[test]
fn sets() {
    let mut set = BTreeSet::new();
    assert!(set.insert(3) && set.insert(-1) && !set.insert(3));
    assert_eq!((set.len(), set.contains(&3), set.contains(&4), set.get(&-1)), (2, true, false, Some(&-1)));
    assert_eq!((set.first(), set.last()), (Some(&-1), Some(&3)));
    set.extend([7, 5, 3]);
    set.extend(&BTreeSet::from([9]));
    assert_eq!(set.iter().copied().collect::<Vec<_>>(), [-1, 3, 5, 7, 9]);
    assert_eq!(set.range(4..).copied().collect::<Vec<_>>(), [5, 7, 9]);
    assert_eq!(set.range(..=5).rev().copied().collect::<Vec<_>>(), [5, 3, -1]);
    assert_eq!((set.iter().len(), set.iter().next_back(), set.iter().max()), (5, Some(&9), Some(&9)));
    assert!(set.remove(&9) && !set.remove(&9));
    assert_eq!((set.take(&7), set.take(&7)), (Some(7), None));
    assert_eq!(format!("{set:?}"), "{-1, 3, 5}");
    let mut other: BTreeSet<i32> = (4..8).collect();
    set.append(&mut other);
    assert_eq!((set.len(), other.is_empty()), (6, true));
    let right = set.split_off(&5);
    assert_eq!((set.clone().into_iter().collect::<Vec<_>>(), right.len()), (vec![-1, 3, 4], 3));
    set.retain(|key| key % 2 != 0);
    assert_eq!((set.pop_first(), set.pop_last(), set.pop_last()), (Some(-1), Some(3), None));
    let words: BTreeSet<String> = ["b", "a"].into_iter().map(String::from).collect();
    assert!(words.contains("a") && words.get("b") == Some(&String::from("b")));
    let mut sum = 0;
    for key in &right {
        sum += key;
    }
    for key in right {
        sum -= key;
    }
    assert_eq!(sum, 0);
}

#[test]
fn algebra_of_sets() {
    let numbers = |bits: u32| -> BTreeSet<u32> { (0..6).filter(|bit| bits >> bit & 1 == 1).collect() };
    let bits = |keys: &mut dyn Iterator<Item = u32>| {
        let keys: Vec<u32> = keys.collect();
        assert!(keys.is_sorted());
        keys.into_iter().fold(0u32, |bits, bit| bits | 1 << bit)
    };
    for one in 0..64 {
        for other in (0..64).step_by(3) {
            let (a, b) = (numbers(one), numbers(other));
            assert_eq!(bits(&mut a.union(&b).copied()), one | other);
            assert_eq!(bits(&mut a.intersection(&b).copied()), one & other);
            assert_eq!(bits(&mut a.difference(&b).copied()), one & !other);
            assert_eq!(bits(&mut a.symmetric_difference(&b).copied()), one ^ other);
            assert_eq!((&a | &b, &a & &b), (numbers(one | other), numbers(one & other)));
            assert_eq!((&a - &b, &a ^ &b), (numbers(one & !other), numbers(one ^ other)));
            assert_eq!(a.is_disjoint(&b), one & other == 0);
            assert_eq!((a.is_subset(&b), a.is_superset(&b)), (one & !other == 0, other & !one == 0));
            assert_eq!(a.cmp(&b), a.iter().cmp(&b));
        }
    }
    let (a, b) = (numbers(7), numbers(6));
    assert_eq!(a.difference(&b).clone().min(), Some(&0));
}
