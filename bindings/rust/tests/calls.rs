//! Worked examples of the calls, with their values from outside.
use std::sync::{Arc, Mutex};
use std::thread;
use verified_art::{ByteMap, Map, NumberMap};

const METALS: [(&str, u64); 6] =
    [("iron", 26), ("tin", 50), ("gold", 79), ("silver", 47), ("titanium", 22), ("tin\0ore", 1050)];

#[test]
fn keys_are_in_order_of_their_bytes() {
    let metals = ByteMap::from(METALS);
    let names: Vec<_> = metals.keys().map(|key| String::from_utf8(key).unwrap()).collect();
    assert_eq!(names, ["gold", "iron", "silver", "tin", "tin\0ore", "titanium"]);
    assert_eq!(metals.values().rev().collect::<Vec<_>>(), [22, 1050, 50, 47, 26, 79]);
}

#[test]
fn any_bytes_are_a_key() {
    let mut map = ByteMap::new();
    for (value, key) in [&b""[..], b"\0", b"\0\0", b"\xff", b"\0\xff", &[7; 1000]].iter().enumerate() {
        assert_eq!(map.insert(key, value as u64), None);
    }
    let keys: Vec<_> = map.keys().collect();
    assert_eq!(keys, [&b""[..], b"\0", b"\0\0", b"\0\xff", &[7; 1000], b"\xff"]);
    assert_eq!(map.prefix(b"\xff").count(), 1);
    assert_eq!(map.prefix("").count(), 6);
}

#[test]
fn keys_may_be_given_in_many_forms() {
    let mut map = ByteMap::new();
    map.insert("tin", 50);
    map.insert(String::from("iron"), 26);
    map.insert(vec![1, 2], 12);
    map.insert([1, 2, 3], 123);
    assert_eq!(map.get(b"tin"), Some(50));
    assert_eq!(map.get(&b"iron"[..]), Some(26));
    assert_eq!(map.range("a".."t").count(), 1);
    let mut numbers = NumberMap::new();
    numbers.insert(5, 25);
    let five = &5;
    assert_eq!((numbers.get(5), numbers.get(five)), (Some(25), Some(25)));
}

#[test]
fn numbers_are_in_numeric_order_to_the_last() {
    let map: NumberMap = [u64::MAX, 0, 1 << 63, 256, 255].into_iter().zip(0..).collect();
    assert_eq!(map.keys().collect::<Vec<_>>(), [0, 255, 256, 1 << 63, u64::MAX]);
    assert_eq!(map.range(256..u64::MAX).map(|(key, _)| key).collect::<Vec<_>>(), [256, 1 << 63]);
    assert_eq!(map.range(u64::MAX..).next(), Some((u64::MAX, 0)));
    assert_eq!(map.range(..=0u64).next_back(), Some((0, 1)));
}

#[test]
fn iterators_of_all_entries_know_how_many_are_left() {
    let map: NumberMap = (0..300).map(|key: u64| (key, key)).collect();
    let mut entries = map.iter();
    for left in (0..300).rev() {
        assert!(if left % 3 == 0 { entries.next_back() } else { entries.next() }.is_some());
        assert_eq!(entries.len(), left);
    }
    assert_eq!((entries.next(), entries.next_back()), (None, None));
}

#[test]
fn an_empty_map_has_nothing() {
    let mut map = ByteMap::default();
    assert!(map.is_empty());
    assert_eq!((map.get(""), map.remove("a"), map.pop_first(), map.pop_last()), (None, None, None, None));
    assert_eq!((map.first_key_value(), map.last_key_value(), map.iter().next()), (None, None, None));
    assert_eq!(format!("{map:?}"), "{}");
}

#[test]
fn a_map_shows_its_entries() {
    assert_eq!(format!("{:?}", ByteMap::from([("tin\0", 50), ("b\"", 1)])), r#"{b"b\"": 1, b"tin\x00": 50}"#);
    assert_eq!(format!("{:?}", NumberMap::from([(79u64, 1), (50, 2)])), "{50: 2, 79: 1}");
}

#[test]
fn values_are_changed_in_place() {
    let mut map: Map<u64, Vec<u64>> = (0..100u64).map(|key| (key, vec![key])).collect();
    for (key, value) in map.range_mut(10..20) {
        value.push(key * key);
    }
    for value in map.values_mut().rev().take(3) {
        value.clear();
    }
    assert_eq!(map[&12], [12, 144]);
    assert_eq!(map[&20], [20]);
    assert!(map[&99].is_empty() && map[&97].is_empty() && !map[&96].is_empty());
    for (key, value) in &mut map {
        *value = vec![*key];
    }
    assert!(map.values().zip(0..).all(|(value, key)| *value == [key]));
}

#[test]
#[should_panic(expected = "no entry found for key")]
fn the_index_of_an_absent_key_panics() {
    let _ = Map::from([("tin", 50)])["gold"];
}

#[test]
fn maps_are_compared_by_their_entries() {
    let (one, mut other) = (ByteMap::from(METALS), ByteMap::from(METALS));
    assert_eq!(one, other);
    other.insert("tin", 51);
    assert_ne!(one, other);
    other.remove("tin");
    assert_ne!(one, other);
}

#[test]
fn a_map_moves_between_threads() {
    let map: NumberMap = (0..1000).map(|key: u64| (key, key)).collect();
    let mut map = thread::spawn(move || {
        let mut map = map;
        map.extend((1000..2000u64).map(|key| (key, key)));
        map
    })
    .join()
    .unwrap();
    assert_eq!(map.pop_last(), Some((1999, 1999)));
    let shared = Arc::new(Mutex::new(map));
    let users: Vec<_> = (0..4u64)
        .map(|user| {
            let shared = shared.clone();
            thread::spawn(move || {
                for step in 0..500 {
                    assert_eq!(shared.lock().unwrap().remove(step * 4 + user).is_some(), step * 4 + user < 1999);
                }
            })
        })
        .collect();
    users.into_iter().for_each(|user| user.join().unwrap());
    assert_eq!(shared.lock().unwrap().len(), 0);
}
