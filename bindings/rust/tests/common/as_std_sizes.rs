// The same calls at all sizes, where maps have one page or many, and those of std one leaf or many levels.

/// How many entries.
const SIZES: [i32; 9] = [0, 1, 2, 11, 12, 64, 125, 300, 2000];

fn numbered(size: i32) -> BTreeMap<i32, i32> {
    (0..size).map(|i| (i, i)).collect()
}

#[test]
fn values_are_changed_from_both_ends() {
    for size in SIZES {
        let mut map = numbered(size);
        let mut entries = map.iter_mut();
        for i in 0..size / 4 {
            assert_eq!(entries.len(), (size - 2 * i) as usize);
            let ((low, one), (high, other)) = (entries.next().unwrap(), entries.next_back().unwrap());
            assert_eq!((*low, *high), (i, size - 1 - i));
            std::mem::swap(one, other);
        }
        let middle = size - 2 * (size / 4);
        for i in (0..middle).rev() {
            assert_eq!(entries.next_back().map(|(key, _)| *key), Some(size / 4 + i));
        }
        assert!(entries.next().is_none() && entries.next_back().is_none() && entries.len() == 0);
        map.range_mut(size / 2..).rev().for_each(|(key, value)| *value = -key);
        map.values_mut().take(1).for_each(|value| *value += 1000);
        for (key, value) in &map {
            let swapped = if *key < size / 4 { size - 1 - key } else { *key };
            let due = if *key >= size / 2 { -key } else { swapped };
            assert_eq!(*value, due + if *key == 0 { 1000 } else { 0 });
        }
    }
}

#[test]
fn iterators_end_where_they_meet() {
    for size in SIZES {
        let map = numbered(size);
        for from_start in [0, 1, size / 3, size] {
            let (mut all, mut part) = (map.iter(), map.range(..));
            let given = from_start.min(size);
            assert!((0..given).all(|i| all.next() == Some((&i, &i)) && part.next() == Some((&i, &i))));
            let rest: Vec<_> = (given..size).rev().collect();
            assert!(rest.iter().all(|i| all.next_back() == Some((i, i)) && part.next_back() == Some((i, i))));
            for _ in 0..2 {
                assert_eq!((all.next(), part.next(), all.next_back(), part.next_back()), (None, None, None, None));
            }
        }
        assert_eq!((map.iter().nth(size as usize), map.iter().nth_back(size as usize)), (None, None));
        assert_eq!(map.range(..size / 2).nth_back(0), (size > 1).then_some((&(size / 2 - 1), &(size / 2 - 1))));
        assert_eq!((map.keys().count(), map.keys().rev().count()), (size as usize, size as usize));
        assert!(map.keys().skip(1).step_by(3).eq((1..size).step_by(3).collect::<Vec<_>>().iter()));
    }
}

#[test]
fn ranges_that_have_nothing() {
    for size in SIZES {
        let mut map: BTreeMap<i32, i32> = (0..size).map(|i| (i * 2, i)).collect();
        for i in [-1, 0, 1, size - 1, size, size * 2 - 2, size * 2 - 1, size * 2] {
            let empty = [(Included(i), Excluded(i)), (Excluded(i), Included(i)), (Excluded(i), Excluded(i + 1))];
            for range in empty {
                assert_eq!((map.range(range).next(), map.range(range).next_back()), (None, None));
                assert_eq!(map.range_mut(range).count(), 0);
            }
            let is_there = i >= 0 && i % 2 == 0 && i < size * 2;
            assert_eq!(map.range(i..=i).count(), usize::from(is_there));
            assert_eq!(map.range(i..=i).next_back().is_some(), is_there);
        }
        assert_eq!((map.range(size * 2..).next(), map.range(..0).next_back()), (None, None));
    }
}

#[test]
fn ranges_at_the_greatest_keys() {
    let bytes: BTreeMap<u8, u8> = (0..=u8::MAX).map(|i| (i, i)).collect();
    assert_eq!(bytes.range(u8::MAX..=u8::MAX).next_back(), Some((&u8::MAX, &u8::MAX)));
    assert_eq!(bytes.range((Excluded(u8::MAX), Unbounded)).next(), None);
    assert_eq!((bytes.range(254..).count(), bytes.range(..=u8::MAX).count(), bytes.range(..0).count()), (2, 256, 0));
    let numbers = BTreeMap::from([(u64::MAX, 'a'), (0, 'b'), (u64::MAX - 1, 'c')]);
    assert_eq!(numbers.range(u64::MAX..).map(|(_, value)| *value).collect::<String>(), "a");
    assert_eq!(numbers.range(..u64::MAX).map(|(_, value)| *value).collect::<String>(), "bc");
    assert_eq!(numbers.iter().rev().map(|(_, value)| *value).collect::<String>(), "acb");
    assert_eq!(numbers.range((Excluded(0), Excluded(u64::MAX))).next_back(), Some((&(u64::MAX - 1), &'c')));
    let signed = BTreeMap::from([(i64::MAX, 1u8), (i64::MIN, 2), (-1, 3), (0, 4)]);
    assert_eq!(signed.range(i64::MIN..=i64::MIN).next(), Some((&i64::MIN, &2)));
    assert_eq!(signed.range(..=i64::MAX).rev().map(|(_, value)| *value).collect::<Vec<_>>(), [1, 4, 3, 2]);
    let letters: BTreeSet<char> = [char::MAX, 'a', '\0'].into();
    assert_eq!((letters.first(), letters.last(), letters.range('b'..).count()), (Some(&'\0'), Some(&char::MAX), 1));
}

#[test]
fn inserts_and_removals_take_turns() {
    let mut map = BTreeMap::new();
    let (mut at, step, kept) = (0i64, 7919, 300);
    for count in 0..20_000 {
        at = (at + step) % 1_000_003;
        assert_eq!(map.insert(at, count), None);
        if count >= kept {
            let old = (at + 1_000_003 * step - kept * step) % 1_000_003;
            assert_eq!(map.remove(&old), Some(count - kept));
        }
    }
    assert_eq!(map.len(), kept as usize);
    assert!(map.keys().is_sorted());
    while let Some(first) = map.pop_first() {
        assert!(map.pop_last().is_none_or(|last| first.0 < last.0));
    }
    assert!(map.is_empty() && map.pop_first().is_none() && map.pop_last().is_none());
}

#[test]
fn maps_of_all_sizes_are_split_and_joined() {
    for size in SIZES {
        for at in [0, 1, size / 2, size - 1, size, size + 1] {
            let mut left = numbered(size);
            let mut right = left.split_off(&at);
            let cut = at.clamp(0, size);
            assert!(left.keys().copied().eq(0..cut) && right.keys().copied().eq(cut..size));
            right.insert(at, -1);
            left.append(&mut right);
            assert!(right.is_empty() && left.range(at..).all(|(key, value)| *value == if *key == at { -1 } else { *key }));
            assert_eq!(left.len() as i32, if (0..size).contains(&at) { size } else { size + 1 });
        }
        let (mut even, mut odd) = (numbered(size), numbered(size));
        even.retain(|key, _| key % 2 == 0);
        odd.retain(|key, value| {
            *value *= 2;
            key % 2 == 1
        });
        even.append(&mut odd);
        assert!(even.iter().all(|(key, value)| *value == key * (1 + key % 2)) && even.len() as i32 == size);
        even.retain(|_, _| false);
        assert!(even.is_empty());
    }
}

#[test]
fn maps_are_taken_apart_from_both_ends() {
    for size in SIZES {
        let counter = Rc::new(());
        let map: BTreeMap<i32, Rc<()>> = (0..size).map(|i| (i, counter.clone())).collect();
        let mut entries = map.into_iter();
        for i in 0..size / 3 {
            assert_eq!(entries.next().map(|(key, _)| key), Some(i));
            assert_eq!(entries.next_back().map(|(key, _)| key), Some(size - 1 - i));
            assert_eq!(entries.len() as i32, size - 2 * (i + 1));
        }
        assert_eq!(Rc::strong_count(&counter) as i32, 1 + size - 2 * (size / 3));
        drop(entries);
        assert_eq!(Rc::strong_count(&counter), 1);
        let mut small = numbered(size).into_iter();
        let given: Vec<_> = small.by_ref().take(2).chain(None).collect();
        assert!(given.iter().all(|(key, value)| key == value));
        assert_eq!((small.len(), small.rev().count()), ((size - 2).max(0) as usize, (size - 2).max(0) as usize));
        assert!(numbered(size).into_keys().rev().eq((0..size).rev()));
        assert!(numbered(size).into_values().eq(0..size));
    }
}

#[test]
fn copies_are_maps_of_their_own() {
    for size in SIZES {
        let map = numbered(size);
        let mut copy = map.clone();
        assert_eq!(map, copy);
        copy.values_mut().for_each(|value| *value += 1);
        copy.insert(-1, 0);
        assert!(map != copy && map.len() + 1 == copy.len() && map.values().copied().eq(0..size));
        copy.clone_from(&map);
        assert_eq!(map, copy);
        copy.clear();
        assert!(copy.is_empty() && copy.iter().next().is_none() && copy.range(0..).next_back().is_none());
        assert_eq!((copy.pop_last(), copy.first_key_value(), copy.last_key_value()), (None, None, None));
        copy.extend(&map);
        assert_eq!(map.cmp(&copy), std::cmp::Ordering::Equal);
    }
}

#[test]
fn entries_of_maps_of_all_sizes() {
    for size in SIZES {
        let mut map = BTreeMap::new();
        for i in (0..size).rev() {
            assert_eq!(map.entry(i).or_insert(i), &i);
            *map.entry(i).or_insert(-1) += 1;
            if let Occupied(mut entry) = map.entry(i) {
                assert_eq!((entry.insert(7), *entry.get(), *entry.key()), (i + 1, 7, i));
            }
        }
        assert!(map.values().all(|value| *value == 7));
        while let Some(mut entry) = map.first_entry() {
            *entry.get_mut() += *entry.key();
            assert_eq!(entry.remove_entry(), (size - map.len() as i32 - 1, 7 + size - map.len() as i32 - 1));
        }
        assert!(map.last_entry().is_none() && map.is_empty());
    }
}

#[test]
fn keys_and_values_without_a_size() {
    let mut map: BTreeMap<(), ()> = BTreeMap::new();
    assert_eq!((map.insert((), ()), map.insert((), ()), map.len()), (None, Some(()), 1));
    assert_eq!((map.keys().count(), map.iter().rev().count(), map.range(()..).count()), (1, 1, 1));
    assert_eq!((map.remove(&()), map.remove(&()), map.len()), (Some(()), None, 0));
    for size in SIZES {
        let mut set: BTreeSet<i32> = (0..size).rev().collect();
        assert!(set.iter().copied().eq(0..size) && set.iter().rev().copied().eq((0..size).rev()));
        assert!(set.range(size / 2..).copied().eq(size / 2..size));
        set.retain(|key| key % 3 == 0);
        assert!(set.clone().into_iter().eq((0..size).step_by(3)));
        assert_eq!((set.take(&0), set.replace(5)), ((size > 0).then_some(0), None));
    }
}

#[test]
fn values_that_are_changed_behind_a_shared_reference() {
    let map: BTreeMap<u64, std::cell::Cell<u32>> = (0..500).map(|i| (i, std::cell::Cell::new(0))).collect();
    let (one, other) = (map.get(&7).unwrap(), &map[&7]);
    one.set(3);
    assert_eq!((other.get(), map.values().map(std::cell::Cell::get).sum::<u32>()), (3, 3));
    map.iter().rev().for_each(|(key, value)| value.set(*key as u32));
    assert!(map.range(..).all(|(key, value)| u64::from(value.get()) == *key));
    let text = String::from("tin");
    let lent: BTreeMap<u32, &String> = (0..100).map(|i| (i, &text)).collect();
    assert!(lent.values().all(|it| std::ptr::eq(*it, &text)) && lent[&9] == "tin");
    let add: fn(u32) -> u32 = |it| it + 1;
    let calls = BTreeMap::from([('+', Some(add)), ('0', None)]);
    assert_eq!((calls[&'+'].unwrap()(4), calls[&'0'].is_none()), (5, true));
}
