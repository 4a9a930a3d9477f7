//! Refused memory, and keys that are too long: the map is as it was, and can be used on. What adds no key needs none.
//!
//! One test, since the limit holds for the whole process.
use verified_art::{ByteMap, Map, NumberMap, Refusal};

#[repr(C)]
struct Limit {
    soft: u64,
    hard: u64,
}

extern "C" {
    fn getrlimit(resource: i32, limit: *mut Limit) -> i32;
    fn setrlimit(resource: i32, limit: *const Limit) -> i32;
}

/// The address space of a process, of Linux.
const RLIMIT_AS: i32 = 9;

/// Sets how much address space this process may take beyond what it has now.
fn limit_memory(more: u64) -> Limit {
    let pages = std::fs::read_to_string("/proc/self/statm").unwrap();
    let pages: u64 = pages.split(' ').next().unwrap().parse().unwrap();
    let mut before = Limit { soft: 0, hard: 0 };
    // SAFETY: the limits are live structs of the two numbers that Linux reads and writes.
    unsafe {
        assert_eq!(getrlimit(RLIMIT_AS, &mut before), 0);
        let limit = Limit { soft: pages * 4096 + more, hard: before.hard };
        assert_eq!(setrlimit(RLIMIT_AS, &limit), 0);
    }
    before
}

#[test]
#[cfg(target_os = "linux")]
fn refused_memory_changes_nothing() {
    let mut map = ByteMap::from([("tin", 50), ("gold", 79)]);
    let there = vec![4; 33 << 20];
    let mut values = Map::from([(b"tin".to_vec(), "Sn".to_string()), (there.clone(), "long".to_string())]);
    let mut numbers = NumberMap::from([(1u64, 2)]);
    let long = vec![0; 1 << 28];
    let mut longs = ByteMap::from([1, 2, 3, 4].map(|byte| (vec![byte; 33 << 20], 0)));
    let mut guards: Vec<_> = longs.values_mut().collect();
    let before = limit_memory(1 << 26);
    assert_eq!(map.try_put(&long, 1), Err(Refusal::OutOfMemory));
    assert_eq!((map.get(&long), map.remove(&long)), (None, None));
    assert_eq!((values.contains_key(&long), values.remove(&long)), (false, None));
    let (key, value, refusal) = values.try_put(long, "lost".to_string()).unwrap_err();
    assert_eq!((key.len(), value, refusal), (1 << 28, "lost".to_string(), Refusal::OutOfMemory));
    // A guard takes none to write the value of its key, however long that is.
    limit_memory(1 << 24);
    guards.iter_mut().for_each(|value| **value += 1);
    drop(guards);
    // Of what they had for their keys nothing is left.
    limit_memory(1 << 24);
    assert_eq!((longs.insert(&there, 5), longs.get(&there), longs.remove(&there)), (Some(1), Some(5), Some(5)));
    assert_eq!((values[&there].len(), values.remove(&there)), (4, Some("long".to_string())));
    // SAFETY: as above.
    assert_eq!(unsafe { setrlimit(RLIMIT_AS, &before) }, 0);
    assert_eq!(map, ByteMap::from([("tin", 50), ("gold", 79)]));
    assert_eq!(map.insert("tin", 51), Some(50));
    assert_eq!((values[&b"tin"[..]].as_str(), values.len()), ("Sn", 1));
    assert_eq!(numbers.insert(1, 3), Some(2));
    assert!(longs.values().eq([1, 1, 1]));
}

#[test]
#[ignore = "takes 12 GiB of memory"]
fn a_key_that_is_too_long_changes_nothing() {
    let mut map = Map::from([(b"tin".to_vec(), 50)]);
    let (mut long, value, refusal) = map.try_put(vec![0; 3_817_748_705], 1).unwrap_err();
    assert_eq!((value, refusal), (1, Refusal::KeyTooLong));
    assert!(map.iter().eq([(&b"tin".to_vec(), &50)]));
    assert!(!map.contains_key(&long[1..]));
    long.pop();
    assert_eq!(map.try_put(long, 2), Ok(None));
    assert_eq!(map.last_key_value(), Some((&b"tin".to_vec(), &50)));
}
