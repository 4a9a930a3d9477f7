//! The calls of the bench for Rust's `BTreeMap`, each a loop over the keys, as those of the other maps are.
use std::borrow::Borrow;
use std::collections::BTreeMap;
use std::slice;

/// A word, as the bench has it.
#[repr(C)]
#[derive(Clone, Copy)]
pub struct Word {
    at: *const u8,
    len: usize,
}

/// A key, as the bench has it.
trait Key: Copy {
    type Owned: Ord + Borrow<Self::Sought>;
    type Sought: Ord + ?Sized;

    fn owned(&self) -> Self::Owned;
    fn sought(&self) -> &Self::Sought;
}

impl Key for u64 {
    type Owned = u64;
    type Sought = u64;

    fn owned(&self) -> u64 {
        *self
    }

    fn sought(&self) -> &u64 {
        self
    }
}

impl Key for Word {
    type Owned = Vec<u8>;
    type Sought = [u8];

    fn owned(&self) -> Vec<u8> {
        self.sought().to_vec()
    }

    fn sought(&self) -> &[u8] {
        // SAFETY: the bench keeps all words until its end.
        unsafe { slice::from_raw_parts(self.at, self.len) }
    }
}

type Map<K> = BTreeMap<<K as Key>::Owned, u64>;

fn insert<K: Key>(map: &mut Map<K>, keys: &[K]) -> u64 {
    keys.iter().zip(0..).filter(|(key, value)| map.insert(key.owned(), *value).is_none()).count() as u64
}

fn get<K: Key>(map: &Map<K>, keys: &[K]) -> u64 {
    keys.iter().filter_map(|key| map.get(key.sought())).map(|value| value + 1).sum()
}

fn remove<K: Key>(map: &mut Map<K>, keys: &[K]) -> u64 {
    keys.iter().filter_map(|key| map.remove(key.sought())).map(|value| value + 1).sum()
}

/// A sum that depends on the order.
fn mixed<'a>(sum: u64, values: impl Iterator<Item = &'a u64>) -> u64 {
    values.fold(sum, |sum, value| sum.rotate_left(1) ^ value)
}

fn iterate<K: Key>(map: &Map<K>) -> u64 {
    mixed(0, map.values())
}

fn range<K: Key>(map: &Map<K>, keys: &[K], most: usize) -> u64 {
    keys.iter().fold(0, |sum, key| {
        let entries = map.range::<K::Sought, _>((std::ops::Bound::Included(key.sought()), std::ops::Bound::Unbounded));
        mixed(sum, entries.take(most).map(|(_, value)| value))
    })
}

macro_rules! exports {
    ($key:ty, $make:ident, $free:ident, $insert:ident, $get:ident, $remove:ident, $iterate:ident, $range:ident) => {
        #[no_mangle]
        extern "C" fn $make() -> *mut Map<$key> {
            Box::into_raw(Box::default())
        }

        // SAFETY, of all: the bench gives a map of `make` before `free`, and an array with its length.
        #[no_mangle]
        unsafe extern "C" fn $free(map: *mut Map<$key>) {
            drop(Box::from_raw(map))
        }

        #[no_mangle]
        unsafe extern "C" fn $insert(map: *mut Map<$key>, keys: *const $key, count: usize) -> u64 {
            insert(&mut *map, slice::from_raw_parts(keys, count))
        }

        #[no_mangle]
        unsafe extern "C" fn $get(map: *mut Map<$key>, keys: *const $key, count: usize) -> u64 {
            get(&*map, slice::from_raw_parts(keys, count))
        }

        #[no_mangle]
        unsafe extern "C" fn $remove(map: *mut Map<$key>, keys: *const $key, count: usize) -> u64 {
            remove(&mut *map, slice::from_raw_parts(keys, count))
        }

        #[no_mangle]
        unsafe extern "C" fn $iterate(map: *mut Map<$key>) -> u64 {
            iterate::<$key>(&*map)
        }

        #[no_mangle]
        unsafe extern "C" fn $range(map: *mut Map<$key>, keys: *const $key, count: usize, most: usize) -> u64 {
            range(&*map, slice::from_raw_parts(keys, count), most)
        }
    };
}

exports!(
    u64, btree_u64_make, btree_u64_free, btree_u64_insert, btree_u64_get, btree_u64_remove, btree_u64_iterate,
    btree_u64_range
);
exports!(
    Word, btree_word_make, btree_word_free, btree_word_insert, btree_word_get, btree_word_remove, btree_word_iterate,
    btree_word_range
);
