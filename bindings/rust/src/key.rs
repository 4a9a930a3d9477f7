//! The two kinds of keys, and the calls for each.
use crate::raw::{self, RawMap, Word};
use crate::refusal::is_some;
use std::collections::VecDeque;
use std::fmt;
use std::hash::Hash;

/// What the keys of a map are: `Vec<u8>` (any bytes, in lexicographic order) or `u64`.
pub trait Key: Calls + Clone + Ord + Hash + Default {}

impl Key for Vec<u8> {}
impl Key for u64 {}

/// What a key of type `K` may be given as: for `Vec<u8>` whatever has bytes (`&str`, `&[u8]`, `b"tin"`,
/// `String`), for `u64` itself or a reference.
pub trait AsKey<K: Key> {
    #[doc(hidden)]
    fn as_key(&self) -> &K::Sought;
}

impl<T: AsRef<[u8]> + ?Sized> AsKey<Vec<u8>> for T {
    fn as_key(&self) -> &[u8] {
        self.as_ref()
    }
}

impl AsKey<u64> for u64 {
    fn as_key(&self) -> &u64 {
        self
    }
}

impl AsKey<u64> for &u64 {
    fn as_key(&self) -> &u64 {
        self
    }
}

/// Which entry to find, or to remove.
#[derive(Clone, Copy)]
pub enum Find {
    First,
    Last,
    PopFirst,
    PopLast,
}

/// In which order entries are fetched.
#[derive(Clone, Copy)]
pub enum Toward {
    End,
    Start,
}

/// Entries for one call: the keys, of bytes one behind another and where each ends, and the values.
pub struct Many<W> {
    keys: Vec<W>,
    ends: Vec<usize>,
    values: Vec<Word>,
}

impl<W> Many<W> {
    pub(crate) fn new() -> Self {
        Many { keys: Vec::new(), ends: Vec::new(), values: Vec::new() }
    }

    pub(crate) fn is_empty(&self) -> bool {
        self.values.is_empty()
    }
}

impl Many<u64> {
    /// Appends an entry.
    #[inline]
    pub(crate) fn push_pair(&mut self, key: u64, value: Word) {
        self.keys.push(key);
        self.values.push(value);
    }
}

impl<W> Default for Many<W> {
    fn default() -> Self {
        Self::new()
    }
}

/// The calls of the library for one kind of keys. No other crate can name this trait, so none can
/// implement it.
///
/// # Safety
///
/// In each call but `make` the handle holds a map, and no other call has this handle. One that changes the map runs alone
/// of all calls of this map. Those that only look, `len`, `get`, `fetch` and what `find` does but for pops, may be given a copy.
pub trait Calls: Sized {
    type Sought: ?Sized + Ord + ToOwned<Owned = Self>;
    /// What keys lie in that are given to one call.
    type Word;

    fn sought(&self) -> &Self::Sought;

    /// Appends an entry to those for one call.
    fn push(many: &mut Many<Self::Word>, key: &Self::Sought, value: u64);

    unsafe fn make(map: *mut RawMap) -> u32;
    unsafe fn free(map: *mut RawMap);
    unsafe fn len(map: *mut RawMap) -> usize;
    unsafe fn clear(map: *mut RawMap);
    unsafe fn insert(map: *mut RawMap, key: &Self::Sought, value: u64, before: &mut u64) -> u32;
    unsafe fn get(map: *mut RawMap, key: &Self::Sought) -> Option<u64>;
    unsafe fn remove(map: *mut RawMap, key: &Self::Sought) -> Option<u64>;
    /// Inserts entries one after another.
    unsafe fn insert_many(map: *mut RawMap, many: &Many<Self::Word>) -> u32;
    /// Puts entries whose keys ascend into a map without entries.
    unsafe fn load(map: *mut RawMap, many: &Many<Self::Word>) -> u32;
    unsafe fn find(map: *mut RawMap, which: Find) -> Option<(Self, u64)>;

    /// Appends the next entries after a key, from it on where that is included: at least one if there
    /// are any, and `most` at most. Or the last ones before it, from the last one down.
    unsafe fn fetch(
        map: *mut RawMap,
        toward: Toward,
        from: &Self::Sought,
        inclusive: bool,
        most: usize,
        into: &mut VecDeque<(Self, u64)>,
    );

    /// Shows a key.
    fn show(&self, out: &mut fmt::Formatter<'_>) -> fmt::Result;
}

/// Calls with buffers for a key until it fits, and returns the key and the value where one is found.
fn with_buffer(mut call: impl FnMut(&mut [u8], &mut usize, &mut u64) -> u32) -> Option<(Vec<u8>, u64)> {
    let mut key = vec![0; 32];
    loop {
        let (mut len, mut value) = (0, 0);
        let status = call(&mut key, &mut len, &mut value);
        if status == raw::SMALL_BUFFER {
            key.resize(len, 0);
        } else {
            key.truncate(len);
            return is_some(status).then_some((key, value));
        }
    }
}

impl Calls for Vec<u8> {
    type Sought = [u8];
    type Word = u8;

    fn sought(&self) -> &[u8] {
        self
    }

    fn push(many: &mut Many<u8>, key: &[u8], value: u64) {
        many.keys.extend_from_slice(key);
        many.ends.push(many.keys.len());
        many.values.push(Word::new(value));
    }

    unsafe fn make(map: *mut RawMap) -> u32 {
        raw::art_bytes_new(map)
    }

    unsafe fn free(map: *mut RawMap) {
        raw::art_bytes_free(map)
    }

    unsafe fn len(map: *mut RawMap) -> usize {
        raw::art_bytes_len(map)
    }

    unsafe fn clear(map: *mut RawMap) {
        raw::art_bytes_clear(map)
    }

    unsafe fn insert(map: *mut RawMap, key: &[u8], value: u64, before: &mut u64) -> u32 {
        raw::art_bytes_insert(map, key.as_ptr(), key.len(), value, before)
    }

    #[inline]
    unsafe fn get(map: *mut RawMap, key: &[u8]) -> Option<u64> {
        let mut value = 0;
        is_some(raw::art_bytes_get(map, key.as_ptr(), key.len(), &mut value)).then_some(value)
    }

    #[inline]
    unsafe fn remove(map: *mut RawMap, key: &[u8]) -> Option<u64> {
        let mut value = 0;
        is_some(raw::art_bytes_remove(map, key.as_ptr(), key.len(), &mut value)).then_some(value)
    }

    unsafe fn insert_many(map: *mut RawMap, many: &Many<u8>) -> u32 {
        let (keys, ends, values, mut done) = (&many.keys, &many.ends, &many.values, 0);
        #[rustfmt::skip]
        let status = raw::art_bytes_insert_many(
            map, keys.as_ptr(), keys.len(), ends.as_ptr(), ends.len(), values.as_ptr().cast(), values.len(), &mut done,
        );
        status
    }

    unsafe fn load(map: *mut RawMap, many: &Many<u8>) -> u32 {
        let (keys, ends, values) = (&many.keys, &many.ends, &many.values);
        let (values, count) = (values.as_ptr().cast(), values.len());
        raw::art_bytes_load(map, keys.as_ptr(), keys.len(), ends.as_ptr(), ends.len(), values, count)
    }

    unsafe fn find(map: *mut RawMap, which: Find) -> Option<(Vec<u8>, u64)> {
        with_buffer(|key, len, value| {
            let (out, room) = (key.as_mut_ptr(), key.len());
            match which {
                Find::First => raw::art_bytes_first(map, out, room, len, value),
                Find::Last => raw::art_bytes_last(map, out, room, len, value),
                Find::PopFirst => raw::art_bytes_pop_first(map, out, room, len, value),
                Find::PopLast => raw::art_bytes_pop_last(map, out, room, len, value),
            }
        })
    }

    unsafe fn fetch(
        map: *mut RawMap,
        toward: Toward,
        from: &[u8],
        inclusive: bool,
        most: usize,
        into: &mut VecDeque<(Vec<u8>, u64)>,
    ) {
        let (mut ends, mut values) = ([0; MOST_FETCHED], [0; MOST_FETCHED]);
        let most = most.min(MOST_FETCHED);
        let call = match toward {
            Toward::End => raw::art_bytes_next_many,
            Toward::Start => raw::art_bytes_previous_many,
        };
        let (mut few, mut many) = ([0; 1024], Vec::new());
        let mut keys = &mut few[..];
        loop {
            let (mut count, mut key_len) = (0, 0);
            let (out, room, no_prefix) = (keys.as_mut_ptr(), keys.len(), [].as_ptr());
            let (ends_out, values_out) = (ends.as_mut_ptr(), values.as_mut_ptr());
            #[rustfmt::skip]
            let status = call(
                map, no_prefix, 0, from.as_ptr(), from.len(), inclusive, out, room, ends_out, most, values_out, most,
                &mut count, &mut key_len,
            );
            if status == raw::SMALL_BUFFER {
                many.resize(key_len, 0);
                keys = &mut many;
                continue;
            }
            let mut begin = 0;
            for (&end, &value) in ends.iter().zip(&values).take(count) {
                into.push_back((keys[begin..end].to_vec(), value));
                begin = end;
            }
            return;
        }
    }

    fn show(&self, out: &mut fmt::Formatter<'_>) -> fmt::Result {
        write!(out, "b\"{}\"", self.escape_ascii())
    }
}

/// How many entries are fetched at once.
const MOST_FETCHED: usize = 64;

impl Calls for u64 {
    type Sought = u64;
    type Word = u64;

    fn sought(&self) -> &u64 {
        self
    }

    fn push(many: &mut Many<u64>, key: &u64, value: u64) {
        many.push_pair(*key, Word::new(value));
    }

    unsafe fn make(map: *mut RawMap) -> u32 {
        raw::art_u64_new(map)
    }

    unsafe fn free(map: *mut RawMap) {
        raw::art_u64_free(map)
    }

    unsafe fn len(map: *mut RawMap) -> usize {
        raw::art_u64_len(map)
    }

    unsafe fn clear(map: *mut RawMap) {
        raw::art_u64_clear(map)
    }

    unsafe fn insert(map: *mut RawMap, key: &u64, value: u64, before: &mut u64) -> u32 {
        raw::art_u64_insert(map, *key, Word::new(value), before)
    }

    #[inline]
    unsafe fn get(map: *mut RawMap, key: &u64) -> Option<u64> {
        let mut value = 0;
        is_some(raw::art_u64_get(map, *key, &mut value)).then_some(value)
    }

    #[inline]
    unsafe fn remove(map: *mut RawMap, key: &u64) -> Option<u64> {
        let mut value = 0;
        is_some(raw::art_u64_remove(map, *key, &mut value)).then_some(value)
    }

    unsafe fn insert_many(map: *mut RawMap, many: &Many<u64>) -> u32 {
        let (keys, values, mut done) = (&many.keys, &many.values, 0);
        raw::art_u64_insert_many(map, keys.as_ptr(), keys.len(), values.as_ptr().cast(), values.len(), &mut done)
    }

    unsafe fn load(map: *mut RawMap, many: &Many<u64>) -> u32 {
        let (keys, values) = (&many.keys, &many.values);
        raw::art_u64_load(map, keys.as_ptr(), keys.len(), values.as_ptr().cast(), values.len())
    }

    unsafe fn find(map: *mut RawMap, which: Find) -> Option<(u64, u64)> {
        let (mut key, mut value) = (0, 0);
        let status = match which {
            Find::First => raw::art_u64_first(map, &mut key, &mut value),
            Find::Last => raw::art_u64_last(map, &mut key, &mut value),
            Find::PopFirst => raw::art_u64_pop_first(map, &mut key, &mut value),
            Find::PopLast => raw::art_u64_pop_last(map, &mut key, &mut value),
        };
        is_some(status).then_some((key, value))
    }

    unsafe fn fetch(
        map: *mut RawMap,
        toward: Toward,
        from: &u64,
        inclusive: bool,
        most: usize,
        into: &mut VecDeque<(u64, u64)>,
    ) {
        let (mut keys, mut values) = ([0; MOST_FETCHED], [0; MOST_FETCHED]);
        let most = most.min(MOST_FETCHED);
        let call = match toward {
            Toward::End => raw::art_u64_next_many,
            Toward::Start => raw::art_u64_previous_many,
        };
        let count = call(map, *from, inclusive, keys.as_mut_ptr(), most, values.as_mut_ptr(), most);
        into.extend(keys.into_iter().zip(values).take(count));
    }

    fn show(&self, out: &mut fmt::Formatter<'_>) -> fmt::Result {
        write!(out, "{self}")
    }
}
