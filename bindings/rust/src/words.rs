use crate::bounds::KeyBounds;
use crate::entry::{Lent, OccupiedWord, VacantWord, ValueMut, WordEntry};
use crate::key::{AsKey, Find, Key, Many, Toward};
use crate::range::{
    Cursor, ExtractIf, IntoIter, IntoKeys, IntoValues, Iter, IterMut, Keys, Range, RangeMut, Values, ValuesMut,
};
use crate::raw::{self, RawMap};
use crate::refusal::{found, granted, Refusal};
use std::cmp::Ordering;
use std::collections::VecDeque;
use std::fmt;
use std::hash::{Hash, Hasher};
use std::marker::PhantomData;
use std::mem;
use std::ops::Bound;

/// An ordered map from keys of type `K` to values of 64 bits, with the names of `BTreeMap`.
///
/// Keys and values are copied in and out.
///
/// Only an empty map and a key that is not there take memory of the library. Where that is refused, or the key is too long,
/// the map is as it was: `try_new`, [`try_put`](Self::try_put) and `from_ascending` return the [`Refusal`], all others panic;
/// `extend` and [`append`](Self::append) keep what they did until then. Look-ups, iterators, removals and values of keys that
/// are there are never refused.
///
/// It is `Send` and `Sync`: calls that only look write nothing behind the handle.
///
/// ```
/// use std::sync::RwLock;
///
/// let squares = RwLock::new(verified_art::NumberMap::from([(49u64, 7), (64, 8)]));
/// std::thread::scope(|scope| {
///     scope.spawn(|| assert_eq!(squares.read().unwrap().get(49), Some(7)));
///     scope.spawn(|| assert_eq!(squares.read().unwrap().range(50..).next(), Some((64, 8))));
/// });
/// squares.write().unwrap().clear();
/// ```
pub struct WordMap<K: Key> {
    // Moved with this struct: what moved is used no more. A copy is for one call that only looks.
    raw: RawMap,
    keys: PhantomData<K>,
}

/// An ordered map from byte strings, any at all, to values of 64 bits.
///
/// ```
/// use verified_art::ByteMap;
///
/// let mut metals = ByteMap::new();
/// metals.insert("tin", 50);
/// metals.insert(b"tin\0ore", 1050);
/// metals.insert("gold", 79);
/// assert_eq!(metals.get("tin"), Some(50));
/// assert_eq!(metals.get("iron"), None);
/// let tins: Vec<u64> = metals.prefix("tin").map(|(_, number)| number).collect();
/// assert_eq!(tins, [50, 1050]);
/// assert_eq!(metals.pop_first(), Some((b"gold".to_vec(), 79)));
/// ```
pub type ByteMap = WordMap<Vec<u8>>;

/// An ordered map from numbers to values of 64 bits.
///
/// ```
/// use verified_art::NumberMap;
///
/// let mut squares: NumberMap = (0..10).map(|root: u64| (root * root, root)).collect();
/// assert_eq!(squares.range(10..50).next(), Some((16, 4)));
/// assert_eq!(squares.range(..=35).next_back(), Some((25, 5)));
/// assert_eq!(squares.remove(0), Some(0));
/// assert_eq!(squares.len(), 9);
/// ```
pub type NumberMap = WordMap<u64>;

// SAFETY: the handle is a pointer to memory of `malloc`, which any thread may read, write and free, and the
// library has no state beside it. Calls by a shared reference only look, each by a handle of its own.
unsafe impl<K: Key> Send for WordMap<K> {}
unsafe impl<K: Key> Sync for WordMap<K> {}

impl<K: Key> WordMap<K> {
    /// An empty map.
    pub fn new() -> Self {
        granted(Self::try_new())
    }

    /// An empty map, where memory for it is found.
    pub fn try_new() -> Result<Self, Refusal> {
        let mut raw = RawMap::EMPTY;
        // SAFETY: the handle is empty. It holds a map afterwards, unless this is refused.
        found(unsafe { K::make(&mut raw) })?;
        Ok(WordMap { raw, keys: PhantomData })
    }

    /// A map of entries whose keys ascend, each above the one before: made much faster than by inserts. The entries are
    /// gathered first.
    ///
    /// Refused with [`Refusal::NotAscending`], for a key that is too long, or for memory, the first of these.
    /// To `collect` entries does the same where their keys ascend, and inserts them one after another where not.
    ///
    /// ```
    /// use verified_art::{ByteMap, Refusal};
    ///
    /// let metals = ByteMap::from_ascending([("gold", 79), ("iron", 26), ("tin", 50)]).unwrap();
    /// assert_eq!(metals.range("h"..).next(), Some((b"iron".to_vec(), 26)));
    /// assert_eq!(ByteMap::from_ascending([("tin", 50), ("tin", 51)]), Err(Refusal::NotAscending));
    /// ```
    pub fn from_ascending<Q: AsKey<K>>(entries: impl IntoIterator<Item = (Q, u64)>) -> Result<Self, Refusal> {
        Self::loaded(&gathered(entries))
    }

    pub(crate) fn loaded(many: &Many<K::Word>) -> Result<Self, Refusal> {
        let mut map = Self::try_new()?;
        // SAFETY: as for `own`.
        found(unsafe { K::load(&mut map.raw, many) })?;
        Ok(map)
    }

    // A handle for one call that only looks. SAFETY of each use, and of those of the handle itself: it holds a map until
    // `drop`. A call that changes the map borrows it mutably, and no call of the library calls back.
    fn own(&self) -> RawMap {
        self.raw.clone()
    }

    /// The number of entries. Takes constant time.
    pub fn len(&self) -> usize {
        unsafe { K::len(&mut self.own()) }
    }

    /// Whether there is no entry.
    pub fn is_empty(&self) -> bool {
        self.len() == 0
    }

    /// Removes all entries. Takes no memory.
    pub fn clear(&mut self) {
        unsafe { K::clear(&mut self.raw) }
    }

    /// Sets the value of a key, and returns the one that it had.
    pub fn insert(&mut self, key: impl AsKey<K>, value: u64) -> Option<u64> {
        granted(self.try_put(key, value))
    }

    /// The same, where memory is found and the key is not too long.
    pub fn try_put(&mut self, key: impl AsKey<K>, value: u64) -> Result<Option<u64>, Refusal> {
        self.put(key.as_key(), value)
    }

    pub(crate) fn put(&mut self, key: &K::Sought, value: u64) -> Result<Option<u64>, Refusal> {
        let mut before = 0;
        let status = unsafe { K::insert(&mut self.raw, key, value, &mut before) };
        Ok(found(status)?.then_some(before))
    }

    /// The value of a key.
    pub fn get(&self, key: impl AsKey<K>) -> Option<u64> {
        self.look(key.as_key())
    }

    pub(crate) fn look(&self, key: &K::Sought) -> Option<u64> {
        unsafe { K::get(&mut self.own(), key) }
    }

    /// The value of a key, to be changed: it is written to the map when the guard is dropped.
    ///
    /// ```
    /// let mut metals = verified_art::ByteMap::from([("tin", 49)]);
    /// *metals.get_mut("tin").unwrap() += 1;
    /// assert_eq!(metals.get("tin"), Some(50));
    /// ```
    pub fn get_mut(&mut self, key: impl AsKey<K>) -> Option<ValueMut<'_, K>> {
        let key = key.as_key();
        let value = self.look(key)?;
        Some(ValueMut::new(Lent::new(self), key.to_owned(), value))
    }

    /// The key, as the map has it, and its value.
    pub fn get_key_value(&self, key: impl AsKey<K>) -> Option<(K, u64)> {
        let sought = key.as_key();
        self.look(sought).map(|value| (sought.to_owned(), value))
    }

    /// Whether there is an entry with this key.
    pub fn contains_key(&self, key: impl AsKey<K>) -> bool {
        self.get(key).is_some()
    }

    /// The place of a key, with its entry or without one.
    ///
    /// ```
    /// let mut counts = verified_art::ByteMap::new();
    /// for word in ["tin", "gold", "tin"] {
    ///     counts.entry(word).and_modify(|count| *count += 1).or_insert(1);
    /// }
    /// assert_eq!(counts.get("tin"), Some(2));
    /// ```
    pub fn entry(&mut self, key: impl AsKey<K>) -> WordEntry<'_, K> {
        let key = key.as_key().to_owned();
        match self.look(key.sought()) {
            Some(value) => WordEntry::Occupied(OccupiedWord { map: self, key, value }),
            None => WordEntry::Vacant(VacantWord { map: self, key }),
        }
    }

    /// The entry with the least key, to be changed or removed.
    pub fn first_entry(&mut self) -> Option<OccupiedWord<'_, K>> {
        self.first_key_value().map(|(key, value)| OccupiedWord { map: self, key, value })
    }

    /// The entry with the greatest key, to be changed or removed.
    pub fn last_entry(&mut self) -> Option<OccupiedWord<'_, K>> {
        self.last_key_value().map(|(key, value)| OccupiedWord { map: self, key, value })
    }

    /// Removes a key, and returns its value.
    pub fn remove(&mut self, key: impl AsKey<K>) -> Option<u64> {
        self.take(key.as_key())
    }

    /// Removes a key, and returns it with its value.
    pub fn remove_entry(&mut self, key: impl AsKey<K>) -> Option<(K, u64)> {
        let sought = key.as_key();
        self.take(sought).map(|value| (sought.to_owned(), value))
    }

    pub(crate) fn take(&mut self, key: &K::Sought) -> Option<u64> {
        unsafe { K::remove(&mut self.raw, key) }
    }

    pub(crate) fn find(&self, which: Find) -> Option<(K, u64)> {
        unsafe { K::find(&mut self.own(), which) }
    }

    fn pop(&mut self, which: Find) -> Option<(K, u64)> {
        unsafe { K::find(&mut self.raw, which) }
    }

    pub(crate) fn fetch(&self, toward: Toward, from: &K, inclusive: bool, most: usize, into: &mut VecDeque<(K, u64)>) {
        unsafe { K::fetch(&mut self.own(), toward, from.sought(), inclusive, most, into) }
    }

    /// The entry with the least key.
    pub fn first_key_value(&self) -> Option<(K, u64)> {
        self.find(Find::First)
    }

    /// The entry with the greatest key.
    pub fn last_key_value(&self) -> Option<(K, u64)> {
        self.find(Find::Last)
    }

    /// Removes the entry with the least key.
    pub fn pop_first(&mut self) -> Option<(K, u64)> {
        self.pop(Find::PopFirst)
    }

    /// Removes the entry with the greatest key.
    pub fn pop_last(&mut self) -> Option<(K, u64)> {
        self.pop(Find::PopLast)
    }

    /// Moves all entries of another map into this one, where they replace those with the same keys. Where memory is refused,
    /// the entries before have moved, and the others are where they were.
    pub fn append(&mut self, other: &mut Self) {
        if self.is_empty() {
            return mem::swap(self, other);
        }
        while let Some((key, value)) = other.find(Find::First) {
            granted(self.put(key.sought(), value));
            other.pop_first();
        }
    }

    /// Moves the entries from a key on into a map of their own, as [`from_ascending`](Self::from_ascending) makes it. Where
    /// memory is refused, nothing moves.
    pub fn split_off(&mut self, key: impl AsKey<K>) -> Self {
        let cursor = Cursor::new(((key.as_key().to_owned(), true), Bound::Unbounded));
        let split = granted(Self::loaded(&many_of(Range::new(self, cursor))));
        (0..split.len()).for_each(|_| drop(self.pop_last()));
        split
    }

    /// Removes the entries that a closure does not keep. It may change their values. Where it panics, the entries from there
    /// on stay.
    pub fn retain(&mut self, mut keeps: impl FnMut(&K, &mut u64) -> bool) {
        self.extract_if(.., |key, value| !keeps(key, value)).for_each(drop);
    }

    /// The entries between two bounds that a closure picks: each is removed as it is given. Those that are not asked for
    /// stay.
    pub fn extract_if<F: FnMut(&K, &mut u64) -> bool>(
        &mut self,
        bounds: impl KeyBounds<K>,
        picks: F,
    ) -> ExtractIf<'_, K, F> {
        ExtractIf::new(self, Cursor::new(bounds.ends()), picks)
    }

    /// The entries between two bounds, from either end. Where the start is beyond the end there are none,
    /// and no panic as that of `BTreeMap`.
    pub fn range(&self, bounds: impl KeyBounds<K>) -> Range<'_, K> {
        Range::new(self, Cursor::new(bounds.ends()))
    }

    /// The same, with values that can be changed: each is written to the map when its guard is dropped.
    ///
    /// ```
    /// let mut squares = verified_art::NumberMap::from([(1u64, 1), (2, 4), (3, 9)]);
    /// for (_, mut square) in squares.range_mut(2..) {
    ///     *square += 1;
    /// }
    /// assert!(squares.values().eq([1, 5, 10]));
    /// ```
    pub fn range_mut(&mut self, bounds: impl KeyBounds<K>) -> RangeMut<'_, K> {
        RangeMut::new(self, Cursor::new(bounds.ends()))
    }

    /// All entries, in ascending order of their keys.
    pub fn iter(&self) -> Iter<'_, K> {
        Iter::new(self)
    }

    /// The same, with values that can be changed: each is written to the map when its guard is dropped.
    pub fn iter_mut(&mut self) -> IterMut<'_, K> {
        IterMut(self.values_mut())
    }

    /// All keys, in ascending order.
    pub fn keys(&self) -> Keys<'_, K> {
        Keys(self.iter())
    }

    /// All values, in ascending order of their keys.
    pub fn values(&self) -> Values<'_, K> {
        Values(self.iter())
    }

    /// The same, to be changed: each is written to the map when its guard is dropped.
    pub fn values_mut(&mut self) -> ValuesMut<'_, K> {
        ValuesMut::new(self)
    }

    /// All keys, in ascending order, by value.
    pub fn into_keys(self) -> IntoKeys<K> {
        IntoKeys(IntoIter(self))
    }

    /// All values, in ascending order of their keys, by value.
    pub fn into_values(self) -> IntoValues<K> {
        IntoValues(IntoIter(self))
    }
}

impl WordMap<Vec<u8>> {
    /// The entries whose keys begin with a prefix.
    pub fn prefix(&self, prefix: impl AsRef<[u8]>) -> Range<'_, Vec<u8>> {
        let prefix = prefix.as_ref();
        Range::new(self, Cursor::new(((prefix.to_vec(), true), end_of_prefix(prefix))))
    }

    /// How many keys begin with a prefix. Takes time linear in their number.
    pub fn count_prefix(&self, prefix: impl AsRef<[u8]>) -> usize {
        let prefix = prefix.as_ref();
        // SAFETY: as for the calls of `raw`.
        unsafe { raw::art_bytes_count_prefix(&mut self.own(), prefix.as_ptr(), prefix.len()) }
    }
}

/// Entries for one call.
fn gathered<K: Key, Q: AsKey<K>>(entries: impl IntoIterator<Item = (Q, u64)>) -> Many<K::Word> {
    let mut many = Many::new();
    entries.into_iter().for_each(|(key, value)| K::push(&mut many, key.as_key(), value));
    many
}

/// The same of entries of a map.
fn many_of<K: Key>(entries: impl Iterator<Item = (K, u64)>) -> Many<K::Word> {
    let mut many = Many::new();
    entries.for_each(|(key, value)| K::push(&mut many, key.sought(), value));
    many
}

/// The bound above all keys that begin with a prefix: the prefix without the 255s at its end, and one more.
fn end_of_prefix(prefix: &[u8]) -> Bound<Vec<u8>> {
    match prefix.iter().rposition(|&byte| byte < u8::MAX) {
        Some(last) => {
            let mut end = prefix[..=last].to_vec();
            end[last] += 1;
            Bound::Excluded(end)
        }
        None => Bound::Unbounded,
    }
}

impl<K: Key> Drop for WordMap<K> {
    fn drop(&mut self) {
        // SAFETY: as for the calls of `raw`. There is none after this one.
        unsafe { K::free(&mut self.raw) }
    }
}

impl<K: Key> Default for WordMap<K> {
    fn default() -> Self {
        Self::new()
    }
}

impl<K: Key> Clone for WordMap<K> {
    fn clone(&self) -> Self {
        granted(Self::loaded(&many_of(self.iter())))
    }
}

impl<K: Key> PartialEq for WordMap<K> {
    fn eq(&self, other: &Self) -> bool {
        self.len() == other.len() && self.iter().eq(other)
    }
}

impl<K: Key> Eq for WordMap<K> {}

impl<K: Key> PartialOrd for WordMap<K> {
    fn partial_cmp(&self, other: &Self) -> Option<Ordering> {
        Some(self.cmp(other))
    }
}

impl<K: Key> Ord for WordMap<K> {
    fn cmp(&self, other: &Self) -> Ordering {
        self.iter().cmp(other)
    }
}

impl<K: Key> Hash for WordMap<K> {
    fn hash<H: Hasher>(&self, state: &mut H) {
        self.len().hash(state);
        self.iter().for_each(|entry| entry.hash(state));
    }
}

impl<K: Key> fmt::Debug for WordMap<K> {
    fn fmt(&self, out: &mut fmt::Formatter<'_>) -> fmt::Result {
        out.debug_map().entries(self.iter().map(|(key, value)| (Shown(key), value))).finish()
    }
}

/// A key, as it is shown: bytes as `b"tin"`.
pub(crate) struct Shown<K>(pub(crate) K);

impl<K: Key> fmt::Debug for Shown<K> {
    fn fmt(&self, out: &mut fmt::Formatter<'_>) -> fmt::Result {
        self.0.show(out)
    }
}

impl<K: Key, Q: AsKey<K>> Extend<(Q, u64)> for WordMap<K> {
    fn extend<I: IntoIterator<Item = (Q, u64)>>(&mut self, entries: I) {
        for (key, value) in entries {
            self.insert(key, value);
        }
    }
}

impl<K: Key, Q: AsKey<K>> FromIterator<(Q, u64)> for WordMap<K> {
    fn from_iter<I: IntoIterator<Item = (Q, u64)>>(entries: I) -> Self {
        let many = gathered(entries);
        match Self::loaded(&many) {
            Err(Refusal::NotAscending) => {
                let mut map = Self::new();
                // SAFETY: as for `own`.
                granted(found(unsafe { K::insert_many(&mut map.raw, &many) }));
                map
            }
            loaded => granted(loaded),
        }
    }
}

impl<K: Key, Q: AsKey<K>, const N: usize> From<[(Q, u64); N]> for WordMap<K> {
    fn from(entries: [(Q, u64); N]) -> Self {
        entries.into_iter().collect()
    }
}

impl<'a, K: Key> IntoIterator for &'a WordMap<K> {
    type Item = (K, u64);
    type IntoIter = Iter<'a, K>;

    fn into_iter(self) -> Iter<'a, K> {
        self.iter()
    }
}

impl<'a, K: Key> IntoIterator for &'a mut WordMap<K> {
    type Item = (K, ValueMut<'a, K>);
    type IntoIter = IterMut<'a, K>;

    fn into_iter(self) -> IterMut<'a, K> {
        self.iter_mut()
    }
}

impl<K: Key> IntoIterator for WordMap<K> {
    type Item = (K, u64);
    type IntoIter = IntoIter<K>;

    fn into_iter(self) -> IntoIter<K> {
        IntoIter(self)
    }
}
