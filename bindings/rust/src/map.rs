//! An ordered map, its entries and its iterators, by the names of `std::collections::btree_map`.
use crate::index::{Index, Loader, Place};
use crate::key::{Find, Toward};
use crate::map_key::{Encoding, MapKey, TextKey};
use crate::pairs::{self, entry_of, word_of, Layout};
use crate::refusal::{granted, Refusal};
use crate::slots::Slots;
use crate::walk::Walk;
use std::borrow::Borrow;
use std::ops::{Bound, RangeBounds};
use std::{iter, mem};

pub use crate::map_entry::{Entry, OccupiedEntry, VacantEntry};
pub use crate::map_iter::{
    ExtractIf, IntoIter, IntoKeys, IntoValues, Iter, IterMut, Keys, Range, RangeMut, Values, ValuesMut,
};

/// An ordered map from keys of type `K` to values of type `V`, with the names of `BTreeMap`.
///
/// ```
/// use verified_art::Map;
///
/// let mut symbols = Map::new();
/// symbols.insert("tin".to_string(), "Sn");
/// symbols.insert("gold".to_string(), "A");
/// *symbols.get_mut("gold").unwrap() = "Au";
/// assert_eq!(symbols["gold"], "Au");
/// assert_eq!(symbols.prefix("ti").count(), 1);
/// assert_eq!(format!("{symbols:?}"), r#"{"gold": "Au", "tin": "Sn"}"#);
///
/// let by_group_and_number = Map::from([((14, 50), "tin"), ((11, 79), "gold"), ((14, 6), "carbon")]);
/// assert_eq!(by_group_and_number.range((14, 0)..).next(), Some((&(14, 6), &"carbon")));
/// ```
///
/// Small entries lie in the library, which lends them: those whose keys have numbers as their [`Encoding`] and
/// whose values have eight bytes at most and no `Drop`, where the keys are unsigned numbers, `bool` or `char`, or have eight bytes
/// together with their values. Of others each key lies with its value in memory of this map, and the library has the key's
/// encoding with their place there: these keys take memory twice.
///
/// Only a key that is not there takes memory of the library. Where that is refused, or the key is too long, nothing changes:
/// [`try_put`](Self::try_put) and `from_ascending` return the [`Refusal`], other calls panic; `extend` and
/// [`append`](Self::append) keep what they did until then. Look-ups, iterators and removals are never refused, and `new`, `clear`
/// and drops take no memory at all.
///
/// One moves to another thread only where its keys and values do:
///
/// ```compile_fail,E0277
/// fn sent(_: impl Send) {}
/// sent(verified_art::Map::<u8, std::rc::Rc<()>>::new());
/// ```
pub struct Map<K, V> {
    // INVARIANT: each entry's slot has its word in the index, and no other entry's. A word whose slot is empty is that of no entry:
    // there are some where the encoding of a key has changed. Where the index has pairs, these are entries of `K` and `V`, in
    // the layout that is there, and there are no slots.
    pub(crate) index: Index,
    pub(crate) slots: Slots<K, V>,
}

/// What comes back where memory is refused: an entry, and why.
type Refused<K, V> = (K, V, Refusal);

/// The encoding of an entry that was put in where that is in the library, else its word; and the entry in whose place it is.
type Put<K, V> = (Spot, Option<(K, V)>);

/// Where an entry is that was put in.
#[derive(Clone, Copy)]
pub(crate) enum Spot {
    /// In the slot of this word.
    Slot(u64),
    /// In the library, by this number.
    Number(u64),
}

impl<K, V> Map<K, V> {
    /// An empty map, which takes no memory.
    pub const fn new() -> Self {
        Map { index: Index::Empty, slots: Slots::new() }
    }

    /// The number of entries. Takes constant time.
    pub fn len(&self) -> usize {
        match self.index {
            Index::Pairs(..) => self.index.len(),
            _ => self.slots.len(),
        }
    }

    /// Whether there is no entry.
    pub fn is_empty(&self) -> bool {
        self.len() == 0
    }

    /// Removes all entries, and drops them. Takes no memory.
    pub fn clear(&mut self) {
        // The map is whole before a value's own drop, which may panic.
        let slots = mem::replace(&mut self.slots, Slots::new());
        self.index.clear();
        drop(slots);
    }

    /// An entry.
    #[inline]
    pub(crate) fn at(&self, place: Place) -> Option<(&K, &V)> {
        match place {
            Place::Slot(word) => self.slots.get(word),
            // SAFETY: the index gave the place, and does not change for so long. Who has values of it has borrowed the map.
            Place::Pair(pair) => Some(unsafe { pair.lent() }),
        }
    }

    /// The same, with a value that can be changed.
    #[inline]
    pub(crate) fn at_mut(&mut self, place: Place) -> Option<(&K, &mut V)> {
        match place {
            Place::Slot(word) => self.slots.get_mut(word).map(|(key, value)| (&*key, value)),
            // SAFETY: as above, and this map is borrowed mutably.
            Place::Pair(pair) => Some(unsafe { pair.lent_mut() }),
        }
    }

    // The place of the first or of the last entry.
    fn end_place(&self, toward: Toward) -> Option<Place> {
        let mut walk = Walk::all(&self.index);
        let mut places = iter::from_fn(|| match toward {
            Toward::End => walk.next::<K, V>(&self.index, |_| ()),
            Toward::Start => walk.next_back::<K, V>(&self.index, |_| ()),
        });
        places.find(|place| self.at(*place).is_some())
    }

    /// The entry with the least key.
    pub fn first_key_value(&self) -> Option<(&K, &V)> {
        self.at(self.end_place(Toward::End)?)
    }

    /// The entry with the greatest key.
    pub fn last_key_value(&self) -> Option<(&K, &V)> {
        self.at(self.end_place(Toward::Start)?)
    }

    /// The entry with the least key, to be changed or removed.
    pub fn first_entry(&mut self) -> Option<OccupiedEntry<'_, K, V>> {
        self.end_place(Toward::End).map(|place| OccupiedEntry { map: self, place })
    }

    /// The entry with the greatest key, to be changed or removed.
    pub fn last_entry(&mut self) -> Option<OccupiedEntry<'_, K, V>> {
        self.end_place(Toward::Start).map(|place| OccupiedEntry { map: self, place })
    }

    /// Removes the entry with the least key.
    pub fn pop_first(&mut self) -> Option<(K, V)> {
        self.pop(Find::PopFirst)
    }

    /// Removes the entry with the greatest key.
    pub fn pop_last(&mut self) -> Option<(K, V)> {
        self.pop(Find::PopLast)
    }

    fn pop(&mut self, which: Find) -> Option<(K, V)> {
        if let Index::Pairs(..) = self.index {
            // SAFETY: it was an entry of these types.
            return self.index.pop_pair(which).map(|(layout, key, word)| unsafe { entry_of(layout, key, word) });
        }
        loop {
            let entry = self.slots.release(self.index.pop(which)?);
            if entry.is_some() {
                return entry;
            }
        }
    }

    /// All entries, in ascending order of their keys.
    pub fn iter(&self) -> Iter<'_, K, V> {
        Iter::new(self)
    }

    /// The same, with values that can be changed.
    pub fn iter_mut(&mut self) -> IterMut<'_, K, V> {
        IterMut::new(self)
    }

    /// All keys, in ascending order.
    pub fn keys(&self) -> Keys<'_, K, V> {
        Keys(self.iter())
    }

    /// All values, in ascending order of their keys.
    pub fn values(&self) -> Values<'_, K, V> {
        Values(self.iter())
    }

    /// The same, to be changed.
    pub fn values_mut(&mut self) -> ValuesMut<'_, K, V> {
        ValuesMut(self.iter_mut())
    }

    /// All keys, in ascending order, by value.
    pub fn into_keys(self) -> IntoKeys<K, V> {
        IntoKeys(self.into_iter())
    }

    /// All values, in ascending order of their keys, by value.
    pub fn into_values(self) -> IntoValues<K, V> {
        IntoValues(self.into_iter())
    }
}

impl<K: MapKey, V> Map<K, V> {
    /// A map of entries whose keys ascend, each above the one before: made much faster than by inserts. Refused with
    /// [`Refusal::NotAscending`], for a key that is too long, or for memory, the first of these; the entries are then dropped.
    ///
    /// To `collect` entries sorts them first, where they do not ascend.
    ///
    /// ```
    /// use verified_art::{Map, Refusal};
    ///
    /// let symbols = Map::from_ascending([("gold", "Au"), ("iron", "Fe"), ("tin", "Sn")]).unwrap();
    /// assert_eq!(symbols.range("h"..).next(), Some((&"iron", &"Fe")));
    /// assert_eq!(Map::from_ascending([(7u8, 1), (5, 2)]), Err(Refusal::NotAscending));
    /// ```
    pub fn from_ascending(entries: impl IntoIterator<Item = (K, V)>) -> Result<Self, Refusal> {
        let mut keys = Loader::default();
        let Some(layout) = Self::LAYOUT else {
            // (In the memory of the entries, where they are in a `Vec`.)
            let slots = entries.into_iter().inspect(|(key, _)| key.encode(|key| keys.push(key))).collect();
            return Ok(Map { index: keys.load()?, slots });
        };
        let mut slots = Slots::new();
        for (key, value) in entries {
            match number_or(&key, |key| keys.push(key)) {
                Ok(number) => keys.push_pair(number, word_of(layout, key, value), layout),
                Err(()) => slots.push(key, value),
            }
        }
        Ok(Map { index: keys.load()?, slots })
    }

    /// How entries lie in the library, if they do, by keys that are numbers.
    const LAYOUT: Option<Layout> = pairs::layout::<K, V>(K::IN_PLACE);

    #[inline]
    pub(crate) fn place<Q: MapKey + ?Sized>(&self, key: &Q) -> Option<Place> {
        key.encode(|key| self.index.get(key))
    }

    /// The value of a key.
    #[inline]
    pub fn get<Q: MapKey + ?Sized>(&self, key: &Q) -> Option<&V>
    where
        K: Borrow<Q>,
    {
        self.get_key_value(key).map(|(_, value)| value)
    }

    /// The value of a key, to be changed.
    #[inline]
    pub fn get_mut<Q: MapKey + ?Sized>(&mut self, key: &Q) -> Option<&mut V>
    where
        K: Borrow<Q>,
    {
        let place = self.place(key)?;
        self.at_mut(place).map(|(_, value)| value)
    }

    /// The key, as the map has it, and its value.
    #[inline]
    pub fn get_key_value<Q: MapKey + ?Sized>(&self, key: &Q) -> Option<(&K, &V)>
    where
        K: Borrow<Q>,
    {
        self.at(self.place(key)?)
    }

    /// Whether there is an entry with this key.
    pub fn contains_key<Q: MapKey + ?Sized>(&self, key: &Q) -> bool
    where
        K: Borrow<Q>,
    {
        self.get(key).is_some()
    }

    /// Sets the value of a key, and returns the one that it had. The map then has the key that it had.
    pub fn insert(&mut self, key: K, value: V) -> Option<V> {
        granted(self.try_put(key, value).map_err(|(_, _, refusal)| refusal))
    }

    /// The same, where memory is found and the key is not too long. Else both come back.
    pub fn try_put(&mut self, key: K, value: V) -> Result<Option<V>, (K, V, Refusal)> {
        self.put(key, value).map(|(_, before)| before)
    }

    /// The same, and where the entry is.
    #[inline]
    pub(crate) fn put(&mut self, key: K, value: V) -> Result<(Spot, Option<V>), Refused<K, V>> {
        let (spot, before) = self.replace(key, value)?;
        let before = before.map(|(mut key, value)| {
            match spot {
                Spot::Slot(word) => {
                    if let Some((put, _)) = self.slots.get_mut(word) {
                        mem::swap(put, &mut key);
                    }
                }
                Spot::Number(number) if Self::LAYOUT == Some(Layout::Together) => {
                    if let Some(Place::Pair(pair)) = self.index.get(Encoding::Number(number)) {
                        // SAFETY: the index gave the place, and this map is borrowed mutably.
                        unsafe { pair.set_key::<K, V>(key) }
                    }
                }
                Spot::Number(_) => (),
            }
            value
        });
        Ok((spot, before))
    }

    /// Puts an entry in, in place of the one with the same key. Returns where it is, and that one.
    #[inline]
    pub(crate) fn replace(&mut self, key: K, value: V) -> Result<Put<K, V>, Refused<K, V>> {
        let Map { index, slots } = self;
        if let Some(layout) = Self::LAYOUT {
            if let Ok(number) = number_or(&key, |_| ()) {
                return Self::replace_pair(index, number, layout, key, value);
            }
        }
        let put = slots.vacant().and_then(|word| Ok((word, key.encode(|key| index.insert(key, word))?)));
        let (word, before) = match put {
            Ok(put) => put,
            Err(refusal) => return Err((key, value, refusal)),
        };
        slots.add(key, value);
        Ok((Spot::Slot(word), before.and_then(|before| slots.release(before))))
    }

    #[inline]
    fn replace_pair(
        index: &mut Index,
        number: u64,
        layout: Layout,
        key: K,
        value: V,
    ) -> Result<Put<K, V>, Refused<K, V>> {
        let word = word_of(layout, key, value);
        match index.insert_pair(number, word, layout) {
            // SAFETY: it was an entry of these types.
            Ok(before) => Ok((Spot::Number(number), before.map(|word| unsafe { entry_of(layout, number, word) }))),
            Err(refusal) => {
                // SAFETY: as this one is.
                let (key, value) = unsafe { entry_of(layout, number, word) };
                Err((key, value, refusal))
            }
        }
    }

    /// The place of an entry that was just put in.
    pub(crate) fn place_of(&self, spot: Spot) -> Option<Place> {
        match spot {
            Spot::Slot(word) => Some(Place::Slot(word)),
            Spot::Number(number) => self.index.get(Encoding::Number(number)),
        }
    }

    /// Removes a key, and returns its value.
    pub fn remove<Q: MapKey + ?Sized>(&mut self, key: &Q) -> Option<V>
    where
        K: Borrow<Q>,
    {
        self.remove_entry(key).map(|(_, value)| value)
    }

    /// Removes a key, and returns it with its value.
    pub fn remove_entry<Q: MapKey + ?Sized>(&mut self, key: &Q) -> Option<(K, V)>
    where
        K: Borrow<Q>,
    {
        let Map { index, slots } = self;
        key.encode(|key| match (&index, key) {
            // SAFETY: it was an entry of these types.
            (Index::Pairs(..), Encoding::Number(number)) => {
                index.remove_pair(number).map(|(layout, word)| unsafe { entry_of(layout, number, word) })
            }
            _ => slots.release(index.remove(key)?),
        })
    }

    /// Removes an entry.
    pub(crate) fn remove_at(&mut self, place: Place) -> Option<(K, V)> {
        let word = match place {
            Place::Pair(pair) => {
                // SAFETY: the index gave the place, and has not changed. It was an entry of these types.
                let (layout, number) = (pair.layout, unsafe { pair.number() });
                return self.index.remove_pair(number).map(|(_, word)| unsafe { entry_of(layout, number, word) });
            }
            Place::Slot(word) => word,
        };
        let Map { index, slots } = self;
        let removed = slots.get(word)?.0.encode(|key| index.remove(key));
        let entry = slots.take(word);
        // It is this word, but where a key's encoding has changed.
        if let Some(removed) = removed {
            slots.release(removed);
        }
        entry
    }

    /// The place of a key, with its entry or without one.
    ///
    /// ```
    /// let mut lines = verified_art::Map::<_, Vec<u64>>::new();
    /// for (number, word) in [(1, "tin"), (2, "gold"), (3, "tin")] {
    ///     lines.entry(word).or_default().push(number);
    /// }
    /// assert_eq!(lines["tin"], [1, 3]);
    /// ```
    pub fn entry(&mut self, key: K) -> Entry<'_, K, V> {
        match self.place(&key).filter(|place| self.at(*place).is_some()) {
            Some(place) => Entry::Occupied(OccupiedEntry { map: self, place }),
            None => Entry::Vacant(VacantEntry { map: self, key }),
        }
    }

    /// Moves all entries of another map into this one, where their values replace those of the same keys. Where memory is
    /// refused, the entries before have moved, and the others are where they were.
    pub fn append(&mut self, other: &mut Self) {
        if self.is_empty() {
            return mem::swap(self, other);
        }
        let (mut places, mut moved) = (Walk::all(&other.index), 0);
        while let Some(place) = places.next::<K, V>(&other.index, |word| other.slots.warm(word)) {
            let entry = match place {
                Place::Slot(word) => other.slots.take(word),
                // SAFETY: the index gave the place, and has not changed. It loses the entry, or keeps it where it was refused.
                Place::Pair(pair) => Some(unsafe { pair.taken() }),
            };
            if let Some(Err((key, value, refusal))) = entry.map(|(key, value)| self.put(key, value)) {
                if let Place::Slot(word) = place {
                    other.slots.put_back(word, key, value);
                }
                for _ in 0..moved {
                    if let Some(word) = other.index.drop_end(Find::PopFirst) {
                        other.slots.release(word);
                    }
                }
                granted(Err(refusal))
            }
            moved += 1;
        }
        other.clear();
    }

    /// Moves the entries from a key on into a map of their own. Takes time linear in how many are on the side that has fewer.
    /// Where memory is refused, nothing moves.
    pub fn split_off<Q: MapKey + ?Sized>(&mut self, key: &Q) -> Self
    where
        K: Borrow<Q>,
    {
        let below = Walk::range::<Q>(&self.index, &(Bound::Unbounded, Bound::Excluded(key)));
        let from = Walk::range::<Q>(&self.index, &(Bound::Included(key), Bound::Unbounded));
        let (mut count_below, mut count_from) = (below.clone(), from.clone());
        loop {
            if count_from.next::<K, V>(&self.index, |_| ()).is_none() {
                return self.moved_out(from, Find::PopLast);
            }
            if count_below.next::<K, V>(&self.index, |_| ()).is_none() {
                let below = self.moved_out(below, Find::PopFirst);
                return mem::replace(self, below);
            }
        }
    }

    /// Moves entries into a map of their own: the first or the last ones, by these pops.
    fn moved_out(&mut self, mut entries: Walk, pops: Find) -> Self {
        let (mut keys, mut words, mut count) = (Loader::default(), Vec::new(), 0);
        while let Some(place) = entries.next::<K, V>(&self.index, |word| self.slots.warm(word)) {
            count += 1;
            match place {
                Place::Slot(word) => {
                    words.push(word);
                    if let Some((key, _)) = self.slots.get(word) {
                        key.encode(|key| keys.push(key));
                    }
                }
                // SAFETY: the index gave the place, and has not changed.
                Place::Pair(pair) => unsafe { keys.push_pair(pair.number(), pair.word(), pair.layout) },
            }
        }
        let index = granted(keys.load());
        let slots = words.iter().filter_map(|word| self.slots.release(*word)).collect();
        for _ in 0..count {
            self.index.drop_end(pops);
        }
        Map { index, slots }
    }

    /// Removes the entries that a closure does not keep. It may change their values. Where it panics, the entries from there
    /// on stay.
    pub fn retain(&mut self, mut keeps: impl FnMut(&K, &mut V) -> bool) {
        self.extract_if(.., |key, value| !keeps(key, value)).for_each(drop);
    }

    /// The entries of a range that a closure picks: each is removed as it is given. Those that are not asked for stay.
    pub fn extract_if<F: FnMut(&K, &mut V) -> bool>(
        &mut self,
        range: impl RangeBounds<K>,
        picks: F,
    ) -> ExtractIf<'_, K, V, F> {
        ExtractIf { walk: Walk::range(&self.index, &range), map: self, picks }
    }

    /// The entries of a range, from either end: none where the start is beyond the end.
    pub fn range<Q: MapKey + ?Sized, R: RangeBounds<Q>>(&self, range: R) -> Range<'_, K, V>
    where
        K: Borrow<Q>,
    {
        Range::new(self, Walk::range(&self.index, &range))
    }

    /// The same, with values that can be changed.
    pub fn range_mut<Q: MapKey + ?Sized, R: RangeBounds<Q>>(&mut self, range: R) -> RangeMut<'_, K, V>
    where
        K: Borrow<Q>,
    {
        let walk = Walk::range(&self.index, &range);
        RangeMut::new(self, walk)
    }
}

impl<K: TextKey, V> Map<K, V> {
    /// The entries whose keys begin with a prefix.
    pub fn prefix(&self, prefix: impl AsRef<[u8]>) -> Range<'_, K, V> {
        Range::new(self, Walk::prefix(&self.index, prefix.as_ref()))
    }

    /// The same, with values that can be changed.
    pub fn prefix_mut(&mut self, prefix: impl AsRef<[u8]>) -> RangeMut<'_, K, V> {
        let walk = Walk::prefix(&self.index, prefix.as_ref());
        RangeMut::new(self, walk)
    }

    /// How many keys begin with a prefix. Takes time linear in their number.
    pub fn count_prefix(&self, prefix: impl AsRef<[u8]>) -> usize {
        if self.index.len() == self.len() {
            self.index.count_prefix(prefix.as_ref())
        } else {
            self.prefix(prefix).count()
        }
    }
}

/// The number that a key has as its encoding, or what a closure makes of another one.
#[inline]
fn number_or<K: MapKey, T>(key: &K, other: impl FnOnce(Encoding<'_>) -> T) -> Result<u64, T> {
    key.encode(|key| match key {
        Encoding::Number(number) => Ok(number),
        key => Err(other(key)),
    })
}
