//! What maps have of std's traits, as `BTreeMap` has them.
use crate::index::{Index, Loader, Place};
use crate::map::Map;
use crate::map_iter::{IntoIter, Iter, IterMut};
use crate::map_key::MapKey;
use crate::pairs::word_of;
use crate::refusal::granted;
use crate::slots::Slots;
use crate::walk::Walk;
use std::borrow::Borrow;
use std::cmp::Ordering;
use std::hash::{Hash, Hasher};
use std::ops::Index as Indexed;

impl<K, V> Default for Map<K, V> {
    fn default() -> Self {
        Self::new()
    }
}

impl<K: Clone, V: Clone> Clone for Map<K, V> {
    fn clone(&self) -> Self {
        if let Index::Pairs(..) = self.index {
            return self.clone_pairs();
        }
        let mut entries = Vec::with_capacity(self.len());
        let keys = self.index.picked(|word| {
            let entry = self.slots.get(word);
            entries.extend(entry.map(|(key, value)| (key.clone(), value.clone())));
            entry.is_some()
        });
        Map { index: granted(keys.load()), slots: Slots::from_iter(entries) }
    }
}

impl<K: Clone, V: Clone> Map<K, V> {
    fn clone_pairs(&self) -> Self {
        let (mut entries, mut places) = (Loader::default(), Walk::all(&self.index));
        while let Some(place) = places.next::<K, V>(&self.index, |_| ()) {
            if let (Place::Pair(pair), Some((key, value))) = (place, self.at(place)) {
                // SAFETY: the index gave the place, and does not change.
                let number = unsafe { pair.number() };
                entries.push_pair(number, word_of(pair.layout, key.clone(), value.clone()), pair.layout);
            }
        }
        Map { index: granted(entries.load()), slots: Slots::new() }
    }
}

impl<K: PartialEq, V: PartialEq> PartialEq for Map<K, V> {
    fn eq(&self, other: &Self) -> bool {
        self.len() == other.len() && self.iter().eq(other)
    }
}

impl<K: Eq, V: Eq> Eq for Map<K, V> {}

impl<K: PartialOrd, V: PartialOrd> PartialOrd for Map<K, V> {
    fn partial_cmp(&self, other: &Self) -> Option<Ordering> {
        self.iter().partial_cmp(other)
    }
}

impl<K: Ord, V: Ord> Ord for Map<K, V> {
    fn cmp(&self, other: &Self) -> Ordering {
        self.iter().cmp(other)
    }
}

impl<K: Hash, V: Hash> Hash for Map<K, V> {
    fn hash<H: Hasher>(&self, state: &mut H) {
        self.len().hash(state);
        self.iter().for_each(|entry| entry.hash(state));
    }
}

impl<K: Borrow<Q>, V, Q: MapKey + ?Sized> Indexed<&Q> for Map<K, V>
where
    K: MapKey,
{
    type Output = V;

    /// The value of a key. Panics where there is none.
    fn index(&self, key: &Q) -> &V {
        self.get(key).expect("no entry found for key")
    }
}

impl<K: MapKey, V> Extend<(K, V)> for Map<K, V> {
    fn extend<I: IntoIterator<Item = (K, V)>>(&mut self, entries: I) {
        for (key, value) in entries {
            self.insert(key, value);
        }
    }
}

impl<'a, K: MapKey + Copy, V: Copy> Extend<(&'a K, &'a V)> for Map<K, V> {
    fn extend<I: IntoIterator<Item = (&'a K, &'a V)>>(&mut self, entries: I) {
        self.extend(entries.into_iter().map(|(key, value)| (*key, *value)));
    }
}

impl<K: MapKey, V> FromIterator<(K, V)> for Map<K, V> {
    fn from_iter<I: IntoIterator<Item = (K, V)>>(entries: I) -> Self {
        let mut entries: Vec<_> = entries.into_iter().collect();
        if !entries.is_sorted_by(|(one, _), (other, _)| one < other) {
            // The last of several entries with one key comes first, and stays.
            entries.reverse();
            entries.sort_by(|(one, _), (other, _)| one.cmp(other));
            entries.dedup_by(|(other, _), (one, _)| one == other);
        }
        granted(Self::from_ascending(entries))
    }
}

impl<K: MapKey, V, const N: usize> From<[(K, V); N]> for Map<K, V> {
    fn from(entries: [(K, V); N]) -> Self {
        entries.into_iter().collect()
    }
}

impl<'a, K, V> IntoIterator for &'a Map<K, V> {
    type Item = (&'a K, &'a V);
    type IntoIter = Iter<'a, K, V>;

    fn into_iter(self) -> Iter<'a, K, V> {
        self.iter()
    }
}

impl<'a, K, V> IntoIterator for &'a mut Map<K, V> {
    type Item = (&'a K, &'a mut V);
    type IntoIter = IterMut<'a, K, V>;

    fn into_iter(self) -> IterMut<'a, K, V> {
        self.iter_mut()
    }
}

impl<K, V> IntoIterator for Map<K, V> {
    type Item = (K, V);
    type IntoIter = IntoIter<K, V>;

    fn into_iter(self) -> IntoIter<K, V> {
        IntoIter::new(self)
    }
}
