//! An ordered set and its iterators, by the names of `std::collections::btree_set`.
use crate::map::{self, Map};
use crate::map_iter::next_picked;
use crate::map_key::{MapKey, TextKey};
use crate::range::{gives, gives_all, least_and_greatest};
use crate::refusal::{granted, Refusal};
use crate::walk::Walk;
use std::borrow::Borrow;
use std::fmt;
use std::iter::FusedIterator;
use std::ops::RangeBounds;

pub use crate::set_algebra::{Difference, Intersection, SymmetricDifference, Union};

/// An ordered set of keys, with the names of `BTreeSet`: a [`Map`] without values.
///
/// ```
/// use verified_art::Set;
///
/// let metals = Set::from(["tin", "gold", "titanium"]);
/// assert!(metals.contains("gold") && !metals.contains("iron"));
/// assert_eq!(metals.prefix("ti").count(), 2);
/// assert_eq!(metals.range("h"..).next(), Some(&"tin"));
/// assert_eq!(&metals - &Set::from(["tin"]), Set::from(["gold", "titanium"]));
/// ```
#[derive(Clone, PartialEq, Eq, PartialOrd, Ord, Hash)]
pub struct Set<K> {
    pub(crate) map: Map<K, ()>,
}

impl<K> Set<K> {
    /// An empty set, which takes no memory.
    pub const fn new() -> Self {
        Set { map: Map::new() }
    }

    /// The number of keys. Takes constant time.
    pub fn len(&self) -> usize {
        self.map.len()
    }

    /// Whether there is no key.
    pub fn is_empty(&self) -> bool {
        self.map.is_empty()
    }

    /// Removes all keys, as [`Map::clear`] does.
    pub fn clear(&mut self) {
        self.map.clear()
    }

    /// The least key.
    pub fn first(&self) -> Option<&K> {
        self.map.first_key_value().map(|(key, ())| key)
    }

    /// The greatest key.
    pub fn last(&self) -> Option<&K> {
        self.map.last_key_value().map(|(key, ())| key)
    }

    /// Removes the least key.
    pub fn pop_first(&mut self) -> Option<K> {
        self.map.pop_first().map(|(key, ())| key)
    }

    /// Removes the greatest key.
    pub fn pop_last(&mut self) -> Option<K> {
        self.map.pop_last().map(|(key, ())| key)
    }

    /// All keys, in ascending order.
    pub fn iter(&self) -> Iter<'_, K> {
        Iter(self.map.keys())
    }
}

impl<K: MapKey> Set<K> {
    /// A set of keys that ascend, as [`Map::from_ascending`] makes it.
    pub fn from_ascending(keys: impl IntoIterator<Item = K>) -> Result<Self, Refusal> {
        Ok(Set { map: Map::from_ascending(keys.into_iter().map(|key| (key, ())))? })
    }

    /// Whether there is this key.
    pub fn contains<Q: MapKey + ?Sized>(&self, key: &Q) -> bool
    where
        K: Borrow<Q>,
    {
        self.map.contains_key(key)
    }

    /// This key, as the set has it.
    pub fn get<Q: MapKey + ?Sized>(&self, key: &Q) -> Option<&K>
    where
        K: Borrow<Q>,
    {
        self.map.get_key_value(key).map(|(key, ())| key)
    }

    /// Adds a key, and says whether it is new. Where it is not, the set keeps the one that it has.
    pub fn insert(&mut self, key: K) -> bool {
        self.map.insert(key, ()).is_none()
    }

    /// The same, where memory is found and the key is not too long. Else it comes back.
    pub fn try_put(&mut self, key: K) -> Result<bool, (K, Refusal)> {
        match self.map.try_put(key, ()) {
            Ok(before) => Ok(before.is_none()),
            Err((key, (), refusal)) => Err((key, refusal)),
        }
    }

    /// Adds a key, in place of the one that is equal, which is returned.
    pub fn replace(&mut self, key: K) -> Option<K> {
        granted(self.map.replace(key, ()).map_err(|(_, _, refusal)| refusal)).1.map(|(key, ())| key)
    }

    /// Removes a key, and says whether it was there.
    pub fn remove<Q: MapKey + ?Sized>(&mut self, key: &Q) -> bool
    where
        K: Borrow<Q>,
    {
        self.map.remove(key).is_some()
    }

    /// Removes a key, and returns it as the set had it.
    pub fn take<Q: MapKey + ?Sized>(&mut self, key: &Q) -> Option<K>
    where
        K: Borrow<Q>,
    {
        self.map.remove_entry(key).map(|(key, ())| key)
    }

    /// Moves all keys of another set into this one, as [`Map::append`] does.
    pub fn append(&mut self, other: &mut Self) {
        self.map.append(&mut other.map)
    }

    /// Moves the keys from one on into a set of their own, as [`Map::split_off`] does.
    pub fn split_off<Q: MapKey + ?Sized>(&mut self, key: &Q) -> Self
    where
        K: Borrow<Q>,
    {
        Set { map: self.map.split_off(key) }
    }

    /// Removes the keys that a closure does not keep. Where it panics, the keys from there on stay.
    pub fn retain(&mut self, mut keeps: impl FnMut(&K) -> bool) {
        self.map.retain(|key, ()| keeps(key))
    }

    /// The keys of a range that a closure picks: each is removed as it is given. Those that are not asked for stay.
    pub fn extract_if<F: FnMut(&K) -> bool>(&mut self, range: impl RangeBounds<K>, picks: F) -> ExtractIf<'_, K, F> {
        ExtractIf { walk: Walk::range(&self.map.index, &range), set: self, picks }
    }

    /// The keys of a range, from either end: none where the start is beyond the end.
    pub fn range<Q: MapKey + ?Sized, R: RangeBounds<Q>>(&self, range: R) -> Range<'_, K>
    where
        K: Borrow<Q>,
    {
        Range(self.map.range(range))
    }
}

impl<K: TextKey> Set<K> {
    /// The keys that begin with a prefix.
    pub fn prefix(&self, prefix: impl AsRef<[u8]>) -> Range<'_, K> {
        Range(self.map.prefix(prefix))
    }

    /// How many keys begin with a prefix. Takes time linear in their number.
    pub fn count_prefix(&self, prefix: impl AsRef<[u8]>) -> usize {
        self.map.count_prefix(prefix)
    }
}

/// The keys of a [`Set`], from either end.
pub struct Iter<'a, K>(map::Keys<'a, K, ()>);
gives_all!(['a, K] Iter<'a, K> => &'a K, |key| key, { least_and_greatest!(&'a K); });

/// The keys of a [`Set`] in a range, from either end.
pub struct Range<'a, K>(map::Range<'a, K, ()>);
gives!(['a, K] Range<'a, K> => &'a K, |(key, ())| key, { least_and_greatest!(&'a K); });

/// The keys of a [`Set`] by value, from either end. Those that are not asked for are dropped.
pub struct IntoIter<K>(map::IntoKeys<K, ()>);
gives_all!([K] IntoIter<K> => K, |key| key);

/// The keys of a [`Set`] that a closure picks, in a range: each is removed as it is given, and the others stay.
pub struct ExtractIf<'a, K, F> {
    set: &'a mut Set<K>,
    walk: Walk,
    picks: F,
}

impl<K: MapKey, F: FnMut(&K) -> bool> Iterator for ExtractIf<'_, K, F> {
    type Item = K;

    fn next(&mut self) -> Option<K> {
        next_picked(&mut self.set.map, &mut self.walk, |key, ()| (self.picks)(key)).map(|(key, ())| key)
    }

    fn size_hint(&self) -> (usize, Option<usize>) {
        (0, Some(self.set.len()))
    }
}

impl<K: MapKey, F: FnMut(&K) -> bool> FusedIterator for ExtractIf<'_, K, F> {}

// By hand, since the derived ones ask the same of keys.
impl<K> Clone for Iter<'_, K> {
    fn clone(&self) -> Self {
        Iter(self.0.clone())
    }
}

impl<K> Clone for Range<'_, K> {
    fn clone(&self) -> Self {
        Range(self.0.clone())
    }
}

impl<K> Default for Set<K> {
    fn default() -> Self {
        Self::new()
    }
}

impl<K: MapKey> FromIterator<K> for Set<K> {
    fn from_iter<I: IntoIterator<Item = K>>(keys: I) -> Self {
        Set { map: keys.into_iter().map(|key| (key, ())).collect() }
    }
}

impl<K: MapKey, const N: usize> From<[K; N]> for Set<K> {
    fn from(keys: [K; N]) -> Self {
        keys.into_iter().collect()
    }
}

impl<K: MapKey> Extend<K> for Set<K> {
    fn extend<I: IntoIterator<Item = K>>(&mut self, keys: I) {
        for key in keys {
            self.insert(key);
        }
    }
}

impl<'a, K: MapKey + Copy> Extend<&'a K> for Set<K> {
    fn extend<I: IntoIterator<Item = &'a K>>(&mut self, keys: I) {
        self.extend(keys.into_iter().copied());
    }
}

impl<'a, K> IntoIterator for &'a Set<K> {
    type Item = &'a K;
    type IntoIter = Iter<'a, K>;

    fn into_iter(self) -> Iter<'a, K> {
        self.iter()
    }
}

impl<K> IntoIterator for Set<K> {
    type Item = K;
    type IntoIter = IntoIter<K>;

    fn into_iter(self) -> IntoIter<K> {
        IntoIter(self.map.into_keys())
    }
}

impl<K: fmt::Debug> fmt::Debug for Set<K> {
    fn fmt(&self, out: &mut fmt::Formatter<'_>) -> fmt::Result {
        out.debug_set().entries(self).finish()
    }
}

impl<K: fmt::Debug> fmt::Debug for Iter<'_, K> {
    fn fmt(&self, out: &mut fmt::Formatter<'_>) -> fmt::Result {
        self.0.fmt(out)
    }
}

impl<K: fmt::Debug> fmt::Debug for Range<'_, K> {
    fn fmt(&self, out: &mut fmt::Formatter<'_>) -> fmt::Result {
        out.debug_list().entries(self.clone()).finish()
    }
}

impl<K: fmt::Debug> fmt::Debug for IntoIter<K> {
    fn fmt(&self, out: &mut fmt::Formatter<'_>) -> fmt::Result {
        self.0.fmt(out)
    }
}

impl<K, F> fmt::Debug for ExtractIf<'_, K, F> {
    fn fmt(&self, out: &mut fmt::Formatter<'_>) -> fmt::Result {
        out.debug_struct("ExtractIf").finish_non_exhaustive()
    }
}
