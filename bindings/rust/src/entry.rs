//! The place of a key in a [`WordMap`], with its entry or without one.
use crate::key::Key;
use crate::refusal::{granted, Refusal};
use crate::words::{Shown, WordMap};
use std::marker::PhantomData;
use std::ops::{Deref, DerefMut};
use std::ptr::NonNull;
use std::{fmt, mem};

/// The place of a key in a [`WordMap`], whose values are copied in and out.
#[derive(Debug)]
pub enum WordEntry<'a, K: Key> {
    /// There is no entry.
    Vacant(VacantWord<'a, K>),
    /// There is one.
    Occupied(OccupiedWord<'a, K>),
}

/// A key without an entry in a [`WordMap`].
pub struct VacantWord<'a, K: Key> {
    pub(crate) map: &'a mut WordMap<K>,
    pub(crate) key: K,
}

/// An entry of a [`WordMap`].
pub struct OccupiedWord<'a, K: Key> {
    pub(crate) map: &'a mut WordMap<K>,
    pub(crate) key: K,
    pub(crate) value: u64,
}

impl<K: Key> WordEntry<'_, K> {
    /// The key.
    pub fn key(&self) -> &K {
        match self {
            WordEntry::Vacant(entry) => &entry.key,
            WordEntry::Occupied(entry) => &entry.key,
        }
    }

    /// The value, which is this one where there is none yet.
    pub fn or_insert(self, value: u64) -> u64 {
        self.or_insert_with(|| value)
    }

    /// The value, which is made where there is none yet.
    pub fn or_insert_with(self, make: impl FnOnce() -> u64) -> u64 {
        match self {
            WordEntry::Vacant(entry) => entry.insert(make()),
            WordEntry::Occupied(entry) => entry.value,
        }
    }

    /// Changes the value where there is one.
    pub fn and_modify(mut self, change: impl FnOnce(&mut u64)) -> Self {
        if let WordEntry::Occupied(entry) = &mut self {
            let mut value = entry.value;
            change(&mut value);
            entry.insert(value);
        }
        self
    }
}

impl<K: Key> VacantWord<'_, K> {
    /// The key.
    pub fn key(&self) -> &K {
        &self.key
    }

    /// The key, by value.
    pub fn into_key(self) -> K {
        self.key
    }

    /// Sets the value of the key, and returns it.
    pub fn insert(self, value: u64) -> u64 {
        granted(self.map.put(self.key.sought(), value));
        value
    }
}

impl<K: Key> OccupiedWord<'_, K> {
    /// The key.
    pub fn key(&self) -> &K {
        &self.key
    }

    /// The value.
    pub fn get(&self) -> u64 {
        self.value
    }

    /// Sets the value, and returns the one before.
    pub fn insert(&mut self, value: u64) -> u64 {
        granted(self.map.put(self.key.sought(), value));
        mem::replace(&mut self.value, value)
    }

    /// Removes the entry, and returns its value.
    pub fn remove(self) -> u64 {
        self.remove_entry().1
    }

    /// Removes the entry, and returns its key and value.
    pub fn remove_entry(self) -> (K, u64) {
        self.map.take(self.key.sought());
        (self.key, self.value)
    }
}

/// A [`WordMap`] that is borrowed mutably, by an iterator and all guards that it gave. Neither `Send` nor `Sync`: two threads
/// would write the map at once.
pub(crate) struct Lent<'a, K: Key> {
    // No reference: each of several writes by this one.
    map: NonNull<WordMap<K>>,
    borrowed: PhantomData<&'a mut WordMap<K>>,
}

impl<'a, K: Key> Lent<'a, K> {
    pub(crate) fn new(map: &'a mut WordMap<K>) -> Self {
        Lent { map: NonNull::from(map), borrowed: PhantomData }
    }

    /// Looks at the map, by a closure that calls no code of users, which could drop a guard.
    pub(crate) fn look<T>(self, look: impl FnOnce(&WordMap<K>) -> T) -> T {
        // SAFETY: the map is borrowed as long, by copies of this alone and in one thread, and none of them is used while this
        // reference lives.
        look(unsafe { self.map.as_ref() })
    }

    fn put(mut self, key: &K::Sought, value: u64) -> Result<Option<u64>, Refusal> {
        // SAFETY: as for `look`.
        unsafe { self.map.as_mut() }.put(key, value)
    }
}

impl<K: Key> Clone for Lent<'_, K> {
    fn clone(&self) -> Self {
        *self
    }
}

impl<K: Key> Copy for Lent<'_, K> {}

/// A value of a [`WordMap`], to be changed: where it was, it is written to the map when this is dropped, which takes no memory.
/// Where this is given to [`mem::forget`], the change is lost.
///
/// Those that an iterator gave may be alive at once, and be dropped in any order. As all of them write to one map, neither
/// they nor their iterators go to another thread:
///
/// ```compile_fail,E0277
/// fn sent(_: impl Send) {}
/// sent(verified_art::NumberMap::new().values_mut().next());
/// ```
pub struct ValueMut<'a, K: Key> {
    map: Lent<'a, K>,
    key: K,
    before: u64,
    value: u64,
}

impl<'a, K: Key> ValueMut<'a, K> {
    pub(crate) fn new(map: Lent<'a, K>, key: K, value: u64) -> Self {
        ValueMut { map, key, before: value, value }
    }

    pub(crate) fn with_key(self) -> (K, Self) {
        (self.key.clone(), self)
    }
}

impl<K: Key> Deref for ValueMut<'_, K> {
    type Target = u64;

    fn deref(&self) -> &u64 {
        &self.value
    }
}

impl<K: Key> DerefMut for ValueMut<'_, K> {
    fn deref_mut(&mut self) -> &mut u64 {
        &mut self.value
    }
}

impl<K: Key> Drop for ValueMut<'_, K> {
    fn drop(&mut self) {
        if self.value != self.before {
            // The key is there, so this is not refused.
            granted(self.map.put(self.key.sought(), self.value));
        }
    }
}

impl<K: Key> fmt::Debug for ValueMut<'_, K> {
    fn fmt(&self, out: &mut fmt::Formatter<'_>) -> fmt::Result {
        self.value.fmt(out)
    }
}

impl<K: Key> fmt::Debug for VacantWord<'_, K> {
    fn fmt(&self, out: &mut fmt::Formatter<'_>) -> fmt::Result {
        out.debug_tuple("VacantWord").field(&Shown(self.key.clone())).finish()
    }
}

impl<K: Key> fmt::Debug for OccupiedWord<'_, K> {
    fn fmt(&self, out: &mut fmt::Formatter<'_>) -> fmt::Result {
        out.debug_struct("OccupiedWord").field("key", &Shown(self.key.clone())).field("value", &self.value).finish()
    }
}
