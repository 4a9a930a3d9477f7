//! The place of a key in a [`Map`], with its entry or without one.
use crate::index::Place;
use crate::map::Map;
use crate::map_key::MapKey;
use crate::refusal::granted;
use std::mem;

/// The place of a key in a [`Map`].
pub enum Entry<'a, K, V> {
    /// There is no entry.
    Vacant(VacantEntry<'a, K, V>),
    /// There is one.
    Occupied(OccupiedEntry<'a, K, V>),
}

/// A key without an entry in a [`Map`].
pub struct VacantEntry<'a, K, V> {
    pub(crate) map: &'a mut Map<K, V>,
    pub(crate) key: K,
}

/// An entry of a [`Map`].
pub struct OccupiedEntry<'a, K, V> {
    pub(crate) map: &'a mut Map<K, V>,
    // INVARIANT: the map has an entry at this place.
    pub(crate) place: Place,
}

impl<'a, K: MapKey, V> Entry<'a, K, V> {
    /// The key.
    pub fn key(&self) -> &K {
        match self {
            Entry::Vacant(entry) => entry.key(),
            Entry::Occupied(entry) => entry.key(),
        }
    }

    /// The value, which is this one where there is none yet.
    pub fn or_insert(self, value: V) -> &'a mut V {
        self.or_insert_with(|| value)
    }

    /// The value, which is made where there is none yet.
    pub fn or_insert_with(self, make: impl FnOnce() -> V) -> &'a mut V {
        self.or_insert_with_key(|_| make())
    }

    /// The value, which is made of the key where there is none yet.
    pub fn or_insert_with_key(self, make: impl FnOnce(&K) -> V) -> &'a mut V {
        match self {
            Entry::Vacant(entry) => {
                let value = make(&entry.key);
                entry.insert(value)
            }
            Entry::Occupied(entry) => entry.into_mut(),
        }
    }

    /// The value, which is the default one where there is none yet.
    pub fn or_default(self) -> &'a mut V
    where
        V: Default,
    {
        self.or_insert_with(V::default)
    }

    /// Changes the value where there is one.
    pub fn and_modify(mut self, change: impl FnOnce(&mut V)) -> Self {
        if let Entry::Occupied(entry) = &mut self {
            change(entry.get_mut());
        }
        self
    }

    /// Sets the value, and returns its entry.
    pub fn insert_entry(self, value: V) -> OccupiedEntry<'a, K, V> {
        match self {
            Entry::Vacant(entry) => entry.insert_entry(value),
            Entry::Occupied(mut entry) => {
                entry.insert(value);
                entry
            }
        }
    }
}

impl<'a, K, V> VacantEntry<'a, K, V> {
    /// The key.
    pub fn key(&self) -> &K {
        &self.key
    }

    /// The key, by value.
    pub fn into_key(self) -> K {
        self.key
    }
}

impl<'a, K: MapKey, V> VacantEntry<'a, K, V> {
    /// Sets the value of the key.
    pub fn insert(self, value: V) -> &'a mut V {
        self.insert_entry(value).into_mut()
    }

    /// Sets the value of the key, and returns its entry.
    pub fn insert_entry(self, value: V) -> OccupiedEntry<'a, K, V> {
        let VacantEntry { map, key } = self;
        let (spot, _) = granted(map.put(key, value).map_err(|(_, _, refusal)| refusal));
        let place = map.place_of(spot).expect(IS_THERE);
        OccupiedEntry { map, place }
    }
}

impl<'a, K, V> OccupiedEntry<'a, K, V> {
    /// The key, as the map has it.
    pub fn key(&self) -> &K {
        self.map.at(self.place).expect(IS_THERE).0
    }

    /// The value.
    pub fn get(&self) -> &V {
        self.map.at(self.place).expect(IS_THERE).1
    }

    /// The value, to be changed.
    pub fn get_mut(&mut self) -> &mut V {
        self.map.at_mut(self.place).expect(IS_THERE).1
    }

    /// The value, to be changed for as long as the map is borrowed.
    pub fn into_mut(self) -> &'a mut V {
        self.map.at_mut(self.place).expect(IS_THERE).1
    }

    /// Sets the value, and returns the one before.
    pub fn insert(&mut self, value: V) -> V {
        mem::replace(self.get_mut(), value)
    }
}

impl<K: MapKey, V> OccupiedEntry<'_, K, V> {
    /// Removes the entry, and returns its value.
    pub fn remove(self) -> V {
        self.remove_entry().1
    }

    /// Removes the entry, and returns its key and value.
    pub fn remove_entry(self) -> (K, V) {
        self.map.remove_at(self.place).expect(IS_THERE)
    }
}

const IS_THERE: &str = "the map has the entry";
