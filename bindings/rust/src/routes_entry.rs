//! The place of a network in a route table, with its route or without one.
use crate::chain::address;
use crate::network::Network;
use crate::routes::RouteTable;
use std::{fmt, mem};

/// The place of a network in a [`RouteTable`].
#[derive(Debug)]
pub enum Entry<'a, V> {
    /// There is no route to it.
    Vacant(VacantEntry<'a, V>),
    /// There is one.
    Occupied(OccupiedEntry<'a, V>),
}

/// A network without a route in a [`RouteTable`].
pub struct VacantEntry<'a, V> {
    pub(crate) table: &'a mut RouteTable<V>,
    pub(crate) network: Network,
}

/// A route of a [`RouteTable`].
pub struct OccupiedEntry<'a, V> {
    pub(crate) table: &'a mut RouteTable<V>,
    pub(crate) network: Network,
    pub(crate) word: u64,
}

impl<'a, V> Entry<'a, V> {
    /// The network.
    pub fn key(&self) -> &Network {
        match self {
            Entry::Vacant(entry) => &entry.network,
            Entry::Occupied(entry) => &entry.network,
        }
    }

    /// The value, which is this one where there is none yet.
    pub fn or_insert(self, value: V) -> &'a mut V {
        self.or_insert_with(|| value)
    }

    /// The value, which is made where there is none yet.
    pub fn or_insert_with(self, make: impl FnOnce() -> V) -> &'a mut V {
        self.or_insert_with_key(|_| make())
    }

    /// The value, which is made of the network where there is none yet.
    pub fn or_insert_with_key(self, make: impl FnOnce(&Network) -> V) -> &'a mut V {
        match self {
            Entry::Vacant(entry) => {
                let value = make(&entry.network);
                entry.insert(value)
            }
            Entry::Occupied(entry) => entry.into_mut(),
        }
    }

    /// The value, which is the default one where there is none yet.
    pub fn or_default(self) -> &'a mut V
    where
        V: Default,
    {
        self.or_insert_with(V::default)
    }

    /// Changes the value where there is one.
    pub fn and_modify(mut self, change: impl FnOnce(&mut V)) -> Self {
        if let Entry::Occupied(entry) = &mut self {
            change(entry.get_mut());
        }
        self
    }
}

impl<'a, V> VacantEntry<'a, V> {
    /// The network.
    pub fn key(&self) -> &Network {
        &self.network
    }

    /// The network, by value.
    pub fn into_key(self) -> Network {
        self.network
    }

    /// Adds the route.
    pub fn insert(self, value: V) -> &'a mut V {
        let word = self.table.add(self.network, value);
        // SAFETY: the table has the new word, and is borrowed as long.
        unsafe { &mut *address(word) }
    }
}

impl<'a, V> OccupiedEntry<'a, V> {
    /// The network.
    pub fn key(&self) -> &Network {
        &self.network
    }

    /// The value.
    pub fn get(&self) -> &V {
        // SAFETY: the table has the word, and is borrowed as long.
        unsafe { &*address(self.word) }
    }

    /// The value, to be changed.
    pub fn get_mut(&mut self) -> &mut V {
        // SAFETY: the table has the word, and is borrowed as long.
        unsafe { &mut *address(self.word) }
    }

    /// The value, to be changed for as long as the table is borrowed.
    pub fn into_mut(self) -> &'a mut V {
        // SAFETY: the table has the word, and is borrowed as long.
        unsafe { &mut *address(self.word) }
    }

    /// Sets the value, and returns the one before.
    pub fn insert(&mut self, value: V) -> V {
        mem::replace(self.get_mut(), value)
    }

    /// Removes the route, and returns its value.
    pub fn remove(self) -> V {
        self.remove_entry().1
    }

    /// Removes the route, and returns its network and value.
    pub fn remove_entry(self) -> (Network, V) {
        (self.network, self.table.remove(self.network).expect("the table has the route"))
    }
}

impl<V> fmt::Debug for VacantEntry<'_, V> {
    fn fmt(&self, out: &mut fmt::Formatter<'_>) -> fmt::Result {
        out.debug_tuple("VacantEntry").field(&self.network).finish()
    }
}

impl<V: fmt::Debug> fmt::Debug for OccupiedEntry<'_, V> {
    fn fmt(&self, out: &mut fmt::Formatter<'_>) -> fmt::Result {
        out.debug_struct("OccupiedEntry").field("key", &self.network).field("value", self.get()).finish()
    }
}
