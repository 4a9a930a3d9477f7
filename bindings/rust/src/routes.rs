use crate::chain::{address, Chain};
use crate::network::Network;
use crate::raw::{self, RawMap};
use crate::refusal::{found, granted, is_some, Refusal};
use crate::routes_entry::{Entry, OccupiedEntry, VacantEntry};
use crate::routes_iter::{Cover, Cursor, Differences, DirectChildren, Free, IntoIter, Iter, IterMut};
use std::collections::HashMap;
use std::hash::Hash;
use std::{fmt, iter, mem};

/// A route table: values by IPv4 and IPv6 networks, of which the longest that contains an address is found. The names
/// are those of `PrefixMap` in the crate `prefix-trie`.
///
/// Calls take a [`Network`], as `parse()` makes it of a text, and `into()` of an address. IPv4 and IPv6 never match each
/// other. Each value is in a box. Where memory is refused, nothing changes: [`try_put`](Self::try_put) and the like return the
/// [`Refusal`], the others panic; `extend`, [`retain`](Self::retain) and [`remove_covered`](Self::remove_covered) keep what they
/// did until then. Look-ups and iterators are never refused, and `clear` and drops take no memory.
///
/// ```
/// use std::net::IpAddr;
/// use verified_art::RouteTable;
///
/// let mut routes = RouteTable::new();
/// routes.insert("10.0.0.0/8".parse().unwrap(), "office");
/// routes.insert("10.1.0.0/16".parse().unwrap(), "lab");
/// routes.insert("2001:db8::/32".parse().unwrap(), "guests");
/// let (network, name) = routes.get_lpm("10.1.2.3".parse().unwrap()).unwrap();
/// assert_eq!((network.to_string(), *name), ("10.1.0.0/16".to_string(), "lab"));
/// let address: IpAddr = "10.2.2.3".parse().unwrap();
/// assert_eq!(routes.get_lpm(address.into()).unwrap().1, &"office");
/// assert_eq!(routes.get_lpm([11, 2, 2, 3].into()), None);
/// assert_eq!(routes.children("10.0.0.0/8".parse().unwrap()).count(), 2);
/// assert_eq!(routes.remove("10.1.0.0/16".parse().unwrap()), Some("lab"));
/// ```
pub struct RouteTable<V> {
    // INVARIANT: each word is that of one value, and each value has its word here. Moved with this struct: what moved is used no
    // more. A copy is for one call that only looks.
    pub(crate) raw: RawMap,
    pub(crate) values: Chain<V>,
}

// SAFETY: as for `WordMap`.
unsafe impl<V: Send> Send for RouteTable<V> {}
unsafe impl<V: Sync> Sync for RouteTable<V> {}

impl<V> RouteTable<V> {
    /// An empty table.
    pub fn new() -> Self {
        granted(Self::try_new())
    }

    /// An empty table, where memory for it is found.
    pub fn try_new() -> Result<Self, Refusal> {
        let mut raw = RawMap::EMPTY;
        // SAFETY: the handle is empty. It holds a table afterwards, unless this is refused.
        found(unsafe { raw::art_routes_new(&mut raw) })?;
        Ok(RouteTable { raw, values: Chain::default() })
    }

    // A handle for one call that only looks. SAFETY of each use, and of those of the handle itself: it holds a table until
    // `drop`. A call that changes the table borrows it mutably, and no call of the library calls back. A network is one of the
    // library, whose bytes are there, and so are the places that are written.
    pub(crate) fn own(&self) -> RawMap {
        self.raw.clone()
    }

    /// The number of routes. Takes constant time.
    pub fn len(&self) -> usize {
        unsafe { raw::art_routes_len(&mut self.own()) }
    }

    /// Whether there is no route.
    pub fn is_empty(&self) -> bool {
        self.len() == 0
    }

    /// Removes all routes, and drops their values. Keeps the memory of the table, and takes none.
    pub fn clear(&mut self) {
        // The table is whole before a value's own drop, which may panic.
        let values = mem::take(&mut self.values);
        unsafe { raw::art_routes_clear(&mut self.raw) }
        drop(values);
    }

    /// Reserves memory for more routes, but for their values.
    pub fn reserve(&mut self, additional: usize) {
        granted(found(unsafe { raw::art_routes_reserve(&mut self.raw, additional) }));
    }

    /// Moves the routes, but not their values, into memory that just holds them, in their order.
    pub fn compact(&mut self) {
        granted(found(unsafe { raw::art_routes_compact(&mut self.raw) }));
    }

    /// Adds a route. Where there is one to the same network, its value is replaced and returned.
    pub fn insert(&mut self, network: Network, value: V) -> Option<V> {
        granted(self.try_put(network, value).map_err(|(_, refusal)| refusal))
    }

    /// The same, where memory is found. Else the value comes back.
    pub fn try_put(&mut self, network: Network, value: V) -> Result<Option<V>, (V, Refusal)> {
        let ((octets, width), word, mut before) = (network.octets(), self.values.add(value), 0);
        let status = unsafe {
            raw::art_routes_insert(&mut self.raw, octets.as_ptr(), width, network.length(), word, &mut before)
        };
        match found(status) {
            // SAFETY: the table has the new word in its place.
            Ok(true) => Ok(Some(unsafe { self.values.take(before) })),
            Ok(false) => Ok(None),
            // SAFETY: the table has not changed.
            Err(refusal) => Err((unsafe { self.values.take(word) }, refusal)),
        }
    }

    // The word of the route to this very network.
    fn word(&self, network: Network) -> Option<u64> {
        let ((octets, width), mut word) = (network.octets(), 0);
        let status =
            unsafe { raw::art_routes_get(&mut self.own(), octets.as_ptr(), width, network.length(), &mut word) };
        is_some(status).then_some(word)
    }

    /// The value of the route to this very network.
    pub fn get(&self, network: Network) -> Option<&V> {
        // SAFETY: the table is borrowed as long.
        self.word(network).map(|word| unsafe { &*address(word) })
    }

    /// The same, to be changed.
    pub fn get_mut(&mut self, network: Network) -> Option<&mut V> {
        // SAFETY: the table is borrowed as long.
        self.word(network).map(|word| unsafe { &mut *address(word) })
    }

    /// Whether there is a route to this very network.
    pub fn contains_key(&self, network: Network) -> bool {
        self.word(network).is_some()
    }

    /// Removes the route to this very network, and returns its value.
    pub fn remove(&mut self, network: Network) -> Option<V> {
        granted(self.try_remove(network))
    }

    /// The same, where memory is found, which may be needed where there is such a route.
    pub fn try_remove(&mut self, network: Network) -> Result<Option<V>, Refusal> {
        let ((octets, width), mut word) = (network.octets(), 0);
        let status =
            unsafe { raw::art_routes_remove(&mut self.raw, octets.as_ptr(), width, network.length(), &mut word) };
        // SAFETY: the table does not have it any more.
        Ok(found(status)?.then(|| unsafe { self.values.take(word) }))
    }

    /// Removes the route to a network and those to its parts, and returns how many there were.
    pub fn remove_covered(&mut self, network: Network) -> usize {
        granted(self.try_remove_covered(network))
    }

    /// The same, where memory is found, which may be needed where there is such a route. Else the first of them may be
    /// gone, and the call may be made again.
    pub fn try_remove_covered(&mut self, network: Network) -> Result<usize, Refusal> {
        let mut cursor = Cursor::within(network);
        let words: Vec<u64> = iter::from_fn(|| cursor.next(self)).map(|(_, word)| word).collect();
        let ((octets, width), before, mut count) = (network.octets(), self.len(), 0);
        let status = unsafe {
            raw::art_routes_remove_covered(&mut self.raw, octets.as_ptr(), width, network.length(), &mut count)
        };
        // The table is whole before a value's own drop, which may panic.
        let mut gone = Chain::default();
        for word in &words[..before - self.len()] {
            // SAFETY: the table does not have it any more: of these routes the first are gone, and no others.
            unsafe { self.values.move_to(&mut gone, *word) }
        }
        drop(gone);
        found(status)?;
        Ok(count)
    }

    /// Keeps the routes for which the closure returns `true`, in order. It may change their values. Where memory is refused, or
    /// the closure panics, the routes before are kept or gone as it said, and the others stay.
    ///
    /// ```
    /// use verified_art::{Network, RouteTable};
    ///
    /// let routes = [("10.0.0.0/8", 1), ("10.1.0.0/16", 2), ("::/0", 3)];
    /// let mut routes: RouteTable<_> = routes.map(|(text, value)| (text.parse().unwrap(), value)).into();
    /// routes.retain(|network, value| {
    ///     *value *= 10;
    ///     network.length() < 16
    /// });
    /// assert!(routes.into_iter().map(|(_, value)| value).eq([10, 30]));
    /// ```
    pub fn retain(&mut self, mut keeps: impl FnMut(&Network, &mut V) -> bool) {
        let mut cursor = Cursor::all();
        while let Some((network, word)) = cursor.next(self) {
            // SAFETY: the table is borrowed mutably, and nobody has this value.
            if !keeps(&network, unsafe { &mut *address(word) }) {
                self.remove(network);
            }
        }
    }

    /// The place of a network, with its route or without one, as `entry` of std's maps.
    ///
    /// ```
    /// use verified_art::RouteTable;
    ///
    /// let mut hits = RouteTable::new();
    /// for text in ["10.0.0.0/8", "10.1.0.0/16", "10.0.0.0/8"] {
    ///     *hits.entry(text.parse().unwrap()).or_insert(0) += 1;
    /// }
    /// assert_eq!(hits.get("10.0.0.0/8".parse().unwrap()), Some(&2));
    /// ```
    pub fn entry(&mut self, network: Network) -> Entry<'_, V> {
        match self.word(network) {
            Some(word) => Entry::Occupied(OccupiedEntry { table: self, network, word }),
            None => Entry::Vacant(VacantEntry { table: self, network }),
        }
    }

    /// Adds a route to a network that has none, and returns the word of its value.
    pub(crate) fn add(&mut self, network: Network, value: V) -> u64 {
        let ((octets, width), word, mut before) = (network.octets(), self.values.add(value), 0);
        let status = unsafe {
            raw::art_routes_insert(&mut self.raw, octets.as_ptr(), width, network.length(), word, &mut before)
        };
        // SAFETY: where it is refused, the table does not have the word.
        granted(found(status).inspect_err(|_| drop(unsafe { self.values.take(word) })));
        word
    }

    // Writes the lengths and the words of the routes around a network, the longest first. Returns how many.
    pub(crate) fn around(&self, network: Network, lengths: &mut [u8], words: &mut [u64]) -> usize {
        let ((octets, width), mut count) = (network.octets(), 0);
        let status = unsafe {
            raw::art_routes_covering(
                &mut self.own(),
                octets.as_ptr(),
                width,
                network.length(),
                lengths.as_mut_ptr(),
                lengths.len(),
                words.as_mut_ptr(),
                words.len(),
                &mut count,
            )
        };
        debug_assert_eq!(status, raw::NONE);
        count
    }

    fn longest(&self, network: Network) -> Option<(Network, u64)> {
        let (mut length, mut word) = ([0], [0]);
        (self.around(network, &mut length, &mut word) == 1).then(|| (network.around(length[0]), word[0]))
    }

    /// The longest route that contains an address, or covers a network.
    pub fn get_lpm(&self, network: Network) -> Option<(Network, &V)> {
        // SAFETY: the table is borrowed as long.
        self.longest(network).map(|(network, word)| (network, unsafe { &*address(word) }))
    }

    /// The same, with a value that can be changed.
    pub fn get_lpm_mut(&mut self, network: Network) -> Option<(Network, &mut V)> {
        // SAFETY: the table is borrowed as long.
        self.longest(network).map(|(network, word)| (network, unsafe { &mut *address(word) }))
    }

    /// The network of the longest route that contains an address, or covers a network.
    pub fn get_lpm_prefix(&self, network: Network) -> Option<Network> {
        self.longest(network).map(|(network, _)| network)
    }

    /// The shortest route that contains an address, or covers a network.
    pub fn get_spm(&self, network: Network) -> Option<(Network, &V)> {
        self.cover(network).next()
    }

    /// The longest route to a network around this one, which is not this one itself.
    pub fn parent(&self, network: Network) -> Option<(Network, &V)> {
        let ((octets, width), mut length, mut word) = (network.octets(), 0, 0);
        let status = unsafe {
            raw::art_routes_parent(&mut self.own(), octets.as_ptr(), width, network.length(), &mut length, &mut word)
        };
        // SAFETY: the table is borrowed as long.
        is_some(status).then(|| (network.around(length), unsafe { &*address(word) }))
    }

    /// The routes that contain an address, or cover a network, from the shortest to the longest.
    pub fn cover(&self, network: Network) -> Cover<'_, V> {
        Cover::of(self, network)
    }

    /// The route to a network and those to its parts, in order.
    pub fn children(&self, network: Network) -> Iter<'_, V> {
        Iter::new(self, Cursor::within(network))
    }

    /// The routes to parts of a network with none between, in order: those of which it is the [`parent`](Self::parent), or
    /// would be if it had a route. Each takes one call, however many routes are inside it.
    pub fn direct_children(&self, network: Network) -> DirectChildren<'_, V> {
        DirectChildren::new(self, network)
    }

    /// The free networks of a length inside a network, in order: none of them is a network that has a route, or a part of one,
    /// or has one inside. None where the length is less than that of the network, or above the bits of its addresses. Those
    /// inside a route are passed at once.
    ///
    /// ```
    /// use verified_art::RouteTable;
    ///
    /// let mut taken = RouteTable::new();
    /// taken.insert("10.0.0.0/10".parse().unwrap(), "office");
    /// taken.insert("10.64.3.0/24".parse().unwrap(), "lab");
    /// let mut free = taken.free("10.0.0.0/8".parse().unwrap(), 16);
    /// assert_eq!(free.next(), Some("10.65.0.0/16".parse().unwrap()));
    /// assert_eq!(free.count(), 190);
    /// ```
    pub fn free(&self, network: Network, length: u8) -> Free<'_, V> {
        Free::new(self, network, length)
    }

    /// All routes, in order.
    pub fn iter(&self) -> Iter<'_, V> {
        Iter::new(self, Cursor::all())
    }

    /// The same, with values that can be changed.
    pub fn iter_mut(&mut self) -> IterMut<'_, V> {
        IterMut::new(self, Cursor::all())
    }

    /// All networks, in order.
    pub fn keys(&self) -> impl DoubleEndedIterator<Item = Network> + '_ {
        self.iter().map(|(network, _)| network)
    }

    /// All values, in the order of their networks.
    pub fn values(&self) -> impl DoubleEndedIterator<Item = &V> {
        self.iter().map(|(_, value)| value)
    }

    /// The same, to be changed.
    pub fn values_mut(&mut self) -> impl DoubleEndedIterator<Item = &mut V> {
        self.iter_mut().map(|(_, value)| value)
    }

    /// The values themselves, in the order of their networks.
    pub fn into_values(self) -> impl DoubleEndedIterator<Item = V> + ExactSizeIterator {
        self.into_iter().map(|(_, value)| value)
    }
}

impl<V: PartialEq> RouteTable<V> {
    /// The changes that make this table the new one, in the order of their networks.
    ///
    /// ```
    /// use verified_art::{Change, RouteTable};
    ///
    /// let [eight, nine, ten] = ["10.0.0.0/8", "10.0.0.0/9", "::/10"].map(|text| text.parse().unwrap());
    /// let old = RouteTable::from([(eight, "core1"), (nine, "core2"), (ten, "core3")]);
    /// let new = RouteTable::from([(eight, "core1"), (nine, "edge"), ("::/0".parse().unwrap(), "core3")]);
    /// let changes = [
    ///     Change::Replace(nine, &"edge"),
    ///     Change::Insert("::/0".parse().unwrap(), &"core3"),
    ///     Change::Remove(ten, &"core3"),
    /// ];
    /// assert!(old.difference(&new).eq(changes));
    /// ```
    pub fn difference<'a>(&'a self, new: &'a Self) -> Differences<'a, V> {
        Differences::new(self, new)
    }
}

impl<V: Clone + Eq + Hash> RouteTable<V> {
    /// Leaves fewer routes by which each address has the value that it had, and none where none contained it: none that has
    /// the value of the longest one around it, and no two with one value to the halves of a network.
    ///
    /// ```
    /// use verified_art::RouteTable;
    ///
    /// let routes = [("10.0.0.0/9", "a"), ("10.128.0.0/9", "a"), ("10.1.0.0/16", "a"), ("10.2.0.0/16", "b")];
    /// let mut routes: RouteTable<_> = routes.map(|(text, value)| (text.parse().unwrap(), value)).into();
    /// routes.aggregate();
    /// assert_eq!(format!("{routes:?}"), r#"{10.0.0.0/8: "a", 10.2.0.0/16: "b"}"#);
    /// ```
    pub fn aggregate(&mut self) {
        granted(self.try_aggregate());
    }

    /// The same, where memory is found for another table.
    pub fn try_aggregate(&mut self) -> Result<(), Refusal> {
        *self = self.aggregated()?;
        Ok(())
    }

    fn aggregated(&self) -> Result<Self, Refusal> {
        // The library compares numbers: each value has that of the first one that is equal. The words of this table are
        // these numbers, so nothing is asked for a value of it.
        let mut numbered = RouteTable::<()>::try_new()?;
        let (mut numbers, mut values) = (HashMap::new(), Vec::new());
        for (network, value) in self {
            let number = *numbers.entry(value).or_insert_with(|| {
                values.push(value);
                values.len() as u64 - 1
            });
            let ((octets, width), mut before) = (network.octets(), 0);
            found(unsafe {
                raw::art_routes_insert(&mut numbered.raw, octets.as_ptr(), width, network.length(), number, &mut before)
            })?;
        }
        found(unsafe { raw::art_routes_aggregate(&mut numbered.raw) })?;
        let (mut fewer, mut cursor) = (RouteTable::try_new()?, Cursor::all());
        while let Some((network, number)) = cursor.next(&numbered) {
            fewer.try_put(network, values[number as usize].clone()).map_err(|(_, refusal)| refusal)?;
        }
        Ok(fewer)
    }
}

impl<V> Drop for RouteTable<V> {
    fn drop(&mut self) {
        // SAFETY: there is no call after this one.
        unsafe { raw::art_routes_free(&mut self.raw) }
    }
}

impl<V> Default for RouteTable<V> {
    fn default() -> Self {
        Self::new()
    }
}

impl<V: Clone> Clone for RouteTable<V> {
    fn clone(&self) -> Self {
        self.iter().map(|(network, value)| (network, value.clone())).collect()
    }
}

impl<V: PartialEq> PartialEq for RouteTable<V> {
    fn eq(&self, other: &Self) -> bool {
        self.len() == other.len() && self.iter().eq(other.iter())
    }
}

impl<V: Eq> Eq for RouteTable<V> {}

impl<V: fmt::Debug> fmt::Debug for RouteTable<V> {
    fn fmt(&self, out: &mut fmt::Formatter<'_>) -> fmt::Result {
        struct Shown(Network);

        impl fmt::Debug for Shown {
            fn fmt(&self, out: &mut fmt::Formatter<'_>) -> fmt::Result {
                fmt::Display::fmt(&self.0, out)
            }
        }

        out.debug_map().entries(self.iter().map(|(network, value)| (Shown(network), value))).finish()
    }
}

impl<V> Extend<(Network, V)> for RouteTable<V> {
    fn extend<I: IntoIterator<Item = (Network, V)>>(&mut self, routes: I) {
        for (network, value) in routes {
            self.insert(network, value);
        }
    }
}

impl<V> FromIterator<(Network, V)> for RouteTable<V> {
    fn from_iter<I: IntoIterator<Item = (Network, V)>>(routes: I) -> Self {
        let mut table = Self::new();
        table.extend(routes);
        table
    }
}

impl<V, const N: usize> From<[(Network, V); N]> for RouteTable<V> {
    fn from(routes: [(Network, V); N]) -> Self {
        routes.into_iter().collect()
    }
}

impl<'a, V> IntoIterator for &'a RouteTable<V> {
    type Item = (Network, &'a V);
    type IntoIter = Iter<'a, V>;

    fn into_iter(self) -> Iter<'a, V> {
        self.iter()
    }
}

impl<'a, V> IntoIterator for &'a mut RouteTable<V> {
    type Item = (Network, &'a mut V);
    type IntoIter = IterMut<'a, V>;

    fn into_iter(self) -> IterMut<'a, V> {
        self.iter_mut()
    }
}

impl<V> IntoIterator for RouteTable<V> {
    type Item = (Network, V);
    type IntoIter = IntoIter<V>;

    fn into_iter(self) -> IntoIter<V> {
        IntoIter::new(self)
    }
}
