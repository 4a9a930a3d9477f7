//! The iterators of route tables.
use crate::chain::address;
use crate::network::Network;
use crate::raw;
use crate::refusal::is_some;
use crate::routes::RouteTable;
use std::fmt;
use std::iter::FusedIterator;
use std::marker::PhantomData;
use std::net::{Ipv4Addr, Ipv6Addr};

/// The most routes that cover one network: those of each length of IPv6.
const MOST_AROUND: usize = 129;

/// How many addresses one call of the library finds.
const MANY: usize = 32;

// A network that the library writes, and whether the call found one.
struct Found {
    octets: [u8; 16],
    width: usize,
    length: u8,
}

impl Found {
    fn nothing() -> Self {
        Found { octets: [0; 16], width: 0, length: 0 }
    }

    fn network(&self) -> Network {
        Network::of_octets(&self.octets, self.width, self.length)
    }
}

/// What is left of the routes between two networks, of which each may be left out.
#[derive(Clone)]
pub(crate) struct Cursor {
    // None once all are passed.
    left: Option<Left>,
}

#[derive(Clone, Copy)]
struct Left {
    from: (Network, bool),
    to: (Network, bool),
}

impl Cursor {
    pub(crate) fn all() -> Self {
        let first = Network::truncated(Ipv4Addr::UNSPECIFIED, 0).expect("0.0.0.0/0 is a network");
        let last = Ipv6Addr::from_bits(u128::MAX).into();
        Cursor { left: Some(Left { from: (first, true), to: (last, true) }) }
    }

    pub(crate) fn within(network: Network) -> Self {
        Cursor { left: Some(Left { from: (network, true), to: (network.last(), true) }) }
    }

    // The first route that is left. The cursor moves behind it.
    pub(crate) fn next<V>(&mut self, table: &RouteTable<V>) -> Option<(Network, u64)> {
        let left = self.left.take()?;
        let ((from, inclusive), (octets, from_width)) = (left.from, left.from.0.octets());
        let (mut out, mut word) = (Found::nothing(), 0);
        // SAFETY: as for `RouteTable::own`.
        let status = unsafe {
            raw::art_routes_next(
                &mut table.own(),
                octets.as_ptr(),
                from_width,
                from.length(),
                inclusive,
                out.octets.as_mut_ptr(),
                out.octets.len(),
                &mut out.width,
                &mut out.length,
                &mut word,
            )
        };
        let network = is_some(status).then(|| out.network())?;
        if network > left.to.0 || network == left.to.0 && !left.to.1 {
            return None;
        }
        self.left = Some(Left { from: (network, false), ..left });
        Some((network, word))
    }

    // The last route that is left. The cursor ends before it.
    pub(crate) fn next_back<V>(&mut self, table: &RouteTable<V>) -> Option<(Network, u64)> {
        let left = self.left.take()?;
        let ((to, inclusive), (octets, to_width)) = (left.to, left.to.0.octets());
        let (mut out, mut word) = (Found::nothing(), 0);
        // SAFETY: as for `RouteTable::own`.
        let status = unsafe {
            raw::art_routes_previous(
                &mut table.own(),
                octets.as_ptr(),
                to_width,
                to.length(),
                inclusive,
                out.octets.as_mut_ptr(),
                out.octets.len(),
                &mut out.width,
                &mut out.length,
                &mut word,
            )
        };
        let network = is_some(status).then(|| out.network())?;
        if network < left.from.0 || network == left.from.0 && !left.from.1 {
            return None;
        }
        self.left = Some(Left { to: (network, false), ..left });
        Some((network, word))
    }

    // Goes on behind the parts of a network.
    fn skip_parts(&mut self, network: Network) {
        if let Some(left) = &mut self.left {
            left.from = (network.last(), false);
        }
    }
}

/// Routes of a table, in order, from either end.
pub struct Iter<'a, V> {
    table: &'a RouteTable<V>,
    cursor: Cursor,
}

impl<'a, V> Iter<'a, V> {
    pub(crate) fn new(table: &'a RouteTable<V>, cursor: Cursor) -> Self {
        Iter { table, cursor }
    }
}

impl<'a, V> Iterator for Iter<'a, V> {
    type Item = (Network, &'a V);

    fn next(&mut self) -> Option<Self::Item> {
        // SAFETY: the table is borrowed as long.
        self.cursor.next(self.table).map(|(network, word)| (network, unsafe { &*address(word) }))
    }
}

impl<V> DoubleEndedIterator for Iter<'_, V> {
    fn next_back(&mut self) -> Option<Self::Item> {
        // SAFETY: the table is borrowed as long.
        self.cursor.next_back(self.table).map(|(network, word)| (network, unsafe { &*address(word) }))
    }
}

impl<V> FusedIterator for Iter<'_, V> {}

impl<V> Clone for Iter<'_, V> {
    fn clone(&self) -> Self {
        Iter { table: self.table, cursor: self.cursor.clone() }
    }
}

/// Routes of a table, in order, from either end, with values that can be changed.
pub struct IterMut<'a, V> {
    table: &'a mut RouteTable<V>,
    cursor: Cursor,
}

impl<'a, V> IterMut<'a, V> {
    pub(crate) fn new(table: &'a mut RouteTable<V>, cursor: Cursor) -> Self {
        IterMut { table, cursor }
    }
}

impl<'a, V> Iterator for IterMut<'a, V> {
    type Item = (Network, &'a mut V);

    fn next(&mut self) -> Option<Self::Item> {
        // SAFETY: the table is borrowed as long, and a cursor gives each value once.
        self.cursor.next(self.table).map(|(network, word)| (network, unsafe { &mut *address(word) }))
    }
}

impl<V> DoubleEndedIterator for IterMut<'_, V> {
    fn next_back(&mut self) -> Option<Self::Item> {
        // SAFETY: the table is borrowed as long, and a cursor gives each value once.
        self.cursor.next_back(self.table).map(|(network, word)| (network, unsafe { &mut *address(word) }))
    }
}

impl<V> FusedIterator for IterMut<'_, V> {}

/// The routes of a table by value, in order, from either end. Takes no memory. What is left is dropped with it.
pub struct IntoIter<V> {
    // Of its words those that are passed have no value any more, and are not looked at again.
    table: RouteTable<V>,
    cursor: Cursor,
    left: usize,
}

impl<V> IntoIter<V> {
    pub(crate) fn new(table: RouteTable<V>) -> Self {
        let left = table.len();
        IntoIter { table, cursor: Cursor::all(), left }
    }

    fn taken(&mut self, found: Option<(Network, u64)>) -> Option<(Network, V)> {
        let (network, word) = found?;
        self.left -= 1;
        // SAFETY: a cursor gives each word once.
        Some((network, unsafe { self.table.values.take(word) }))
    }
}

impl<V> Iterator for IntoIter<V> {
    type Item = (Network, V);

    fn next(&mut self) -> Option<(Network, V)> {
        let found = self.cursor.next(&self.table);
        self.taken(found)
    }

    fn size_hint(&self) -> (usize, Option<usize>) {
        (self.left, Some(self.left))
    }
}

impl<V> DoubleEndedIterator for IntoIter<V> {
    fn next_back(&mut self) -> Option<(Network, V)> {
        let found = self.cursor.next_back(&self.table);
        self.taken(found)
    }
}

impl<V> ExactSizeIterator for IntoIter<V> {}
impl<V> FusedIterator for IntoIter<V> {}

/// The routes of a table to parts of a network with none between, in order.
pub struct DirectChildren<'a, V> {
    table: &'a RouteTable<V>,
    cursor: Cursor,
}

impl<'a, V> DirectChildren<'a, V> {
    pub(crate) fn new(table: &'a RouteTable<V>, network: Network) -> Self {
        let mut cursor = Cursor::within(network);
        if let Some(left) = &mut cursor.left {
            left.from.1 = false;
        }
        DirectChildren { table, cursor }
    }
}

impl<'a, V> Iterator for DirectChildren<'a, V> {
    type Item = (Network, &'a V);

    fn next(&mut self) -> Option<Self::Item> {
        let (network, word) = self.cursor.next(self.table)?;
        self.cursor.skip_parts(network);
        // SAFETY: the table is borrowed as long.
        Some((network, unsafe { &*address(word) }))
    }
}

impl<V> FusedIterator for DirectChildren<'_, V> {}

impl<V> Clone for DirectChildren<'_, V> {
    fn clone(&self) -> Self {
        DirectChildren { table: self.table, cursor: self.cursor.clone() }
    }
}

/// The routes of a table that cover a network, from the shortest to the longest.
pub struct Cover<'a, V> {
    network: Network,
    lengths: [u8; MOST_AROUND],
    words: [u64; MOST_AROUND],
    left: usize,
    values: PhantomData<&'a V>,
}

impl<'a, V> Cover<'a, V> {
    pub(crate) fn of(table: &'a RouteTable<V>, network: Network) -> Self {
        let (mut lengths, mut words) = ([0; MOST_AROUND], [0; MOST_AROUND]);
        let left = table.around(network, &mut lengths, &mut words);
        Cover { network, lengths, words, left, values: PhantomData }
    }
}

impl<'a, V> Iterator for Cover<'a, V> {
    type Item = (Network, &'a V);

    fn next(&mut self) -> Option<Self::Item> {
        self.left = self.left.checked_sub(1)?;
        // SAFETY: the table is borrowed as long.
        Some((self.network.around(self.lengths[self.left]), unsafe { &*address(self.words[self.left]) }))
    }

    fn size_hint(&self) -> (usize, Option<usize>) {
        (self.left, Some(self.left))
    }
}

impl<V> ExactSizeIterator for Cover<'_, V> {}
impl<V> FusedIterator for Cover<'_, V> {}

/// The free networks of a length inside a network, in order.
pub struct Free<'a, V> {
    table: &'a RouteTable<V>,
    network: Network,
    length: u8,
    // Those that one call found, and which of them is the next.
    octets: [u8; 16 * MANY],
    count: usize,
    at: usize,
    // Whether that call found all.
    all: bool,
}

impl<'a, V> Free<'a, V> {
    pub(crate) fn new(table: &'a RouteTable<V>, network: Network, length: u8) -> Self {
        Free { table, network, length, octets: [0; 16 * MANY], count: 0, at: 0, all: false }
    }

    // The one at a place among those that were found.
    fn at(&self, place: usize) -> Network {
        let (_, width) = self.network.octets();
        let mut octets = [0; 16];
        octets[..width].copy_from_slice(&self.octets[place * width..][..width]);
        Network::of_octets(&octets, width, self.length)
    }

    // Finds those behind the last one that was found.
    fn find(&mut self) {
        let (octets, width) = self.network.octets();
        let (after, after_width) = match self.count.checked_sub(1) {
            Some(last) => self.at(last).octets(),
            None => ([0; 16], 0),
        };
        let mut count = 0;
        // SAFETY: as for `RouteTable::own`.
        let status = unsafe {
            raw::art_routes_available_many(
                &mut self.table.own(),
                octets.as_ptr(),
                width,
                self.network.length(),
                self.length,
                after.as_ptr(),
                after_width,
                self.octets.as_mut_ptr(),
                MANY * width,
                &mut count,
            )
        };
        debug_assert_eq!(status, raw::NONE);
        (self.count, self.at, self.all) = (count, 0, count < MANY);
    }
}

impl<V> Iterator for Free<'_, V> {
    type Item = Network;

    fn next(&mut self) -> Option<Network> {
        if self.at == self.count && !self.all {
            self.find();
        }
        if self.at == self.count {
            return None;
        }
        self.at += 1;
        Some(self.at(self.at - 1))
    }
}

impl<V> FusedIterator for Free<'_, V> {}

impl<V> Clone for Free<'_, V> {
    fn clone(&self) -> Self {
        Free { ..*self }
    }
}

/// A change of a table: to which network, and the value.
#[derive(Clone, Copy, Debug, PartialEq, Eq, Hash)]
pub enum Change<V> {
    /// A route to a network that has none.
    Insert(Network, V),
    /// No route to the network, which has one with this value.
    Remove(Network, V),
    /// This value for that of the route to the network.
    Replace(Network, V),
}

/// The changes that make one table another, in the order of their networks. Each costs as many steps as routes of the two
/// tables are passed on the way to it.
pub struct Differences<'a, V> {
    old: &'a RouteTable<V>,
    new: &'a RouteTable<V>,
    // None once all are passed.
    from: Option<(Network, bool)>,
}

impl<'a, V> Differences<'a, V> {
    pub(crate) fn new(old: &'a RouteTable<V>, new: &'a RouteTable<V>) -> Self {
        let first = Network::truncated(Ipv4Addr::UNSPECIFIED, 0).expect("0.0.0.0/0 is a network");
        Differences { old, new, from: Some((first, true)) }
    }

    // The next network of which the words of the tables differ.
    fn next_words(&mut self) -> Option<(Network, u8, u64, u64)> {
        let (from, inclusive) = self.from.take()?;
        let (octets, from_width) = from.octets();
        let (mut out, mut change, mut before, mut after) = (Found::nothing(), 0, 0, 0);
        // SAFETY: as for `RouteTable::own`.
        let status = unsafe {
            raw::art_routes_next_difference(
                &mut self.old.own(),
                &mut self.new.own(),
                octets.as_ptr(),
                from_width,
                from.length(),
                inclusive,
                out.octets.as_mut_ptr(),
                out.octets.len(),
                &mut out.width,
                &mut out.length,
                &mut change,
                &mut before,
                &mut after,
            )
        };
        let network = is_some(status).then(|| out.network())?;
        self.from = Some((network, false));
        Some((network, change, before, after))
    }
}

impl<'a, V: PartialEq> Iterator for Differences<'a, V> {
    type Item = Change<&'a V>;

    fn next(&mut self) -> Option<Change<&'a V>> {
        while let Some((network, change, before, after)) = self.next_words() {
            // SAFETY of each: the tables are borrowed as long, and have the word.
            match change {
                raw::INSERT => return Some(Change::Insert(network, unsafe { &*address(after) })),
                raw::REMOVE => return Some(Change::Remove(network, unsafe { &*address(before) })),
                _ => {
                    let (before, after): (&V, &V) = unsafe { (&*address(before), &*address(after)) };
                    if before != after {
                        return Some(Change::Replace(network, after));
                    }
                }
            }
        }
        None
    }
}

impl<V: PartialEq> FusedIterator for Differences<'_, V> {}

impl<V> Clone for Differences<'_, V> {
    fn clone(&self) -> Self {
        Differences { ..*self }
    }
}

macro_rules! shown_by_name {
    ($($name:ident<$($lifetime:lifetime,)? V>),*) => {
        $(impl<V> fmt::Debug for $name<$($lifetime,)? V> {
            fn fmt(&self, out: &mut fmt::Formatter<'_>) -> fmt::Result {
                out.debug_struct(stringify!($name)).finish_non_exhaustive()
            }
        })*
    };
}

shown_by_name!(
    Iter<'_, V>,
    IterMut<'_, V>,
    IntoIter<V>,
    DirectChildren<'_, V>,
    Cover<'_, V>,
    Free<'_, V>,
    Differences<'_, V>
);
