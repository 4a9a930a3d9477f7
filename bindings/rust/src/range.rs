//! Iterators over words. The last key is the cursor, and no key comes or goes while one is borrowed from the map.
use crate::entry::{Lent, ValueMut};
use crate::key::{Find, Key, Toward};
use crate::refusal::granted;
use crate::words::{Shown, WordMap};
use std::collections::VecDeque;
use std::fmt;
use std::iter::FusedIterator;
use std::ops::Bound;

/// Where a walk between two bounds stands, from either end. Entries that it gave may be removed meanwhile.
#[derive(Clone)]
pub(crate) struct Cursor<K: Key> {
    /// Entries that were fetched and not yet given, the first one first.
    ahead: VecDeque<(K, u64)>,
    /// The last key that was fetched ahead, or the start of the range, and whether its entry is to come.
    from: (K, bool),
    /// Entries that were fetched from the end and not yet given, the last one first.
    behind: VecDeque<(K, u64)>,
    /// The last key that was fetched from the end, or the end of the range.
    until: Bound<K>,
    /// How many entries to fetch at once.
    batch: usize,
}

impl<K: Key> Cursor<K> {
    pub(crate) fn new((from, until): ((K, bool), Bound<K>)) -> Self {
        Cursor { ahead: VecDeque::new(), from, behind: VecDeque::new(), until, batch: 1 }
    }

    /// The cursor of all entries.
    pub(crate) fn all() -> Self {
        Self::new(((K::default(), true), Bound::Unbounded))
    }

    fn is_within_end(&self, key: &K) -> bool {
        match &self.until {
            Bound::Included(end) => key <= end,
            Bound::Excluded(end) => key < end,
            Bound::Unbounded => true,
        }
    }

    fn is_still_ahead(&self, key: &K) -> bool {
        match self.ahead.front() {
            Some((first, _)) => key >= first,
            None => *key > self.from.0 || self.from.1 && *key == self.from.0,
        }
    }

    pub(crate) fn next(&mut self, map: &WordMap<K>) -> Option<(K, u64)> {
        if self.ahead.is_empty() && self.is_within_end(&self.from.0) {
            map.fetch(Toward::End, &self.from.0, self.from.1, self.batch, &mut self.ahead);
            if let Some((last, _)) = self.ahead.back() {
                self.from = (last.clone(), false);
            }
            // A short range wants few, a long one many.
            self.batch = self.batch.saturating_mul(2);
        }
        let next = self.ahead.pop_front().filter(|(key, _)| self.is_within_end(key));
        if next.is_none() {
            self.ahead.clear();
            // What is left was fetched from the end.
            return self.behind.pop_back();
        }
        next
    }

    fn next_back(&mut self, map: &WordMap<K>) -> Option<(K, u64)> {
        if self.behind.is_empty() {
            let mut fetched = VecDeque::new();
            match &self.until {
                Bound::Included(end) => map.fetch(Toward::Start, end, true, self.batch, &mut fetched),
                Bound::Excluded(end) => map.fetch(Toward::Start, end, false, self.batch, &mut fetched),
                Bound::Unbounded => fetched.extend(map.find(Find::Last)),
            }
            if let Some((key, _)) = fetched.back() {
                self.until = Bound::Excluded(key.clone());
            }
            fetched.retain(|(key, _)| self.is_still_ahead(key));
            self.behind = fetched;
            self.batch = self.batch.saturating_mul(2);
        }
        self.behind.pop_front()
    }
}

/// The entries between two bounds, from either end.
#[derive(Clone)]
pub struct Range<'a, K: Key> {
    map: &'a WordMap<K>,
    cursor: Cursor<K>,
}

impl<'a, K: Key> Range<'a, K> {
    pub(crate) fn new(map: &'a WordMap<K>, cursor: Cursor<K>) -> Self {
        Range { map, cursor }
    }
}

impl<K: Key> Iterator for Range<'_, K> {
    type Item = (K, u64);

    fn next(&mut self) -> Option<(K, u64)> {
        self.cursor.next(self.map)
    }
}

impl<K: Key> DoubleEndedIterator for Range<'_, K> {
    fn next_back(&mut self) -> Option<(K, u64)> {
        self.cursor.next_back(self.map)
    }
}

impl<K: Key> FusedIterator for Range<'_, K> {}

/// The values between two bounds, from either end, each in a guard. A copy, which gives each once more, is only to be shown.
#[derive(Clone)]
struct Guards<'a, K: Key> {
    map: Lent<'a, K>,
    cursor: Cursor<K>,
}

impl<'a, K: Key> Guards<'a, K> {
    fn guard(&self, (key, value): (K, u64)) -> ValueMut<'a, K> {
        ValueMut::new(self.map, key, value)
    }
}

impl<'a, K: Key> Iterator for Guards<'a, K> {
    type Item = ValueMut<'a, K>;

    fn next(&mut self) -> Option<ValueMut<'a, K>> {
        self.map.look(|map| self.cursor.next(map)).map(|entry| self.guard(entry))
    }
}

impl<K: Key> DoubleEndedIterator for Guards<'_, K> {
    fn next_back(&mut self) -> Option<Self::Item> {
        self.map.look(|map| self.cursor.next_back(map)).map(|entry| self.guard(entry))
    }
}

/// An iterator over all entries of a map, with how many are left.
#[derive(Clone)]
struct Counted<I> {
    entries: I,
    left: usize,
}

impl<I: Iterator> Iterator for Counted<I> {
    type Item = I::Item;

    fn next(&mut self) -> Option<I::Item> {
        if self.left == 0 {
            return None;
        }
        let next = self.entries.next();
        self.left -= 1;
        next
    }

    fn size_hint(&self) -> (usize, Option<usize>) {
        (self.left, Some(self.left))
    }
}

impl<I: DoubleEndedIterator> DoubleEndedIterator for Counted<I> {
    fn next_back(&mut self) -> Option<I::Item> {
        if self.left == 0 {
            return None;
        }
        let next = self.entries.next_back();
        self.left -= 1;
        next
    }
}

/// The entries of a map by value, from either end: each is removed as it is given.
pub struct IntoIter<K: Key>(pub(crate) WordMap<K>);

impl<K: Key> Iterator for IntoIter<K> {
    type Item = (K, u64);

    fn next(&mut self) -> Option<(K, u64)> {
        self.0.pop_first()
    }

    fn size_hint(&self) -> (usize, Option<usize>) {
        (self.0.len(), Some(self.0.len()))
    }
}

impl<K: Key> DoubleEndedIterator for IntoIter<K> {
    fn next_back(&mut self) -> Option<(K, u64)> {
        self.0.pop_last()
    }
}

impl<K: Key> ExactSizeIterator for IntoIter<K> {}
impl<K: Key> FusedIterator for IntoIter<K> {}

/// An iterator, which gives a part of each entry that the one inside it gives.
macro_rules! gives {
    ([$($generics:tt)*] $name:ty => $item:ty, $part:expr $(, { $($more:tt)* })?) => {
        impl<$($generics)*> Iterator for $name {
            type Item = $item;

            #[inline]
            fn next(&mut self) -> Option<$item> {
                self.0.next().map($part)
            }

            fn size_hint(&self) -> (usize, Option<usize>) {
                self.0.size_hint()
            }

            fn nth(&mut self, skipped: usize) -> Option<$item> {
                self.0.nth(skipped).map($part)
            }

            fn last(mut self) -> Option<$item> {
                self.next_back()
            }

            $($($more)*)?
        }

        impl<$($generics)*> DoubleEndedIterator for $name {
            #[inline]
            fn next_back(&mut self) -> Option<$item> {
                self.0.next_back().map($part)
            }

            fn nth_back(&mut self, skipped: usize) -> Option<$item> {
                self.0.nth_back(skipped).map($part)
            }
        }

        impl<$($generics)*> std::iter::FusedIterator for $name {}
    };
}

/// The same, where that one knows how many entries are left.
macro_rules! gives_all {
    ([$($generics:tt)*] $name:ty => $item:ty, $part:expr $(, { $($more:tt)* })?) => {
        crate::range::gives!([$($generics)*] $name => $item, $part $(, { $($more)* })?);
        impl<$($generics)*> ExactSizeIterator for $name {}
    };
}

/// The least and the greatest of what an iterator gives in ascending order.
macro_rules! least_and_greatest {
    ($item:ty) => {
        fn min(mut self) -> Option<$item>
        where
            $item: Ord,
        {
            self.next()
        }

        fn max(mut self) -> Option<$item>
        where
            $item: Ord,
        {
            self.next_back()
        }
    };
}

pub(crate) use {gives, gives_all, least_and_greatest};

/// All entries of a map, from either end.
#[derive(Clone)]
pub struct Iter<'a, K: Key>(Counted<Range<'a, K>>);
gives_all!(['a, K: Key] Iter<'a, K> => (K, u64), |entry| entry);

impl<'a, K: Key> Iter<'a, K> {
    pub(crate) fn new(map: &'a WordMap<K>) -> Self {
        Iter(Counted { entries: Range::new(map, Cursor::all()), left: map.len() })
    }
}

/// The entries between two bounds, from either end, with values that can be changed.
pub struct RangeMut<'a, K: Key>(Guards<'a, K>);
gives!(['a, K: Key] RangeMut<'a, K> => (K, ValueMut<'a, K>), ValueMut::with_key);

impl<'a, K: Key> RangeMut<'a, K> {
    pub(crate) fn new(map: &'a mut WordMap<K>, cursor: Cursor<K>) -> Self {
        RangeMut(Guards { map: Lent::new(map), cursor })
    }
}

/// The values of a map, from either end, to be changed.
pub struct ValuesMut<'a, K: Key>(Counted<Guards<'a, K>>);
gives_all!(['a, K: Key] ValuesMut<'a, K> => ValueMut<'a, K>, |value| value);

impl<'a, K: Key> ValuesMut<'a, K> {
    pub(crate) fn new(map: &'a mut WordMap<K>) -> Self {
        let left = map.len();
        ValuesMut(Counted { entries: Guards { map: Lent::new(map), cursor: Cursor::all() }, left })
    }
}

/// All entries of a map, from either end, with values that can be changed.
pub struct IterMut<'a, K: Key>(pub(crate) ValuesMut<'a, K>);
gives_all!(['a, K: Key] IterMut<'a, K> => (K, ValueMut<'a, K>), ValueMut::with_key);

/// The keys of a map, from either end.
#[derive(Clone)]
pub struct Keys<'a, K: Key>(pub(crate) Iter<'a, K>);
gives_all!(['a, K: Key] Keys<'a, K> => K, |(key, _)| key);

/// The values of a map, from either end.
#[derive(Clone)]
pub struct Values<'a, K: Key>(pub(crate) Iter<'a, K>);
gives_all!(['a, K: Key] Values<'a, K> => u64, |(_, value)| value);

/// The keys of a map by value, from either end: each entry is removed as its key is given.
pub struct IntoKeys<K: Key>(pub(crate) IntoIter<K>);
gives_all!([K: Key] IntoKeys<K> => K, |(key, _)| key);

/// The values of a map by value, from either end: each entry is removed as its value is given.
pub struct IntoValues<K: Key>(pub(crate) IntoIter<K>);
gives_all!([K: Key] IntoValues<K> => u64, |(_, value)| value);

/// The entries of a map that a closure picks, between two bounds: each is removed as it is given, and the others stay.
pub struct ExtractIf<'a, K: Key, F> {
    map: &'a mut WordMap<K>,
    cursor: Cursor<K>,
    picks: F,
}

impl<'a, K: Key, F> ExtractIf<'a, K, F> {
    pub(crate) fn new(map: &'a mut WordMap<K>, cursor: Cursor<K>, picks: F) -> Self {
        ExtractIf { map, cursor, picks }
    }
}

impl<K: Key, F: FnMut(&K, &mut u64) -> bool> Iterator for ExtractIf<'_, K, F> {
    type Item = (K, u64);

    fn next(&mut self) -> Option<(K, u64)> {
        loop {
            let (key, before) = self.cursor.next(self.map)?;
            let mut value = before;
            if (self.picks)(&key, &mut value) {
                self.map.take(key.sought());
                return Some((key, value));
            }
            if value != before {
                granted(self.map.put(key.sought(), value));
            }
        }
    }
}

impl<K: Key, F: FnMut(&K, &mut u64) -> bool> FusedIterator for ExtractIf<'_, K, F> {}

impl<K: Key> fmt::Debug for Range<'_, K> {
    fn fmt(&self, out: &mut fmt::Formatter<'_>) -> fmt::Result {
        out.debug_list().entries(self.clone().map(|(key, value)| (Shown(key), value))).finish()
    }
}

impl<K: Key> fmt::Debug for Iter<'_, K> {
    fn fmt(&self, out: &mut fmt::Formatter<'_>) -> fmt::Result {
        out.debug_list().entries(self.clone().map(|(key, value)| (Shown(key), value))).finish()
    }
}

impl<K: Key> fmt::Debug for Keys<'_, K> {
    fn fmt(&self, out: &mut fmt::Formatter<'_>) -> fmt::Result {
        out.debug_list().entries(self.clone().map(Shown)).finish()
    }
}

impl<K: Key> fmt::Debug for Values<'_, K> {
    fn fmt(&self, out: &mut fmt::Formatter<'_>) -> fmt::Result {
        out.debug_list().entries(self.clone()).finish()
    }
}

// By copies, and by no reference to the map: what the text is written to may drop guards.
impl<K: Key> fmt::Debug for RangeMut<'_, K> {
    fn fmt(&self, out: &mut fmt::Formatter<'_>) -> fmt::Result {
        let copy = RangeMut(self.0.clone());
        out.debug_list().entries(copy.map(|(key, value)| (Shown(key), value))).finish()
    }
}

impl<K: Key> fmt::Debug for IterMut<'_, K> {
    fn fmt(&self, out: &mut fmt::Formatter<'_>) -> fmt::Result {
        let copy = IterMut(ValuesMut(self.0 .0.clone()));
        out.debug_list().entries(copy.map(|(key, value)| (Shown(key), value))).finish()
    }
}

impl<K: Key> fmt::Debug for ValuesMut<'_, K> {
    fn fmt(&self, out: &mut fmt::Formatter<'_>) -> fmt::Result {
        out.debug_list().entries(self.0.clone()).finish()
    }
}

impl<K: Key> fmt::Debug for IntoIter<K> {
    fn fmt(&self, out: &mut fmt::Formatter<'_>) -> fmt::Result {
        self.0.iter().fmt(out)
    }
}

impl<K: Key> fmt::Debug for IntoKeys<K> {
    fn fmt(&self, out: &mut fmt::Formatter<'_>) -> fmt::Result {
        self.0 .0.keys().fmt(out)
    }
}

impl<K: Key> fmt::Debug for IntoValues<K> {
    fn fmt(&self, out: &mut fmt::Formatter<'_>) -> fmt::Result {
        self.0 .0.values().fmt(out)
    }
}

impl<K: Key, F> fmt::Debug for ExtractIf<'_, K, F> {
    fn fmt(&self, out: &mut fmt::Formatter<'_>) -> fmt::Result {
        out.debug_struct("ExtractIf").finish_non_exhaustive()
    }
}
