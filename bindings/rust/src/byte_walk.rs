//! Where an iterator over words by byte strings stands.
use crate::lent::{entries_after, with_entries_before, Room, MOST_FETCHED};
use crate::raw::{BytesEntry, RawMap};
use crate::walk::AHEAD;
use std::cmp::Ordering;
use std::ops::Bound;

/// Where an iterator over keys that are byte strings stands, from either end.
#[derive(Clone)]
pub(crate) struct ByteWalk {
    ahead: Fetched,
    behind: Fetched,
    /// The start of the range, or the last key that was fetched ahead.
    from: Edge,
    /// The end of the range, or the last key that was fetched behind.
    until: Edge,
    /// How many words to fetch next.
    most: usize,
    /// Whether there are none between `from` and `until`.
    met: bool,
}

/// Words that were fetched, in the order in which they were, and how many of them were given.
#[derive(Clone, Default)]
struct Fetched {
    words: Vec<u64>,
    given: usize,
}

/// How many words are fetched first: a short range wants few.
const FIRST_FETCHED: usize = 16;

impl Fetched {
    /// The next one, where `warm` asks for the slots of those behind it.
    #[inline]
    fn first(&mut self, warm: &impl Fn(u64)) -> Option<u64> {
        let word = *self.words.get(self.given)?;
        if let Some(behind) = self.words.get(self.given + AHEAD) {
            warm(*behind);
        }
        self.given += 1;
        Some(word)
    }

    fn last(&mut self) -> Option<u64> {
        if self.given == self.words.len() {
            return None;
        }
        self.words.pop()
    }

    fn refill(&mut self, words: impl Iterator<Item = u64>, warm: &impl Fn(u64)) {
        self.given = 0;
        self.words.clear();
        self.words.extend(words);
        self.words.iter().take(AHEAD).for_each(|word| warm(*word));
    }
}

/// An end of what is still to be fetched.
#[derive(Clone)]
enum Edge {
    None,
    /// A key, and whether it is within.
    Owned(Vec<u8>, bool),
    /// The key of an entry of the map, which is not within.
    Lent(BytesEntry),
}

impl Edge {
    fn new(bound: Bound<Vec<u8>>) -> Self {
        match bound {
            Bound::Included(key) => Edge::Owned(key, true),
            Bound::Excluded(key) => Edge::Owned(key, false),
            Bound::Unbounded => Edge::None,
        }
    }

    fn key(&self) -> Option<(&[u8], bool)> {
        match self {
            Edge::None => None,
            Edge::Owned(key, inclusive) => Some((key, *inclusive)),
            // SAFETY: the map has not changed since the entry was lent.
            Edge::Lent(entry) => Some((unsafe { entry.key() }, false)),
        }
    }
}

impl ByteWalk {
    /// A walk of the keys between two bounds.
    pub(crate) fn new(from: Bound<Vec<u8>>, until: Bound<Vec<u8>>) -> Self {
        ByteWalk {
            ahead: Fetched::default(),
            behind: Fetched::default(),
            from: Edge::new(from),
            until: Edge::new(until),
            most: FIRST_FETCHED,
            met: false,
        }
    }

    /// The next word, where it was fetched already. `warm` asks for the slots of those behind it.
    #[inline]
    pub(crate) fn first(&mut self, warm: &impl Fn(u64)) -> Option<u64> {
        self.ahead.first(warm)
    }

    /// The last word, where it was fetched already.
    #[inline]
    pub(crate) fn last(&mut self, warm: &impl Fn(u64)) -> Option<u64> {
        self.behind.first(warm)
    }

    /// The next word, once those fetched ahead were given.
    pub(crate) fn next_fetched(&mut self, map: &RawMap, warm: &impl Fn(u64)) -> Option<u64> {
        self.fetch_ahead(map, warm);
        // Where there is none between, what is left was fetched behind.
        self.ahead.first(warm).or_else(|| self.behind.last())
    }

    /// The last word, once those fetched behind were given.
    pub(crate) fn last_fetched(&mut self, map: &RawMap, warm: &impl Fn(u64)) -> Option<u64> {
        self.fetch_behind(map, warm);
        self.behind.first(warm).or_else(|| self.ahead.last())
    }

    fn fetch_ahead(&mut self, map: &RawMap, warm: &impl Fn(u64)) {
        if self.met {
            return;
        }
        let mut room = Room::new();
        let entries = entries_after(map, self.from.key(), &mut room, self.most);
        let is_within = |entry: &BytesEntry| match self.until.key() {
            // SAFETY: the map has not changed.
            Some((end, inclusive)) => match unsafe { entry.key() }.cmp(end) {
                Ordering::Less => true,
                Ordering::Equal => inclusive,
                Ordering::Greater => false,
            },
            None => true,
        };
        // As a rule all are within.
        let are_all = entries.last().is_none_or(is_within);
        let within = if are_all { entries } else { &entries[..entries.partition_point(is_within)] };
        self.met = !are_all || entries.len() < self.most;
        self.ahead.refill(within.iter().map(|entry| entry.value), warm);
        if let Some(last) = within.last() {
            self.from = Edge::Lent(*last);
        }
        self.most = MOST_FETCHED;
    }

    fn fetch_behind(&mut self, map: &RawMap, warm: &impl Fn(u64)) {
        if self.met {
            return;
        }
        let (last, met) = with_entries_before(map, self.until.key(), self.most, |batch| {
            let is_within = |at: usize| match self.from.key() {
                Some((begin, inclusive)) => match batch.key(at).cmp(begin) {
                    Ordering::Less => false,
                    Ordering::Equal => inclusive,
                    Ordering::Greater => true,
                },
                None => true,
            };
            let count = batch.words.len();
            let within = if count == 0 || is_within(count - 1) { count } else { partition_point(count, is_within) };
            self.behind.refill(batch.words[..within].iter().copied(), warm);
            (within.checked_sub(1).map(|last| batch.key(last).to_vec()), count == 0 || within < count)
        });
        if let Some(last) = last {
            self.until = Edge::Owned(last, false);
        }
        self.met = met;
        self.most = MOST_FETCHED;
    }

    /// Keeps a copy of the key that the library lends, before the map changes.
    pub(crate) fn renew(&mut self) {
        if let (Edge::Lent(_), Some((key, inclusive))) = (&self.from, self.from.key()) {
            self.from = Edge::Owned(key.to_vec(), inclusive);
        }
    }
}

/// How many of the first ones hold, of so many.
fn partition_point(count: usize, holds: impl Fn(usize) -> bool) -> usize {
    let (mut low, mut high) = (0, count);
    while low < high {
        let middle = low + (high - low) / 2;
        if holds(middle) {
            low = middle + 1;
        } else {
            high = middle;
        }
    }
    low
}
