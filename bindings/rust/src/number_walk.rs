//! Where an iterator over pairs of the library stands.
use crate::lent::{page, page_before};
use crate::raw::{Pair, RawMap};
use std::ops::Bound;
use std::ptr::{self, NonNull};

/// Where an iterator over keys that are numbers stands, from either end. The map may not change while it stands among pairs
/// that were lent.
#[derive(Clone)]
pub(crate) struct NumberWalk {
    ahead: Run,
    behind: Run,
    // The keys that were not looked up yet, both of these among them: none where the first one is greater.
    from: u64,
    until: u64,
}

/// Pairs of one page that were lent, and not yet given.
#[derive(Clone, Copy)]
pub(crate) struct Run {
    begin: *mut Pair,
    count: usize,
}

// SAFETY: these are addresses alone. Who reads what is there says so.
unsafe impl Send for Run {}
unsafe impl Sync for Run {}

impl Run {
    pub(crate) const EMPTY: Run = Run { begin: ptr::null_mut(), count: 0 };

    /// So many pairs. SAFETY: they are there for as long as this is used.
    pub(crate) unsafe fn new(begin: *mut Pair, count: usize) -> Self {
        Run { begin, count }
    }

    // SAFETY, here and below: the pairs are there, as the map did not change since they were lent, and no key ever does.
    #[inline]
    fn key(&self, at: usize) -> u64 {
        debug_assert!(at < self.count);
        unsafe { (*self.begin.add(at)).key }
    }

    fn first_key(&self) -> Option<u64> {
        (self.count > 0).then(|| self.key(0))
    }

    pub(crate) fn last_key(&self) -> Option<u64> {
        self.count.checked_sub(1).map(|last| self.key(last))
    }

    /// How many keys are below one, or equal to it where these count.
    fn below(&self, key: u64, counts_equal: bool) -> usize {
        let (mut low, mut high) = (0, self.count);
        while low < high {
            let middle = low + (high - low) / 2;
            if self.key(middle) < key || counts_equal && self.key(middle) == key {
                low = middle + 1;
            } else {
                high = middle;
            }
        }
        low
    }

    /// Those whose keys are within these.
    pub(crate) fn within(self, from: u64, until: u64) -> Self {
        let Some(last) = self.last_key() else { return self };
        // As a rule all are.
        let first = if self.key(0) < from { self.below(from, false) } else { 0 };
        let end = if last > until { self.below(until, true) } else { self.count };
        Run { begin: unsafe { self.begin.add(first) }, count: end.saturating_sub(first) }
    }

    #[inline]
    fn first(&mut self) -> Option<NonNull<Pair>> {
        self.count = self.count.checked_sub(1)?;
        let pair = self.begin;
        unsafe {
            self.begin = pair.add(1);
            Some(NonNull::new_unchecked(pair))
        }
    }

    #[inline]
    fn last(&mut self) -> Option<NonNull<Pair>> {
        self.count = self.count.checked_sub(1)?;
        Some(unsafe { NonNull::new_unchecked(self.begin.add(self.count)) })
    }

    /// The word of the pair that is so many behind the first one, where the entries have words of slots.
    #[inline]
    fn slot(&self, at: usize) -> Option<u64> {
        (at < self.count).then(|| unsafe { (*self.begin.add(at)).value.assume_init() })
    }

    /// The same, before the last one.
    #[inline]
    fn slot_back(&self, at: usize) -> Option<u64> {
        (at < self.count).then(|| unsafe { (*self.begin.add(self.count - 1 - at)).value.assume_init() })
    }
}

impl NumberWalk {
    /// A walk of the keys between two bounds.
    pub(crate) fn new(from: Bound<u64>, until: Bound<u64>) -> Self {
        let from = match from {
            Bound::Included(key) => Some(key),
            Bound::Excluded(key) => key.checked_add(1),
            Bound::Unbounded => Some(0),
        };
        let until = match until {
            Bound::Included(key) => Some(key),
            Bound::Excluded(key) => key.checked_sub(1),
            Bound::Unbounded => Some(u64::MAX),
        };
        let (from, until) = from.zip(until).unwrap_or(NONE);
        NumberWalk { ahead: Run::EMPTY, behind: Run::EMPTY, from, until }
    }

    /// The next pair, where it was lent already.
    #[inline]
    pub(crate) fn first(&mut self) -> Option<NonNull<Pair>> {
        self.ahead.first()
    }

    /// The last pair, where it was lent already.
    #[inline]
    pub(crate) fn last(&mut self) -> Option<NonNull<Pair>> {
        self.behind.last()
    }

    /// The word of the slot that is so many behind the next one, where it was lent already and has a slot.
    #[inline]
    pub(crate) fn slot(&self, at: usize) -> Option<u64> {
        self.ahead.slot(at)
    }

    /// The same, before the last one.
    #[inline]
    pub(crate) fn slot_back(&self, at: usize) -> Option<u64> {
        self.behind.slot_back(at)
    }

    /// The next pair, once those lent ahead were given.
    pub(crate) fn next_lent(&mut self, map: &RawMap) -> Option<NonNull<Pair>> {
        self.look_up(map);
        // Where there are none between, what is left was lent from the end.
        self.ahead.first().or_else(|| self.behind.first())
    }

    /// The last pair, once those lent behind were given.
    pub(crate) fn last_lent(&mut self, map: &RawMap) -> Option<NonNull<Pair>> {
        self.look_up_back(map);
        self.behind.last().or_else(|| self.ahead.last())
    }

    fn look_up(&mut self, map: &RawMap) {
        if self.from > self.until {
            return;
        }
        let page = page(map, self.from);
        self.ahead = page.within(self.from, self.until);
        match page.last_key() {
            Some(last) if last < self.until => self.from = last + 1,
            _ => (self.from, self.until) = NONE,
        }
    }

    fn look_up_back(&mut self, map: &RawMap) {
        if self.from > self.until {
            return;
        }
        let page = page_before(map, self.until);
        self.behind = page.within(self.from, self.until);
        match page.first_key() {
            Some(first) if first > self.from => self.until = first - 1,
            _ => (self.from, self.until) = NONE,
        }
    }

    /// Gives up the pairs ahead, before the map changes: they are looked up anew.
    pub(crate) fn renew(&mut self) {
        let Some(last) = self.ahead.last_key() else { return };
        if self.from > self.until {
            self.until = last;
        }
        self.from = self.ahead.key(0);
        self.ahead = Run::EMPTY;
    }
}

/// No keys are left to be looked up.
const NONE: (u64, u64) = (1, 0);
