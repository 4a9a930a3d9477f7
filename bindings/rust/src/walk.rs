use crate::byte_walk::ByteWalk;
use crate::index::{mixed, Index, Place};
use crate::map_key::{Encoding, MapKey};
use crate::number_walk::NumberWalk;
use crate::pairs::{may_be_pairs, Layout, PairPlace};
use crate::raw::Pair;
use std::ops::{Bound, RangeBounds};
use std::ptr::NonNull;

/// Where an iterator between two bounds stands, from either end. It gives the places of entries. Before one of these is
/// removed, the walk is renewed, and no others may come or go.
#[derive(Clone)]
pub(crate) enum Walk {
    /// Of slots by numbers, or of no map.
    Numbers(NumberWalk),
    Pairs(NumberWalk, Layout),
    /// Of slots by byte strings.
    Bytes(ByteWalk),
}

fn number_of<Q: MapKey + ?Sized>(key: &Q) -> u64 {
    key.encode(|key| match key {
        Encoding::Number(key) => key,
        Encoding::Bytes(_) => mixed(),
    })
}

fn bytes_of<Q: MapKey + ?Sized>(key: &Q) -> Vec<u8> {
    key.encode(|key| match key {
        Encoding::Number(_) => mixed(),
        Encoding::Bytes(key) => key.to_vec(),
    })
}

/// The word of a pair of a map whose entries have slots.
#[inline]
fn slot_of(pair: NonNull<Pair>) -> Place {
    // SAFETY: a walk gives pairs that are there, and the words of slots are numbers.
    Place::Slot(unsafe { (*pair.as_ptr()).value.assume_init() })
}

/// How far ahead of an entry its slot is asked for.
pub(crate) const AHEAD: usize = 16;

impl Walk {
    /// Of all entries.
    pub(crate) fn all(index: &Index) -> Self {
        match index {
            Index::Bytes(_) => Walk::Bytes(ByteWalk::new(Bound::Unbounded, Bound::Unbounded)),
            _ => Self::numbers(index, Bound::Unbounded, Bound::Unbounded),
        }
    }

    fn numbers(index: &Index, from: Bound<u64>, until: Bound<u64>) -> Self {
        let walk = NumberWalk::new(from, until);
        match index {
            Index::Pairs(_, layout) => Walk::Pairs(walk, *layout),
            _ => Walk::Numbers(walk),
        }
    }

    /// Of keys in a range.
    pub(crate) fn range<Q: MapKey + ?Sized>(index: &Index, range: &impl RangeBounds<Q>) -> Self {
        let (from, until) = (range.start_bound(), range.end_bound());
        match index {
            Index::Empty => Self::all(index),
            Index::Bytes(_) => Walk::Bytes(ByteWalk::new(from.map(bytes_of), until.map(bytes_of))),
            Index::Numbers(_) | Index::Pairs(..) => Self::numbers(index, from.map(number_of), until.map(number_of)),
        }
    }

    /// Of keys that begin with a prefix.
    pub(crate) fn prefix(index: &Index, prefix: &[u8]) -> Self {
        let Index::Bytes(_) = index else { return Self::all(index) };
        // Above all of them is the prefix without the 255s at its end, and one more.
        let mut end = prefix.to_vec();
        while end.last() == Some(&u8::MAX) {
            end.pop();
        }
        let until = match end.last_mut() {
            Some(last) => {
                *last += 1;
                Bound::Excluded(end)
            }
            None => Bound::Unbounded,
        };
        Walk::Bytes(ByteWalk::new(Bound::Included(prefix.to_vec()), until))
    }

    /// The next place in a map of these types. Slots behind it are asked for by `warm`.
    #[inline]
    pub(crate) fn next<K, V>(&mut self, index: &Index, warm: impl Fn(u64)) -> Option<Place> {
        let first = match self {
            Walk::Pairs(walk, layout) if may_be_pairs::<K, V>() => {
                walk.first().map(|pair| Place::Pair(PairPlace { pair, layout: *layout }))
            }
            Walk::Pairs(..) => None,
            Walk::Numbers(walk) => {
                walk.slot(AHEAD).into_iter().for_each(&warm);
                walk.first().map(slot_of)
            }
            Walk::Bytes(walk) => walk.first(&warm).map(Place::Slot),
        };
        first.or_else(|| self.next_far(index, &warm))
    }

    /// The last place.
    #[inline]
    pub(crate) fn next_back<K, V>(&mut self, index: &Index, warm: impl Fn(u64)) -> Option<Place> {
        let last = match self {
            Walk::Pairs(walk, layout) if may_be_pairs::<K, V>() => {
                walk.last().map(|pair| Place::Pair(PairPlace { pair, layout: *layout }))
            }
            Walk::Pairs(..) => None,
            Walk::Numbers(walk) => {
                walk.slot_back(AHEAD).into_iter().for_each(&warm);
                walk.last().map(slot_of)
            }
            Walk::Bytes(walk) => walk.last(&warm).map(Place::Slot),
        };
        last.or_else(|| self.next_far_back(index, &warm))
    }

    // The next place, by the library.
    #[inline(never)]
    fn next_far(&mut self, index: &Index, warm: &impl Fn(u64)) -> Option<Place> {
        match (self, index) {
            (Walk::Pairs(walk, layout), Index::Pairs(map, _)) => {
                walk.next_lent(map).map(|pair| Place::Pair(PairPlace { pair, layout: *layout }))
            }
            (Walk::Numbers(walk), Index::Numbers(map)) => {
                let next = walk.next_lent(map).map(slot_of);
                (0..AHEAD).map_while(|at| walk.slot(at)).for_each(warm);
                next
            }
            (Walk::Bytes(walk), Index::Bytes(map)) => walk.next_fetched(map, warm).map(Place::Slot),
            _ => None,
        }
    }

    // The last place, by the library.
    #[inline(never)]
    fn next_far_back(&mut self, index: &Index, warm: &impl Fn(u64)) -> Option<Place> {
        match (self, index) {
            (Walk::Pairs(walk, layout), Index::Pairs(map, _)) => {
                walk.last_lent(map).map(|pair| Place::Pair(PairPlace { pair, layout: *layout }))
            }
            (Walk::Numbers(walk), Index::Numbers(map)) => {
                let last = walk.last_lent(map).map(slot_of);
                (0..AHEAD).map_while(|at| walk.slot_back(at)).for_each(warm);
                last
            }
            (Walk::Bytes(walk), Index::Bytes(map)) => walk.last_fetched(map, warm).map(Place::Slot),
            _ => None,
        }
    }

    /// Makes ready for a change of the index.
    pub(crate) fn renew(&mut self) {
        match self {
            Walk::Numbers(walk) | Walk::Pairs(walk, _) => walk.renew(),
            Walk::Bytes(walk) => walk.renew(),
        }
    }
}
