//! Random numbers, keys and calls.
#![allow(dead_code)]

use std::fmt::Debug;
use std::ops::Bound;
use verified_art::entry::ValueMut;
use verified_art::Key;

/// The generator SplitMix64.
pub struct Random(pub u64);

impl Random {
    pub fn next(&mut self) -> u64 {
        self.0 = self.0.wrapping_add(0x9e37_79b9_7f4a_7c15);
        let mut word = self.0;
        word = (word ^ (word >> 30)).wrapping_mul(0xbf58_476d_1ce4_e5b9);
        word = (word ^ (word >> 27)).wrapping_mul(0x94d0_49bb_1331_11eb);
        word ^ (word >> 31)
    }

    pub fn below(&mut self, end: u64) -> u64 {
        self.next() % end
    }

    pub fn coin(&mut self) -> bool {
        self.below(2) == 0
    }

    /// Numbers of all sizes: many are near each other or equal.
    pub fn number(&mut self) -> u64 {
        let bits = self.below(64);
        self.next() >> bits
    }

    /// A bound at a key, or none.
    pub fn bound<K>(&mut self, key: K) -> Bound<K> {
        match self.below(3) {
            0 => Bound::Included(key),
            1 => Bound::Excluded(key),
            _ => Bound::Unbounded,
        }
    }

    /// Few letters, with zeros and 255s: many are equal or begin another, and some are longer than a
    /// node's prefix or than a first buffer.
    pub fn bytes(&mut self) -> Vec<u8> {
        const LETTERS: [u8; 5] = [0, 1, b'a', b'b', 255];
        let mut key: Vec<u8> = (0..self.below(7)).map(|_| LETTERS[self.below(5) as usize]).collect();
        if self.below(50) == 0 {
            let (letter, more) = (LETTERS[self.below(5) as usize], self.below(60) as usize);
            key.resize(key.len() + more, letter);
        }
        key
    }
}

/// Whether `BTreeMap::range` takes these bounds, and does not panic.
pub fn is_range<K: Ord>(start: &Bound<K>, end: &Bound<K>) -> bool {
    match (start, end) {
        (Bound::Unbounded, _) | (_, Bound::Unbounded) => true,
        (Bound::Excluded(start), Bound::Excluded(end)) => start < end,
        (Bound::Included(start) | Bound::Excluded(start), Bound::Included(end) | Bound::Excluded(end)) => start <= end,
    }
}

/// Takes up to `most` items of two iterators, each time from a random end, and compares them.
pub fn walk_both<T: PartialEq + Debug>(
    random: &mut Random,
    most: u64,
    mut ours: impl DoubleEndedIterator<Item = T>,
    mut theirs: impl DoubleEndedIterator<Item = T>,
) {
    let both_ends = random.coin();
    for _ in 0..most {
        let back = both_ends && random.coin();
        let (one, other) = if back { (ours.next_back(), theirs.next_back()) } else { (ours.next(), theirs.next()) };
        assert_eq!(one, other);
        if one.is_none() {
            break;
        }
    }
}

/// Takes up to `most` entries of two iterators, each time from a random end and behind a few that are skipped, compares them
/// and changes some. Guards are held meanwhile, and dropped in any order.
pub fn change_both<'a, K: Key + Debug + 'a>(
    random: &mut Random,
    most: u64,
    mut ours: impl DoubleEndedIterator<Item = (K, ValueMut<'a, K>)>,
    mut theirs: impl DoubleEndedIterator<Item = (&'a K, &'a mut u64)>,
) {
    let mut held = Vec::new();
    for _ in 0..most {
        let skipped = random.below(12).saturating_sub(9) as usize;
        let found = if random.coin() {
            (ours.nth(skipped), theirs.nth(skipped))
        } else {
            (ours.nth_back(skipped), theirs.nth_back(skipped))
        };
        match found {
            (None, None) => break,
            (Some((key, mut value)), Some((due_key, due))) => {
                assert_eq!((&key, *value), (due_key, *due));
                if random.coin() {
                    *due = random.next();
                    *value = *due;
                }
                held.push(value);
            }
            (one, other) => panic!("{one:?} beside {other:?}"),
        }
        while random.coin() && !held.is_empty() {
            held.swap_remove(random.below(held.len() as u64) as usize);
        }
    }
}
