//! What two sets have together.
use crate::map_key::MapKey;
use crate::set::{Iter, Set};
use std::cmp::Ordering;
use std::fmt;
use std::iter::{FusedIterator, Peekable};
use std::ops::{BitAnd, BitOr, BitXor, Sub};

/// Which keys of two sets are given: those of the first one alone, of both, of the other one alone.
const FIRST: u8 = 1;
const BOTH: u8 = 2;
const OTHER: u8 = 4;

/// Keys of two sets, in ascending order: those of the first one alone, of both, of the other one alone, as the bits of
/// `GIVEN` say, from the lowest one on.
pub struct Merged<'a, K, const GIVEN: u8> {
    first: Peekable<Iter<'a, K>>,
    other: Peekable<Iter<'a, K>>,
}

/// The keys of two sets.
pub type Union<'a, K> = Merged<'a, K, { FIRST | BOTH | OTHER }>;
/// The keys that two sets both have.
pub type Intersection<'a, K> = Merged<'a, K, BOTH>;
/// The keys of a set that another one does not have.
pub type Difference<'a, K> = Merged<'a, K, FIRST>;
/// The keys that one of two sets has, and not both.
pub type SymmetricDifference<'a, K> = Merged<'a, K, { FIRST | OTHER }>;

impl<'a, K: Ord, const GIVEN: u8> Merged<'a, K, GIVEN> {
    fn new(first: &'a Set<K>, other: &'a Set<K>) -> Self {
        Merged { first: first.iter().peekable(), other: other.iter().peekable() }
    }
}

impl<'a, K: Ord, const GIVEN: u8> Iterator for Merged<'a, K, GIVEN> {
    type Item = &'a K;

    fn next(&mut self) -> Option<&'a K> {
        loop {
            let ordering = match (self.first.peek(), self.other.peek()) {
                (Some(first), Some(other)) => first.cmp(other),
                (Some(_), None) => Ordering::Less,
                (None, Some(_)) => Ordering::Greater,
                (None, None) => return None,
            };
            let (key, kind) = match ordering {
                Ordering::Less => (self.first.next(), FIRST),
                Ordering::Equal => (self.other.next().and(self.first.next()), BOTH),
                Ordering::Greater => (self.other.next(), OTHER),
            };
            if GIVEN & kind != 0 {
                return key;
            }
        }
    }
}

impl<K: Ord, const GIVEN: u8> FusedIterator for Merged<'_, K, GIVEN> {}

impl<K, const GIVEN: u8> Clone for Merged<'_, K, GIVEN> {
    fn clone(&self) -> Self {
        Merged { first: self.first.clone(), other: self.other.clone() }
    }
}

impl<K: Ord + fmt::Debug, const GIVEN: u8> fmt::Debug for Merged<'_, K, GIVEN> {
    fn fmt(&self, out: &mut fmt::Formatter<'_>) -> fmt::Result {
        out.debug_list().entries(self.clone()).finish()
    }
}

impl<K: Ord> Set<K> {
    /// The keys of this set and of another one, in ascending order.
    pub fn union<'a>(&'a self, other: &'a Self) -> Union<'a, K> {
        Merged::new(self, other)
    }

    /// The keys that both have, in ascending order.
    pub fn intersection<'a>(&'a self, other: &'a Self) -> Intersection<'a, K> {
        Merged::new(self, other)
    }

    /// The keys of this set that another one does not have, in ascending order.
    pub fn difference<'a>(&'a self, other: &'a Self) -> Difference<'a, K> {
        Merged::new(self, other)
    }

    /// The keys that one of both has, and not both, in ascending order.
    pub fn symmetric_difference<'a>(&'a self, other: &'a Self) -> SymmetricDifference<'a, K> {
        Merged::new(self, other)
    }

    /// Whether the sets have no key together.
    pub fn is_disjoint(&self, other: &Self) -> bool {
        self.intersection(other).next().is_none()
    }

    /// Whether another set has all keys of this one.
    pub fn is_subset(&self, other: &Self) -> bool {
        self.len() <= other.len() && self.difference(other).next().is_none()
    }

    /// Whether this set has all keys of another one.
    pub fn is_superset(&self, other: &Self) -> bool {
        other.is_subset(self)
    }
}

macro_rules! operators {
    ($($operator:ident $call:ident $keys:ident;)*) => {
        $(impl<K: MapKey + Clone> $operator for &Set<K> {
            type Output = Set<K>;

            fn $call(self, other: &Set<K>) -> Set<K> {
                self.$keys(other).cloned().collect()
            }
        })*
    };
}

operators! {
    BitOr bitor union;
    BitAnd bitand intersection;
    Sub sub difference;
    BitXor bitxor symmetric_difference;
}
