use crate::key::{AsKey, Key};
use std::ops::{self, Bound, RangeBounds};

/// Bounds of keys, as `range` takes them: each range of Rust's, of what may stand for a key, and two `Bound`s.
///
/// The range without bounds needs no type, as it would by `RangeBounds`:
///
/// ```
/// let squares = verified_art::NumberMap::from([(2u64, 4), (3, 9)]);
/// assert_eq!(squares.range(..).count(), 2);
/// ```
pub trait KeyBounds<K: Key> {
    /// The first key, and whether it is within; and where the range ends.
    #[doc(hidden)]
    fn ends(self) -> ((K, bool), Bound<K>);
}

fn ends_of<K: Key, Q: AsKey<K>>(bounds: impl RangeBounds<Q>) -> ((K, bool), Bound<K>) {
    let start = match bounds.start_bound() {
        Bound::Included(key) => (key.as_key().to_owned(), true),
        Bound::Excluded(key) => (key.as_key().to_owned(), false),
        Bound::Unbounded => (K::default(), true),
    };
    (start, bounds.end_bound().map(|key| key.as_key().to_owned()))
}

impl<K: Key> KeyBounds<K> for ops::RangeFull {
    fn ends(self) -> ((K, bool), Bound<K>) {
        ((K::default(), true), Bound::Unbounded)
    }
}

macro_rules! bounds {
    ($($range:ty),*) => {
        $(impl<K: Key, Q: AsKey<K>> KeyBounds<K> for $range {
            fn ends(self) -> ((K, bool), Bound<K>) {
                ends_of(self)
            }
        })*
    };
}

bounds!(
    ops::Range<Q>,
    ops::RangeFrom<Q>,
    ops::RangeTo<Q>,
    ops::RangeInclusive<Q>,
    ops::RangeToInclusive<Q>,
    (Bound<Q>, Bound<Q>)
);
