//! Iterators of maps. None that gives values to be changed is `Clone`: it gives each once.
use crate::index::{Index, Place};
use crate::map::Map;
use crate::map_key::MapKey;
use crate::range::{gives_all, least_and_greatest};
use crate::slots::{Lent, Slots};
use crate::walk::Walk;
use std::iter::{self, FusedIterator};

/// An entry of a map that is borrowed for so long, whose index gave the place.
#[inline]
fn at<K, V>(slots: &Slots<K, V>, place: Place) -> Option<(&K, &V)> {
    match place {
        Place::Slot(word) => slots.get(word),
        // SAFETY: the map is borrowed, so it does not change.
        Place::Pair(pair) => Some(unsafe { pair.lent() }),
    }
}

/// The entries of a [`Map`] in a range, from either end.
pub struct Range<'a, K, V> {
    index: &'a Index,
    slots: &'a Slots<K, V>,
    walk: Walk,
}

impl<'a, K, V> Range<'a, K, V> {
    pub(crate) fn new(map: &'a Map<K, V>, walk: Walk) -> Self {
        Range { index: &map.index, slots: &map.slots, walk }
    }
}

impl<'a, K, V> Iterator for Range<'a, K, V> {
    type Item = (&'a K, &'a V);

    #[inline]
    fn next(&mut self) -> Option<Self::Item> {
        loop {
            let place = self.walk.next::<K, V>(self.index, |word| self.slots.warm(word))?;
            let entry = at(self.slots, place);
            if entry.is_some() {
                return entry;
            }
        }
    }

    fn last(mut self) -> Option<Self::Item> {
        self.next_back()
    }

    least_and_greatest!((&'a K, &'a V));
}

impl<K, V> DoubleEndedIterator for Range<'_, K, V> {
    #[inline]
    fn next_back(&mut self) -> Option<Self::Item> {
        loop {
            let place = self.walk.next_back::<K, V>(self.index, |word| self.slots.warm(word))?;
            let entry = at(self.slots, place);
            if entry.is_some() {
                return entry;
            }
        }
    }
}

impl<K, V> FusedIterator for Range<'_, K, V> {}

/// The entries of a [`Map`] in a range, from either end, with values that can be changed.
pub struct RangeMut<'a, K, V> {
    index: &'a Index,
    slots: Lent<'a, K, V>,
    walk: Walk,
}

impl<'a, K, V> RangeMut<'a, K, V> {
    pub(crate) fn new(map: &'a mut Map<K, V>, walk: Walk) -> Self {
        RangeMut { index: &map.index, slots: map.slots.lent(), walk }
    }

    /// Those that are left. The walk stays where it is.
    pub(crate) fn shown(&self) -> impl Iterator<Item = (&K, &V)> {
        let mut walk = self.walk.clone();
        let places = iter::from_fn(move || walk.next::<K, V>(self.index, |_| ()));
        // SAFETY: they are not given while this is borrowed.
        places.filter_map(|place| unsafe {
            match place {
                Place::Slot(word) => self.slots.show(word),
                Place::Pair(pair) => Some(pair.lent()),
            }
        })
    }

    // SAFETY: nobody has the entry yet.
    #[inline]
    unsafe fn give(&self, place: Place) -> Option<(&'a K, &'a mut V)> {
        match place {
            Place::Slot(word) => self.slots.give(word),
            Place::Pair(pair) => Some(pair.lent_mut()),
        }
    }
}

impl<'a, K, V> Iterator for RangeMut<'a, K, V> {
    type Item = (&'a K, &'a mut V);

    #[inline]
    fn next(&mut self) -> Option<Self::Item> {
        loop {
            let place = self.walk.next::<K, V>(self.index, |word| self.slots.warm(word))?;
            // SAFETY: a walk gives each place once, and no two entries have one slot.
            let entry = unsafe { self.give(place) };
            if entry.is_some() {
                return entry;
            }
        }
    }
}

impl<K, V> DoubleEndedIterator for RangeMut<'_, K, V> {
    #[inline]
    fn next_back(&mut self) -> Option<Self::Item> {
        loop {
            let place = self.walk.next_back::<K, V>(self.index, |word| self.slots.warm(word))?;
            // SAFETY: as above.
            let entry = unsafe { self.give(place) };
            if entry.is_some() {
                return entry;
            }
        }
    }
}

impl<K, V> FusedIterator for RangeMut<'_, K, V> {}

/// All entries of a map, with how many are left.
macro_rules! counted {
    ($(#[$doc:meta])* $name:ident of $range:ident, $map:ty => $item:ty) => {
        $(#[$doc])*
        pub struct $name<'a, K, V> {
            entries: $range<'a, K, V>,
            left: usize,
        }

        impl<'a, K, V> $name<'a, K, V> {
            pub(crate) fn new(map: $map) -> Self {
                let (left, walk) = (map.len(), Walk::all(&map.index));
                $name { entries: $range::new(map, walk), left }
            }

            pub(crate) fn entries(&self) -> &$range<'a, K, V> {
                &self.entries
            }
        }

        impl<'a, K, V> Iterator for $name<'a, K, V> {
            type Item = $item;

            #[inline]
            fn next(&mut self) -> Option<$item> {
                self.left = self.left.checked_sub(1)?;
                self.entries.next()
            }

            fn size_hint(&self) -> (usize, Option<usize>) {
                (self.left, Some(self.left))
            }

            fn last(mut self) -> Option<$item> {
                self.next_back()
            }

            least_and_greatest!($item);
        }

        impl<'a, K, V> DoubleEndedIterator for $name<'a, K, V> {
            #[inline]
            fn next_back(&mut self) -> Option<$item> {
                self.left = self.left.checked_sub(1)?;
                self.entries.next_back()
            }
        }

        impl<K, V> ExactSizeIterator for $name<'_, K, V> {}
        impl<K, V> FusedIterator for $name<'_, K, V> {}
    };
}

counted! {
    /// All entries of a [`Map`], from either end.
    Iter of Range, &'a Map<K, V> => (&'a K, &'a V)
}

counted! {
    /// All entries of a [`Map`], from either end, with values that can be changed.
    IterMut of RangeMut, &'a mut Map<K, V> => (&'a K, &'a mut V)
}

/// The keys of a [`Map`], from either end.
pub struct Keys<'a, K, V>(pub(crate) Iter<'a, K, V>);
gives_all!(['a, K, V] Keys<'a, K, V> => &'a K, |(key, _)| key, { least_and_greatest!(&'a K); });

/// The values of a [`Map`], from either end.
pub struct Values<'a, K, V>(pub(crate) Iter<'a, K, V>);
gives_all!(['a, K, V] Values<'a, K, V> => &'a V, |(_, value)| value);

/// The values of a [`Map`], from either end, to be changed.
pub struct ValuesMut<'a, K, V>(pub(crate) IterMut<'a, K, V>);
gives_all!(['a, K, V] ValuesMut<'a, K, V> => &'a mut V, |(_, value)| value);

/// The entries of a [`Map`] by value, from either end. Those that are not asked for are dropped.
pub struct IntoIter<K, V> {
    map: Map<K, V>,
    walk: Walk,
    left: usize,
}

impl<K, V> IntoIter<K, V> {
    pub(crate) fn new(map: Map<K, V>) -> Self {
        IntoIter { walk: Walk::all(&map.index), left: map.len(), map }
    }

    /// Those that are left. The walk stays where it is.
    pub(crate) fn shown(&self) -> Range<'_, K, V> {
        Range::new(&self.map, self.walk.clone())
    }

    #[inline]
    fn take(&mut self, place: Place) -> Option<(K, V)> {
        let entry = match place {
            Place::Slot(word) => self.map.slots.take(word),
            // SAFETY: the map does not change, and the walk gives each place once.
            Place::Pair(pair) => Some(unsafe { pair.taken() }),
        };
        self.left -= usize::from(entry.is_some());
        entry
    }
}

impl<K, V> Iterator for IntoIter<K, V> {
    type Item = (K, V);

    #[inline]
    fn next(&mut self) -> Option<(K, V)> {
        loop {
            let place = self.walk.next::<K, V>(&self.map.index, |word| self.map.slots.warm(word))?;
            let entry = self.take(place);
            if entry.is_some() {
                return entry;
            }
        }
    }

    fn size_hint(&self) -> (usize, Option<usize>) {
        (self.left, Some(self.left))
    }
}

impl<K, V> DoubleEndedIterator for IntoIter<K, V> {
    #[inline]
    fn next_back(&mut self) -> Option<(K, V)> {
        loop {
            let place = self.walk.next_back::<K, V>(&self.map.index, |word| self.map.slots.warm(word))?;
            let entry = self.take(place);
            if entry.is_some() {
                return entry;
            }
        }
    }
}

impl<K, V> ExactSizeIterator for IntoIter<K, V> {}
impl<K, V> FusedIterator for IntoIter<K, V> {}

/// The keys of a [`Map`] by value, from either end.
pub struct IntoKeys<K, V>(pub(crate) IntoIter<K, V>);
gives_all!([K, V] IntoKeys<K, V> => K, |(key, _)| key);

/// The values of a [`Map`] by value, from either end.
pub struct IntoValues<K, V>(pub(crate) IntoIter<K, V>);
gives_all!([K, V] IntoValues<K, V> => V, |(_, value)| value);

/// The entries of a [`Map`] that a closure picks, in a range: each is removed as it is given, and the others stay.
pub struct ExtractIf<'a, K, V, F> {
    pub(crate) map: &'a mut Map<K, V>,
    pub(crate) walk: Walk,
    pub(crate) picks: F,
}

/// Removes the next entry that a closure picks.
pub(crate) fn next_picked<K: MapKey, V>(
    map: &mut Map<K, V>,
    walk: &mut Walk,
    mut picks: impl FnMut(&K, &mut V) -> bool,
) -> Option<(K, V)> {
    loop {
        let place = walk.next::<K, V>(&map.index, |word| map.slots.warm(word))?;
        if map.at_mut(place).is_some_and(|(key, value)| picks(key, value)) {
            walk.renew();
            return map.remove_at(place);
        }
    }
}

impl<K: MapKey, V, F: FnMut(&K, &mut V) -> bool> Iterator for ExtractIf<'_, K, V, F> {
    type Item = (K, V);

    fn next(&mut self) -> Option<(K, V)> {
        next_picked(self.map, &mut self.walk, &mut self.picks)
    }

    fn size_hint(&self) -> (usize, Option<usize>) {
        (0, Some(self.map.len()))
    }
}

impl<K: MapKey, V, F: FnMut(&K, &mut V) -> bool> FusedIterator for ExtractIf<'_, K, V, F> {}

// By hand, since the derived ones ask the same of keys and values.
impl<K, V> Clone for Range<'_, K, V> {
    fn clone(&self) -> Self {
        Range { walk: self.walk.clone(), ..*self }
    }
}

impl<K, V> Clone for Iter<'_, K, V> {
    fn clone(&self) -> Self {
        Iter { entries: self.entries.clone(), ..*self }
    }
}

impl<K, V> Clone for Keys<'_, K, V> {
    fn clone(&self) -> Self {
        Keys(self.0.clone())
    }
}

impl<K, V> Clone for Values<'_, K, V> {
    fn clone(&self) -> Self {
        Values(self.0.clone())
    }
}
