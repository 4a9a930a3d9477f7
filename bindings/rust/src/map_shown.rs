//! How maps, their entries and their iterators are shown.
use crate::map::Map;
use crate::map_entry::{Entry, OccupiedEntry, VacantEntry};
use crate::map_iter::{
    ExtractIf, IntoIter, IntoKeys, IntoValues, Iter, IterMut, Keys, Range, RangeMut, Values, ValuesMut,
};
use std::fmt::{Debug, Formatter, Result};

/// Shown by what a closure makes of it.
macro_rules! shown {
    ($([$($generics:tt)*] $name:ty, |$this:ident, $out:ident| $shown:expr;)*) => {
        $(impl<$($generics)*> Debug for $name {
            fn fmt(&self, $out: &mut Formatter<'_>) -> Result {
                let $this = self;
                $shown
            }
        })*
    };
}

shown! {
    [K: Debug, V: Debug] Map<K, V>, |it, out| out.debug_map().entries(it).finish();
    [K: Debug, V: Debug] Range<'_, K, V>, |it, out| out.debug_list().entries(it.clone()).finish();
    [K: Debug, V: Debug] Iter<'_, K, V>, |it, out| it.entries().fmt(out);
    [K: Debug, V: Debug] RangeMut<'_, K, V>, |it, out| out.debug_list().entries(it.shown()).finish();
    [K: Debug, V: Debug] IterMut<'_, K, V>, |it, out| it.entries().fmt(out);
    [K: Debug, V] Keys<'_, K, V>, |it, out| out.debug_list().entries(it.clone()).finish();
    [K, V: Debug] Values<'_, K, V>, |it, out| out.debug_list().entries(it.clone()).finish();
    [K, V: Debug] ValuesMut<'_, K, V>, |it, out| {
        out.debug_list().entries(it.0.entries().shown().map(|(_, value)| value)).finish()
    };
    [K: Debug, V: Debug] IntoIter<K, V>, |it, out| it.shown().fmt(out);
    [K: Debug, V] IntoKeys<K, V>, |it, out| out.debug_list().entries(it.0.shown().map(|(key, _)| key)).finish();
    [K, V: Debug] IntoValues<K, V>, |it, out| {
        out.debug_list().entries(it.0.shown().map(|(_, value)| value)).finish()
    };
    [K, V, F] ExtractIf<'_, K, V, F>, |_it, out| out.debug_struct("ExtractIf").finish_non_exhaustive();
    [K: Debug, V: Debug] Entry<'_, K, V>, |it, out| match it {
        Entry::Vacant(entry) => out.debug_tuple("Entry").field(entry).finish(),
        Entry::Occupied(entry) => out.debug_tuple("Entry").field(entry).finish(),
    };
    [K: Debug, V] VacantEntry<'_, K, V>, |it, out| out.debug_tuple("VacantEntry").field(it.key()).finish();
    [K: Debug, V: Debug] OccupiedEntry<'_, K, V>, |it, out| {
        out.debug_struct("OccupiedEntry").field("key", it.key()).field("value", it.get()).finish()
    };
}
