//! Small entries, which lie in the library, in place of a slot.
//!
//! The library keeps the words that it is given, and reads none but to return it. So a word that is written where the library
//! lends it leaves the memory that an insert of its key would leave. `art.h` promises this to nobody: this crate alone relies on
//! it, and tests it.
use crate::raw::{Pair, Word};
use std::mem::{needs_drop, MaybeUninit};
use std::ptr::NonNull;

/// Where the key and the value of an entry lie in its pair.
#[derive(Clone, Copy, Debug, PartialEq, Eq)]
pub(crate) enum Layout {
    /// The key in its number, whose low bytes are its own, and the value in the word.
    Apart,
    /// Both in the word.
    Together,
}

#[repr(C)]
struct Both<K, V> {
    key: K,
    value: V,
}

/// Whether keys of a type are the low bytes of their numbers. Only this crate says so of one.
pub struct InPlace<K: ?Sized> {
    yes: bool,
    keys: std::marker::PhantomData<fn(&K)>,
}

impl<K: ?Sized> InPlace<K> {
    /// They are not, as far as is known.
    pub(crate) const NO: Self = InPlace { yes: false, keys: std::marker::PhantomData };

    /// They are. SAFETY: on a machine whose low bytes come first, the first bytes of the number of each key are those of
    /// the key.
    pub(crate) const unsafe fn yes() -> Self {
        InPlace { yes: cfg!(target_endian = "little"), keys: std::marker::PhantomData }
    }
}

/// Whether something of a type fits a word, and is not dropped.
const fn is_small<T>() -> bool {
    size_of::<T>() <= size_of::<Word>() && align_of::<T>() <= align_of::<Word>() && !needs_drop::<T>()
}

/// Whether entries of these types may lie in pairs at all.
pub(crate) const fn may_be_pairs<K, V>() -> bool {
    is_small::<K>() && is_small::<V>()
}

/// How entries of these types lie in pairs, by keys that are numbers.
pub(crate) const fn layout<K, V>(in_place: InPlace<K>) -> Option<Layout> {
    if in_place.yes && may_be_pairs::<K, V>() {
        Some(Layout::Apart)
    } else if is_small::<Both<K, V>>() {
        Some(Layout::Together)
    } else {
        None
    }
}

/// An entry in the library.
#[derive(Clone, Copy)]
pub(crate) struct PairPlace {
    // INVARIANT: the map that has this place has entries of this layout.
    pub(crate) pair: NonNull<Pair>,
    pub(crate) layout: Layout,
}

impl PairPlace {
    /// Its number. SAFETY: the entry is there.
    #[inline]
    pub(crate) unsafe fn number(self) -> u64 {
        (*self.pair.as_ptr()).key
    }

    /// Its word. SAFETY: the entry is there.
    #[inline]
    pub(crate) unsafe fn word(self) -> Word {
        (*self.pair.as_ptr()).value
    }

    /// Where its key and its value are. SAFETY: the entry is there, and has these types.
    #[inline]
    unsafe fn parts<K, V>(self) -> (*const K, *mut V) {
        debug_assert!(may_be_pairs::<K, V>());
        let pair = self.pair.as_ptr();
        let word = &raw mut (*pair).value;
        match self.layout {
            _ if !is_small::<Both<K, V>>() => ((&raw const (*pair).key).cast(), word.cast()),
            Layout::Apart => ((&raw const (*pair).key).cast(), word.cast()),
            Layout::Together => {
                let both = word.cast::<Both<K, V>>();
                (&raw const (*both).key, &raw mut (*both).value)
            }
        }
    }

    /// The entry, to look at. SAFETY: it is there, has these types, and is not changed for so long.
    #[inline]
    pub(crate) unsafe fn lent<'a, K, V>(self) -> (&'a K, &'a V) {
        let (key, value) = self.parts();
        (&*key, &*value)
    }

    /// The same, with a value that can be changed. SAFETY: and nobody else has it for so long.
    #[inline]
    pub(crate) unsafe fn lent_mut<'a, K, V>(self) -> (&'a K, &'a mut V) {
        let (key, value) = self.parts();
        (&*key, &mut *value)
    }

    /// Sets the key, which lies beside the value. SAFETY: the entry is there, has these types, and nobody else has it.
    pub(crate) unsafe fn set_key<K, V>(self, key: K) {
        debug_assert!(self.layout == Layout::Together);
        let both = (&raw mut (*self.pair.as_ptr()).value).cast::<Both<K, V>>();
        (*both).key = key;
    }

    /// A copy of the entry. SAFETY: it is there, has these types, and is not used as a value any more.
    #[inline]
    pub(crate) unsafe fn taken<K, V>(self) -> (K, V) {
        let (key, value) = self.parts::<K, V>();
        (key.read(), value.read())
    }
}

/// The word of an entry.
#[inline]
pub(crate) fn word_of<K, V>(layout: Layout, key: K, value: V) -> Word {
    let mut word = Word::zeroed();
    // SAFETY: what lies there fits, as there is such a layout for these types alone.
    unsafe {
        match layout {
            Layout::Apart => word.as_mut_ptr().cast::<V>().write(value),
            Layout::Together => word.as_mut_ptr().cast::<Both<K, V>>().write(Both { key, value }),
        }
    }
    word
}

/// The entry of a number and a word. SAFETY: an entry of these types had them.
#[inline]
pub(crate) unsafe fn entry_of<K, V>(layout: Layout, number: u64, word: Word) -> (K, V) {
    let mut pair = MaybeUninit::new(Pair { key: number, value: word });
    let place = PairPlace { pair: NonNull::new_unchecked(pair.as_mut_ptr()), layout };
    place.taken()
}
