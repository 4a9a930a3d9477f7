//! The keys and values of a map, each entry in a slot, whose number the library has as its word.
use crate::lent::warm;
use crate::refusal::Refusal;
use std::marker::PhantomData;
use std::mem;
use std::ptr::NonNull;

/// Entries in slots. A slot that an index has a word of is not used for another entry.
pub(crate) struct Slots<K, V> {
    slots: Vec<Slot<K, V>>,
    // INVARIANT: the first free slot, from which each leads to the next one. No index has a word of these.
    free: usize,
    // INVARIANT: how many have an entry.
    taken: usize,
}

#[derive(Clone)]
enum Slot<K, V> {
    Taken(K, V),
    Free(usize),
}

/// No slot.
const NONE: usize = usize::MAX;

impl<K, V> Slots<K, V> {
    pub(crate) const fn new() -> Self {
        Slots { slots: Vec::new(), free: NONE, taken: 0 }
    }

    /// How many entries there are.
    #[inline]
    pub(crate) fn len(&self) -> usize {
        self.taken
    }

    #[inline]
    pub(crate) fn get(&self, word: u64) -> Option<(&K, &V)> {
        match self.slots.get(word as usize) {
            Some(Slot::Taken(key, value)) => Some((key, value)),
            _ => None,
        }
    }

    #[inline]
    pub(crate) fn get_mut(&mut self, word: u64) -> Option<(&mut K, &mut V)> {
        match self.slots.get_mut(word as usize) {
            Some(Slot::Taken(key, value)) => Some((key, value)),
            _ => None,
        }
    }

    /// Asks for the memory of a slot, which is looked at soon.
    #[inline]
    pub(crate) fn warm(&self, word: u64) {
        warm(self.slots.as_ptr().wrapping_add(word as usize));
    }

    /// The word of the slot that the next entry takes, where memory for it is found.
    #[inline]
    pub(crate) fn vacant(&mut self) -> Result<u64, Refusal> {
        if self.free != NONE {
            return Ok(self.free as u64);
        }
        self.slots.try_reserve(1).map_err(|_| Refusal::OutOfMemory)?;
        Ok(self.slots.len() as u64)
    }

    /// Puts an entry into the vacant slot.
    #[inline]
    pub(crate) fn add(&mut self, key: K, value: V) {
        let entry = Slot::Taken(key, value);
        match self.slots.get_mut(self.free) {
            Some(slot) => {
                if let Slot::Free(next) = mem::replace(slot, entry) {
                    self.free = next;
                }
            }
            None => self.slots.push(entry),
        }
        self.taken += 1;
    }

    /// Takes an entry out. Its slot stays unused.
    #[inline]
    pub(crate) fn take(&mut self, word: u64) -> Option<(K, V)> {
        let slot = self.slots.get_mut(word as usize)?;
        match mem::replace(slot, Slot::Free(NONE)) {
            Slot::Taken(key, value) => {
                self.taken -= 1;
                Some((key, value))
            }
            free => {
                *slot = free;
                None
            }
        }
    }

    /// Frees a slot, of which no index has a word any more, and takes the entry out that is still there.
    #[inline]
    pub(crate) fn release(&mut self, word: u64) -> Option<(K, V)> {
        let entry = self.take(word);
        if let Some(slot) = self.slots.get_mut(word as usize) {
            *slot = Slot::Free(mem::replace(&mut self.free, word as usize));
        }
        entry
    }

    /// Puts an entry back that was taken out of this slot.
    pub(crate) fn put_back(&mut self, word: u64, key: K, value: V) {
        self.slots[word as usize] = Slot::Taken(key, value);
        self.taken += 1;
    }

    /// Appends an entry in the slot behind all others.
    pub(crate) fn push(&mut self, key: K, value: V) {
        self.slots.push(Slot::Taken(key, value));
        self.taken += 1;
    }

    /// The entries, to be changed for as long as these are borrowed.
    pub(crate) fn lent(&mut self) -> Lent<'_, K, V> {
        Lent { slots: NonNull::from(self.slots.as_mut_slice()), lent: PhantomData }
    }
}

/// Entries in the slots of these numbers, from 0 on.
impl<K, V> FromIterator<(K, V)> for Slots<K, V> {
    fn from_iter<I: IntoIterator<Item = (K, V)>>(entries: I) -> Self {
        let slots: Vec<_> = entries.into_iter().map(|(key, value)| Slot::Taken(key, value)).collect();
        let taken = slots.len();
        Slots { slots, free: NONE, taken }
    }
}

/// [`Slots`] that are borrowed mutably, by an iterator and what it gave.
pub(crate) struct Lent<'a, K, V> {
    slots: NonNull<[Slot<K, V>]>,
    lent: PhantomData<&'a mut Slot<K, V>>,
}

// SAFETY: as of a mutable reference.
unsafe impl<K: Send, V: Send> Send for Lent<'_, K, V> {}
unsafe impl<K: Sync, V: Sync> Sync for Lent<'_, K, V> {}

impl<'a, K, V> Lent<'a, K, V> {
    /// Asks for the memory of a slot, which is looked at soon.
    #[inline]
    pub(crate) fn warm(&self, word: u64) {
        warm(self.slots.as_ptr().cast::<Slot<K, V>>().wrapping_add(word as usize));
    }

    fn slot(&self, word: u64) -> Option<*mut Slot<K, V>> {
        // SAFETY: the slot is one of them.
        ((word as usize) < self.slots.len())
            .then(|| unsafe { self.slots.as_ptr().cast::<Slot<K, V>>().add(word as usize) })
    }

    /// An entry. SAFETY: nobody has it yet.
    #[inline]
    pub(crate) unsafe fn give(&self, word: u64) -> Option<(&'a K, &'a mut V)> {
        match &mut *self.slot(word)? {
            Slot::Taken(key, value) => Some((key, value)),
            Slot::Free(_) => None,
        }
    }

    /// The same, to look at. SAFETY: nobody has it yet.
    pub(crate) unsafe fn show(&self, word: u64) -> Option<(&K, &V)> {
        match &*self.slot(word)? {
            Slot::Taken(key, value) => Some((key, value)),
            Slot::Free(_) => None,
        }
    }
}
