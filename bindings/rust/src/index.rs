//! What the library has of a map: words by the encodings of keys, or small entries themselves.
use crate::key::{Calls, Find, Many};
use crate::lent::{self, entries_after, Room, MOST_FETCHED};
use crate::map_key::Encoding;
use crate::number_walk::NumberWalk;
use crate::pairs::{Layout, PairPlace};
use crate::raw::{self, RawMap, Word};
use crate::refusal::{found, is_some, Refusal};
use std::ops::Bound;

/// Words of slots by the encodings of keys, or entries.
pub(crate) enum Index {
    /// None yet.
    Empty,
    /// Words by numbers.
    Numbers(RawMap),
    /// Entries by numbers.
    Pairs(RawMap, Layout),
    /// Words by byte strings.
    Bytes(RawMap),
}

/// Where an entry is.
#[derive(Clone, Copy)]
pub(crate) enum Place {
    /// In the slot of this word.
    Slot(u64),
    /// In the library.
    Pair(PairPlace),
}

// SAFETY: as for `WordMap`. What entries in the library need is said where they are lent.
unsafe impl Send for Index {}
unsafe impl Sync for Index {}

// Of a type whose keys break what `MapKey` asks.
#[cold]
pub(crate) fn mixed() -> ! {
    panic!("the encodings of a type's keys are all numbers, or all bytes")
}

// SAFETY of each call: the handle holds a map until `drop`. A call that changes the map borrows it mutably, those that
// only look have a handle of their own, and no call of the library calls back.
impl Index {
    fn of_numbers() -> Result<RawMap, Refusal> {
        let mut raw = RawMap::EMPTY;
        found(unsafe { u64::make(&mut raw) })?;
        Ok(raw)
    }

    fn of_bytes() -> Result<RawMap, Refusal> {
        let mut raw = RawMap::EMPTY;
        found(unsafe { <Vec<u8> as Calls>::make(&mut raw) })?;
        Ok(raw)
    }

    /// Where the entry of a key is.
    #[inline]
    pub(crate) fn get(&self, key: Encoding<'_>) -> Option<Place> {
        match (self, key) {
            (Index::Pairs(map, layout), Encoding::Number(key)) => {
                let pair = lent::pair(map, key)?;
                Some(Place::Pair(PairPlace { pair, layout: *layout }))
            }
            (Index::Numbers(map), Encoding::Number(key)) => {
                unsafe { u64::get(&mut map.clone(), &key) }.map(Place::Slot)
            }
            (Index::Bytes(map), Encoding::Bytes(key)) => {
                unsafe { <Vec<u8> as Calls>::get(&mut map.clone(), key) }.map(Place::Slot)
            }
            _ => None,
        }
    }

    /// Sets the word of a key, and returns the one before.
    #[inline]
    pub(crate) fn insert(&mut self, key: Encoding<'_>, word: u64) -> Result<Option<u64>, Refusal> {
        if let Index::Empty = self {
            *self = match key {
                Encoding::Number(_) => Index::Numbers(Self::of_numbers()?),
                Encoding::Bytes(_) => Index::Bytes(Self::of_bytes()?),
            };
        }
        let mut before = 0;
        let status = match (self, key) {
            (Index::Numbers(map), Encoding::Number(key)) => unsafe { u64::insert(map, &key, word, &mut before) },
            (Index::Bytes(map), Encoding::Bytes(key)) => unsafe {
                <Vec<u8> as Calls>::insert(map, key, word, &mut before)
            },
            _ => mixed(),
        };
        Ok(found(status)?.then_some(before))
    }

    /// Puts an entry in, and returns the word of the one before.
    #[inline]
    pub(crate) fn insert_pair(&mut self, key: u64, word: Word, layout: Layout) -> Result<Option<Word>, Refusal> {
        if let Index::Empty = self {
            *self = Index::Pairs(Self::of_numbers()?, layout);
        }
        let Index::Pairs(map, _) = self else { mixed() };
        let mut before = Word::uninit();
        let status = unsafe { raw::art_u64_insert(map, key, word, before.as_mut_ptr()) };
        Ok(found(status)?.then_some(before))
    }

    /// Removes a key, and returns its word.
    #[inline]
    pub(crate) fn remove(&mut self, key: Encoding<'_>) -> Option<u64> {
        match (self, key) {
            (Index::Numbers(map), Encoding::Number(key)) => unsafe { u64::remove(map, &key) },
            (Index::Bytes(map), Encoding::Bytes(key)) => unsafe { <Vec<u8> as Calls>::remove(map, key) },
            _ => None,
        }
    }

    /// Removes an entry, and returns how it was and its word.
    #[inline]
    pub(crate) fn remove_pair(&mut self, key: u64) -> Option<(Layout, Word)> {
        let Index::Pairs(map, layout) = self else { return None };
        let mut word = Word::uninit();
        let removed = unsafe { raw::art_u64_remove(map, key, word.as_mut_ptr()) };
        is_some(removed).then_some((*layout, word))
    }

    /// Removes the first or the last key, and returns its word.
    pub(crate) fn pop(&mut self, which: Find) -> Option<u64> {
        match self {
            Index::Numbers(map) => unsafe { u64::find(map, which) }.map(|(_, word)| word),
            Index::Bytes(map) => unsafe { <Vec<u8> as Calls>::find(map, which) }.map(|(_, word)| word),
            Index::Empty | Index::Pairs(..) => None,
        }
    }

    /// Removes the first or the last entry, and returns how it was, its number and its word.
    pub(crate) fn pop_pair(&mut self, which: Find) -> Option<(Layout, u64, Word)> {
        let Index::Pairs(map, layout) = self else { return None };
        let (mut key, mut word) = (0, Word::uninit());
        let popped = match which {
            Find::PopFirst => unsafe { raw::art_u64_pop_first(map, &mut key, word.as_mut_ptr()) },
            _ => unsafe { raw::art_u64_pop_last(map, &mut key, word.as_mut_ptr()) },
        };
        is_some(popped).then_some((*layout, key, word))
    }

    /// Removes the first or the last key, and returns the word of its slot, if it has one.
    pub(crate) fn drop_end(&mut self, which: Find) -> Option<u64> {
        self.pop_pair(which);
        self.pop(which)
    }

    pub(crate) fn clear(&mut self) {
        match self {
            Index::Empty => (),
            Index::Numbers(map) | Index::Pairs(map, _) => unsafe { u64::clear(map) },
            Index::Bytes(map) => unsafe { <Vec<u8> as Calls>::clear(map) },
        }
    }

    /// How many keys of bytes begin with a prefix.
    pub(crate) fn count_prefix(&self, prefix: &[u8]) -> usize {
        let Index::Bytes(map) = self else { return 0 };
        unsafe { raw::art_bytes_count_prefix(&mut map.clone(), prefix.as_ptr(), prefix.len()) }
    }

    pub(crate) fn len(&self) -> usize {
        match self {
            Index::Empty => 0,
            Index::Numbers(map) | Index::Pairs(map, _) => unsafe { u64::len(&mut map.clone()) },
            Index::Bytes(map) => unsafe { <Vec<u8> as Calls>::len(&mut map.clone()) },
        }
    }

    /// The keys of the words that a closure picks, in order, with words that count from 0.
    pub(crate) fn picked(&self, mut picks: impl FnMut(u64) -> bool) -> Loader {
        let mut keys = Loader::default();
        match self {
            Index::Empty | Index::Pairs(..) => (),
            Index::Numbers(map) => {
                let mut walk = NumberWalk::new(Bound::Unbounded, Bound::Unbounded);
                while let Some(pair) = walk.first().or_else(|| walk.next_lent(map)) {
                    // SAFETY: a walk gives pairs that are there, and the words of slots are numbers.
                    let (number, word) = unsafe { ((*pair.as_ptr()).key, (*pair.as_ptr()).value.assume_init()) };
                    if picks(word) {
                        keys.push(Encoding::Number(number));
                    }
                }
            }
            Index::Bytes(map) => {
                let (mut room, mut from) = (Room::new(), None);
                loop {
                    let entries = entries_after(map, from, &mut room, MOST_FETCHED);
                    let Some(last) = entries.last() else { break };
                    // SAFETY: the map does not change.
                    from = Some((unsafe { last.key() }, false));
                    for entry in entries.iter().filter(|entry| picks(entry.value)) {
                        keys.push(Encoding::Bytes(unsafe { entry.key() }));
                    }
                }
            }
        }
        keys
    }
}

impl Drop for Index {
    fn drop(&mut self) {
        match self {
            Index::Empty => (),
            Index::Numbers(map) | Index::Pairs(map, _) => unsafe { u64::free(map) },
            Index::Bytes(map) => unsafe { <Vec<u8> as Calls>::free(map) },
        }
    }
}

/// Keys for one call, with words that count from 0, or entries.
#[derive(Default)]
pub(crate) struct Loader {
    numbers: Many<u64>,
    bytes: Many<u8>,
    count: u64,
    layout: Option<Layout>,
}

impl Loader {
    /// Appends a key.
    #[inline]
    pub(crate) fn push(&mut self, key: Encoding<'_>) {
        match key {
            Encoding::Number(key) => u64::push(&mut self.numbers, &key, self.count),
            Encoding::Bytes(key) => <Vec<u8> as Calls>::push(&mut self.bytes, key, self.count),
        }
        self.count += 1;
    }

    /// Appends an entry.
    #[inline]
    pub(crate) fn push_pair(&mut self, key: u64, word: Word, layout: Layout) {
        self.numbers.push_pair(key, word);
        self.layout = Some(layout);
    }

    /// The index of these, whose keys have to ascend.
    pub(crate) fn load(&self) -> Result<Index, Refusal> {
        let (mut index, status);
        match (self.numbers.is_empty(), self.bytes.is_empty()) {
            (true, true) => return Ok(Index::Empty),
            (false, true) => {
                if self.layout.is_some() && self.count > 0 {
                    mixed();
                }
                let map = Index::of_numbers()?;
                index = match self.layout {
                    Some(layout) => Index::Pairs(map, layout),
                    None => Index::Numbers(map),
                };
                let (Index::Numbers(map) | Index::Pairs(map, _)) = &mut index else { mixed() };
                status = unsafe { u64::load(map, &self.numbers) };
            }
            (true, false) => {
                index = Index::Bytes(Index::of_bytes()?);
                let Index::Bytes(map) = &mut index else { mixed() };
                status = unsafe { <Vec<u8> as Calls>::load(map, &self.bytes) };
            }
            (false, false) => mixed(),
        }
        found(status)?;
        Ok(index)
    }
}
