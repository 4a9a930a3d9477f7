//! Entries that the library lends, or writes out, many by one call.
use crate::number_walk::Run;
use crate::raw::{self, BytesEntry, Pair, RawMap};
use std::mem::MaybeUninit;
use std::ptr::NonNull;
use std::{ptr, slice};

/// How many entries are fetched at once.
pub(crate) const MOST_FETCHED: usize = 128;

/// How many bytes their keys have, unless one alone has more.
const KEY_BYTES: usize = 4096;

// SAFETY of each call: the handle holds a map, as an `Index` says, and this call has a copy of it.

/// The entries from a key on, to the end of their page. None if no entry follows.
pub(crate) fn page(map: &RawMap, from: u64) -> Run {
    let mut entries = ptr::null_mut();
    unsafe {
        let count = raw::art_u64_page(&mut map.clone(), from, true, &mut entries);
        Run::new(entries, count)
    }
}

/// The entry of a key.
#[inline]
pub(crate) fn pair(map: &RawMap, key: u64) -> Option<NonNull<Pair>> {
    let mut entries = ptr::null_mut();
    unsafe {
        let count = raw::art_u64_page(&mut map.clone(), key, true, &mut entries);
        (count > 0 && (*entries).key == key).then(|| NonNull::new_unchecked(entries))
    }
}

/// The last entries up to a key: some of those of one page. None if no entry is before.
pub(crate) fn page_before(map: &RawMap, until: u64) -> Run {
    const MOST: usize = 32;
    let (mut keys, mut values) = ([0; MOST], Out::<u64, MOST>::new());
    let count = unsafe {
        raw::art_u64_previous_many(&mut map.clone(), until, true, keys.as_mut_ptr(), MOST, values.place(), MOST)
    };
    let Some((mut from, last)) = count.checked_sub(1).map(|first| (keys[first], keys[0])) else {
        return Run::EMPTY;
    };
    loop {
        let run = page(map, from);
        match run.last_key() {
            Some(end) if end < last => from = end + 1,
            _ => return run.within(from, last),
        }
    }
}

/// Asks for memory that is looked at soon.
#[inline]
pub(crate) fn warm<T>(place: *const T) {
    #[cfg(target_arch = "x86_64")]
    // SAFETY: a hint, of any address.
    unsafe {
        use std::arch::x86_64::{_mm_prefetch, _MM_HINT_T0};
        _mm_prefetch::<_MM_HINT_T0>(place.cast());
    }
}

/// Items that a call of the library writes.
pub(crate) struct Out<T, const N: usize>([MaybeUninit<T>; N]);

impl<T, const N: usize> Out<T, N> {
    #[inline]
    pub(crate) fn new() -> Self {
        Out([const { MaybeUninit::uninit() }; N])
    }

    #[inline]
    fn place(&mut self) -> *mut T {
        self.0.as_mut_ptr().cast()
    }

    /// The first of them. SAFETY: so many were written.
    #[inline]
    unsafe fn written(&self, count: usize) -> &[T] {
        slice::from_raw_parts(self.0[..count].as_ptr().cast(), count)
    }
}

/// Room for the entries of a call.
pub(crate) type Room = Out<BytesEntry, MOST_FETCHED>;

// SAFETY: its key is an address alone. Who reads what is there says so.
unsafe impl Send for BytesEntry {}
unsafe impl Sync for BytesEntry {}

impl BytesEntry {
    /// The key. SAFETY: the map has not changed since it was lent, and does not for so long.
    pub(crate) unsafe fn key<'a>(&self) -> &'a [u8] {
        // (Of no bytes the address may be any.)
        if self.key_len == 0 {
            return &[];
        }
        slice::from_raw_parts(self.key, self.key_len)
    }
}

/// The next entries after a key, from it on where that is included, or from the first one on: `most`, or as many as there are.
pub(crate) fn entries_after<'a>(
    map: &RawMap,
    from: Option<(&[u8], bool)>,
    room: &'a mut Room,
    most: usize,
) -> &'a [BytesEntry] {
    let (from, inclusive) = from.unwrap_or((&[], true));
    let (no_prefix, most) = ([].as_ptr(), most.min(MOST_FETCHED));
    #[rustfmt::skip]
    let count = unsafe {
        raw::art_bytes_page(&mut map.clone(), no_prefix, 0, from.as_ptr(), from.len(), inclusive, room.place(), most)
    };
    // SAFETY: so many are written as it returns.
    unsafe { room.written(count) }
}

/// Words that were fetched, the last one first, and their keys, one behind another.
pub(crate) struct Batch<'a> {
    keys: &'a [u8],
    ends: &'a [usize],
    pub(crate) words: &'a [u64],
}

impl<'a> Batch<'a> {
    pub(crate) fn key(&self, at: usize) -> &'a [u8] {
        let begin = if at == 0 { 0 } else { self.ends[at - 1] };
        &self.keys[begin..self.ends[at]]
    }
}

/// Reads the last words before a key, from it down where that is included, or from the last one down: at least one if there
/// are any, and `most` at most.
pub(crate) fn with_entries_before<T>(
    map: &RawMap,
    until: Option<(&[u8], bool)>,
    most: usize,
    read: impl FnOnce(Batch<'_>) -> T,
) -> T {
    let most = most.min(MOST_FETCHED);
    let (mut ends, mut words) = (Out::<usize, MOST_FETCHED>::new(), Out::<u64, MOST_FETCHED>::new());
    let (mut few, mut many) = (Out::<u8, KEY_BYTES>::new(), Vec::new());
    let (mut keys, mut room) = (few.place(), KEY_BYTES);
    loop {
        let (no_prefix, mut count, mut key_len) = ([].as_ptr(), 0, 0);
        let map = &mut map.clone();
        let status = match until {
            #[rustfmt::skip]
            Some((until, inclusive)) => unsafe {
                raw::art_bytes_previous_many(
                    map, no_prefix, 0, until.as_ptr(), until.len(), inclusive, keys, room, ends.place(), most,
                    words.place(), most, &mut count, &mut key_len,
                )
            },
            // No byte string is behind all of them, to fetch from it down: so the last entry alone.
            None => unsafe {
                let status = raw::art_bytes_last(map, keys, room, &mut key_len, words.place());
                if status == raw::SOME {
                    ends.place().write(key_len);
                    count = 1;
                }
                status
            },
        };
        if status == raw::SMALL_BUFFER {
            many.resize(key_len, 0);
            (keys, room) = (many.as_mut_ptr(), key_len);
            continue;
        }
        // SAFETY: so many ends and words are written, and keys up to the last end.
        return unsafe {
            let (ends, words) = (ends.written(count), words.written(count));
            let keys = slice::from_raw_parts(keys, ends.last().map_or(0, |end| *end));
            read(Batch { keys, ends, words })
        };
    }
}
