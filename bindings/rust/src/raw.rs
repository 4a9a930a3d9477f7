//! The functions of `bindings/c/art.h`, which says what they do and what their callers owe.
use std::mem::MaybeUninit;

/// A handle, of either kind.
#[derive(Clone)]
#[repr(C)]
pub struct RawMap {
    opaque: *mut u8,
}

impl RawMap {
    /// A handle that holds no map, for `new`.
    pub(crate) const EMPTY: RawMap = RawMap { opaque: std::ptr::null_mut() };
}

/// The value of an entry, as the library has it: bytes that it moves and does not read.
pub(crate) type Word = MaybeUninit<u64>;

/// An entry of a map by numbers, where it lies in the map.
#[repr(C)]
pub(crate) struct Pair {
    pub(crate) key: u64,
    pub(crate) value: Word,
}

/// An entry of a map by bytes: where its key lies, and its value.
#[derive(Clone, Copy)]
#[repr(C)]
pub(crate) struct BytesEntry {
    pub(crate) key: *const u8,
    pub(crate) key_len: usize,
    pub(crate) value: u64,
}

pub(crate) const NONE: u32 = 0;
pub(crate) const SOME: u32 = 1;
pub(crate) const NO_MEMORY: u32 = 2;
pub(crate) const KEY_TOO_LONG: u32 = 3;
pub(crate) const SMALL_BUFFER: u32 = 4;
pub(crate) const NOT_ASCENDING: u32 = 8;
pub(crate) const INSERT: u8 = 0;
pub(crate) const REMOVE: u8 = 1;

extern "C" {
    pub(crate) fn art_bytes_new(map: *mut RawMap) -> u32;
    pub(crate) fn art_bytes_free(map: *mut RawMap);
    pub(crate) fn art_bytes_len(map: *mut RawMap) -> usize;
    pub(crate) fn art_bytes_clear(map: *mut RawMap);
    pub(crate) fn art_bytes_insert(map: *mut RawMap, key: *const u8, len: usize, value: u64, before: *mut u64) -> u32;
    pub(crate) fn art_bytes_get(map: *mut RawMap, key: *const u8, len: usize, value: *mut u64) -> u32;
    pub(crate) fn art_bytes_remove(map: *mut RawMap, key: *const u8, len: usize, value: *mut u64) -> u32;
    pub(crate) fn art_bytes_next_many(
        map: *mut RawMap,
        prefix: *const u8,
        prefix_len: usize,
        from: *const u8,
        len: usize,
        inclusive: bool,
        keys: *mut u8,
        capacity: usize,
        ends: *mut usize,
        ends_len: usize,
        values: *mut u64,
        values_len: usize,
        count: *mut usize,
        key_len: *mut usize,
    ) -> u32;
    pub(crate) fn art_bytes_previous_many(
        map: *mut RawMap,
        prefix: *const u8,
        prefix_len: usize,
        from: *const u8,
        len: usize,
        inclusive: bool,
        keys: *mut u8,
        capacity: usize,
        ends: *mut usize,
        ends_len: usize,
        values: *mut u64,
        values_len: usize,
        count: *mut usize,
        key_len: *mut usize,
    ) -> u32;
    pub(crate) fn art_bytes_page(
        map: *mut RawMap,
        prefix: *const u8,
        prefix_len: usize,
        from: *const u8,
        len: usize,
        inclusive: bool,
        entries: *mut BytesEntry,
        room: usize,
    ) -> usize;
    pub(crate) fn art_bytes_insert_many(
        map: *mut RawMap,
        keys: *const u8,
        keys_len: usize,
        ends: *const usize,
        ends_len: usize,
        values: *const u64,
        values_len: usize,
        done: *mut usize,
    ) -> u32;
    pub(crate) fn art_bytes_load(
        map: *mut RawMap,
        keys: *const u8,
        keys_len: usize,
        ends: *const usize,
        ends_len: usize,
        values: *const u64,
        values_len: usize,
    ) -> u32;
    pub(crate) fn art_bytes_first(
        map: *mut RawMap,
        key_out: *mut u8,
        capacity: usize,
        key_len: *mut usize,
        value: *mut u64,
    ) -> u32;
    pub(crate) fn art_bytes_last(
        map: *mut RawMap,
        key_out: *mut u8,
        capacity: usize,
        key_len: *mut usize,
        value: *mut u64,
    ) -> u32;
    pub(crate) fn art_bytes_pop_first(
        map: *mut RawMap,
        key_out: *mut u8,
        capacity: usize,
        key_len: *mut usize,
        value: *mut u64,
    ) -> u32;
    pub(crate) fn art_bytes_pop_last(
        map: *mut RawMap,
        key_out: *mut u8,
        capacity: usize,
        key_len: *mut usize,
        value: *mut u64,
    ) -> u32;
    pub(crate) fn art_bytes_count_prefix(map: *mut RawMap, prefix: *const u8, len: usize) -> usize;

    pub(crate) fn art_u64_new(map: *mut RawMap) -> u32;
    pub(crate) fn art_u64_free(map: *mut RawMap);
    pub(crate) fn art_u64_len(map: *mut RawMap) -> usize;
    pub(crate) fn art_u64_clear(map: *mut RawMap);
    pub(crate) fn art_u64_insert(map: *mut RawMap, key: u64, value: Word, before: *mut u64) -> u32;
    pub(crate) fn art_u64_get(map: *mut RawMap, key: u64, value: *mut u64) -> u32;
    pub(crate) fn art_u64_remove(map: *mut RawMap, key: u64, value: *mut u64) -> u32;
    pub(crate) fn art_u64_first(map: *mut RawMap, key: *mut u64, value: *mut u64) -> u32;
    pub(crate) fn art_u64_last(map: *mut RawMap, key: *mut u64, value: *mut u64) -> u32;
    pub(crate) fn art_u64_pop_first(map: *mut RawMap, key: *mut u64, value: *mut u64) -> u32;
    pub(crate) fn art_u64_pop_last(map: *mut RawMap, key: *mut u64, value: *mut u64) -> u32;
    pub(crate) fn art_u64_page(map: *mut RawMap, from: u64, inclusive: bool, entries: *mut *mut Pair) -> usize;
    pub(crate) fn art_u64_next_many(
        map: *mut RawMap,
        from: u64,
        inclusive: bool,
        keys: *mut u64,
        keys_len: usize,
        values: *mut u64,
        values_len: usize,
    ) -> usize;
    pub(crate) fn art_u64_previous_many(
        map: *mut RawMap,
        from: u64,
        inclusive: bool,
        keys: *mut u64,
        keys_len: usize,
        values: *mut u64,
        values_len: usize,
    ) -> usize;
    pub(crate) fn art_u64_insert_many(
        map: *mut RawMap,
        keys: *const u64,
        keys_len: usize,
        values: *const u64,
        values_len: usize,
        done: *mut usize,
    ) -> u32;
    pub(crate) fn art_u64_load(
        map: *mut RawMap,
        keys: *const u64,
        keys_len: usize,
        values: *const u64,
        values_len: usize,
    ) -> u32;

    pub(crate) fn art_routes_new(map: *mut RawMap) -> u32;
    pub(crate) fn art_routes_free(map: *mut RawMap);
    pub(crate) fn art_routes_len(map: *mut RawMap) -> usize;
    pub(crate) fn art_routes_clear(map: *mut RawMap);
    pub(crate) fn art_routes_reserve(map: *mut RawMap, additional: usize) -> u32;
    pub(crate) fn art_routes_compact(map: *mut RawMap) -> u32;
    pub(crate) fn art_routes_insert(
        map: *mut RawMap,
        address: *const u8,
        width: usize,
        length: u8,
        value: u64,
        before: *mut u64,
    ) -> u32;
    pub(crate) fn art_routes_get(
        map: *mut RawMap,
        address: *const u8,
        width: usize,
        length: u8,
        value: *mut u64,
    ) -> u32;
    pub(crate) fn art_routes_remove(
        map: *mut RawMap,
        address: *const u8,
        width: usize,
        length: u8,
        value: *mut u64,
    ) -> u32;
    pub(crate) fn art_routes_remove_covered(
        map: *mut RawMap,
        address: *const u8,
        width: usize,
        length: u8,
        count: *mut usize,
    ) -> u32;
    pub(crate) fn art_routes_aggregate(map: *mut RawMap) -> u32;
    pub(crate) fn art_routes_parent(
        map: *mut RawMap,
        address: *const u8,
        width: usize,
        length: u8,
        parent_length: *mut u8,
        value: *mut u64,
    ) -> u32;
    pub(crate) fn art_routes_next(
        map: *mut RawMap,
        from: *const u8,
        from_width: usize,
        from_length: u8,
        inclusive: bool,
        address: *mut u8,
        capacity: usize,
        width: *mut usize,
        length: *mut u8,
        value: *mut u64,
    ) -> u32;
    pub(crate) fn art_routes_previous(
        map: *mut RawMap,
        to: *const u8,
        to_width: usize,
        to_length: u8,
        inclusive: bool,
        address: *mut u8,
        capacity: usize,
        width: *mut usize,
        length: *mut u8,
        value: *mut u64,
    ) -> u32;
    pub(crate) fn art_routes_available_many(
        map: *mut RawMap,
        address: *const u8,
        width: usize,
        length: u8,
        part_length: u8,
        after: *const u8,
        after_width: usize,
        addresses: *mut u8,
        capacity: usize,
        count: *mut usize,
    ) -> u32;
    pub(crate) fn art_routes_next_difference(
        map: *mut RawMap,
        new_map: *mut RawMap,
        from: *const u8,
        from_width: usize,
        from_length: u8,
        inclusive: bool,
        address: *mut u8,
        capacity: usize,
        width: *mut usize,
        length: *mut u8,
        change: *mut u8,
        before: *mut u64,
        after: *mut u64,
    ) -> u32;
    pub(crate) fn art_routes_covering(
        map: *mut RawMap,
        address: *const u8,
        width: usize,
        length: u8,
        lengths: *mut u8,
        lengths_len: usize,
        values: *mut u64,
        values_len: usize,
        count: *mut usize,
    ) -> u32;
}
