/* Many entries that are set by one call: sorted here, and given to the library together. */
#ifndef MANY_H
#define MANY_H
#include "_entries.h"

/* Entries by their objects, as they were when the call began: nobody else changes these. */
typedef struct {
    size_t count;
    PyObject **keys, **values; /* NULL: another one has that reference now */
} Pairs;

static void let_go_pairs(Pairs *pairs) {
    for (size_t at = 0; at < pairs->count; at++) {
        Py_XDECREF(pairs->keys[at]);
        Py_XDECREF(pairs->values[at]);
    }
    PyMem_Free(pairs->keys);
    *pairs = (Pairs){0};
}

/* Has room for pairs. -1: there is no memory. */
static int reserve_pairs(Pairs *pairs, size_t count) {
    *pairs = (Pairs){0};
    if (count > SIZE_MAX / 4 / sizeof(PyObject *)) return refused(ART_NO_MEMORY);
    pairs->keys = PyMem_Malloc((2 * count + 1) * sizeof(PyObject *));
    if (!pairs->keys) return refused(ART_NO_MEMORY);
    pairs->values = pairs->keys + count;
    return 0;
}

static inline void add_pair(Pairs *pairs, PyObject *key, PyObject *value) {
    Py_INCREF(key);
    Py_INCREF(value);
    pairs->keys[pairs->count] = key;
    pairs->values[pairs->count++] = value;
}

/* ---- pairs of objects: 1, or 0 where these have to be set one after another, or -1 with an error set */

static int pairs_of_dict(PyObject *dict, Pairs *pairs) {
    size_t count = (size_t)PyDict_Size(dict);
    if (reserve_pairs(pairs, count) < 0) return -1;
    PyObject *key, *value;
    Py_ssize_t at = 0;
    while (pairs->count < count && PyDict_Next(dict, &at, &key, &value)) add_pair(pairs, key, value);
    return 1;
}

/* Those of an order; with a value, the keys and that value. */
static int pairs_of_order(const Order *order, PyObject *value, Pairs *pairs, size_t more) {
    if (reserve_pairs(pairs, (size_t)order->count + more) < 0) return -1;
    for (const Block *block = order->first; block; block = block->after)
        for (size_t at = 0; at < block->count; at++) add_pair(pairs, block->keys[at], value ? value : order->entries[block->places[at]].value);
    return 1;
}

/* The items of a list or a tuple: pairs, or where a value is given keys. */
static int pairs_of_items(PyObject *items, PyObject *value, Pairs *pairs) {
    bool is_list = PyList_CheckExact(items);
    size_t count = (size_t)(is_list ? PyList_Size(items) : PyTuple_Size(items));
    if (reserve_pairs(pairs, count) < 0) return -1;
    for (size_t at = 0; at < count; at++) {
        PyObject *item = is_list ? PyList_GetItem(items, (Py_ssize_t)at) : PyTuple_GetItem(items, (Py_ssize_t)at);
        if (value) {
            add_pair(pairs, item, value);
        } else if (PyTuple_CheckExact(item) && PyTuple_Size(item) == 2) {
            add_pair(pairs, PyTuple_GetItem(item, 0), PyTuple_GetItem(item, 1));
        } else {
            let_go_pairs(pairs);
            return 0;
        }
    }
    return 1;
}

static int pairs_of(PyObject *object, PyObject *value, Pairs *pairs) {
    *pairs = (Pairs){0};
    if (PyList_CheckExact(object) || PyTuple_CheckExact(object)) return pairs_of_items(object, value, pairs);
    return PyDict_CheckExact(object) && !value ? pairs_of_dict(object, pairs) : 0;
}

/* ---- sorting */

/* A key by where it stands among others; `head` is its number, or the first bytes in which they differ. */
typedef struct {
    uint64_t head;
    size_t index;
} Ranked;

typedef struct {
    const uint8_t *bytes;
    size_t len;
} Text;

/* Bytes that are no object's, in pieces that stay where they are. */
typedef struct Piece {
    struct Piece *before;
    size_t room, used;
    uint8_t bytes[];
} Piece;

/* Keys that are sorted, and all memory that this takes. */
typedef struct {
    bool by_number;
    size_t count;
    size_t common, len; /* how many bytes all texts begin with alike, and have in all */
    Ranked *ranked, *room;
    Text *texts; /* by the index; not by number */
    Piece *pieces;
    uint64_t *numbers, *places;
    uint8_t *bytes;
    size_t *ends;
} Sorted;

static void free_sorted(Sorted *sorted) {
    for (Piece *piece = sorted->pieces, *before; piece; piece = before) {
        before = piece->before;
        PyMem_Free(piece);
    }
    PyMem_Free(sorted->ranked);
    PyMem_Free(sorted->room);
    PyMem_Free(sorted->texts);
    PyMem_Free(sorted->numbers);
    PyMem_Free(sorted->places);
    PyMem_Free(sorted->bytes);
    PyMem_Free(sorted->ends);
}

/* Keeps some bytes. NULL: there is no memory. */
static const uint8_t *keep_bytes(Sorted *sorted, const uint8_t *bytes, size_t len) {
    Piece *piece = sorted->pieces;
    if (!piece || len > piece->room - piece->used) {
        size_t room = len < (1 << 16) ? 1 << 16 : len;
        if (room > SIZE_MAX - sizeof(Piece) || !(piece = PyMem_Malloc(sizeof(Piece) + room))) return NULL;
        *piece = (Piece){.before = sorted->pieces, .room = room};
        sorted->pieces = piece;
    }
    uint8_t *kept = piece->bytes + piece->used;
    memcpy(kept, bytes, len);
    piece->used += len;
    return kept;
}

/* Eight and four bytes as a number, the first one above: written so that a compiler reads them at once. */
static inline uint64_t eight_bytes(const uint8_t *bytes) {
    return (uint64_t)bytes[0] << 56 | (uint64_t)bytes[1] << 48 | (uint64_t)bytes[2] << 40 | (uint64_t)bytes[3] << 32 | (uint64_t)bytes[4] << 24 |
           (uint64_t)bytes[5] << 16 | (uint64_t)bytes[6] << 8 | bytes[7];
}

static inline uint64_t four_bytes(const uint8_t *bytes) {
    return (uint32_t)bytes[0] << 24 | (uint32_t)bytes[1] << 16 | (uint32_t)bytes[2] << 8 | bytes[3];
}

/* The first eight bytes, with zeros where there are fewer: by reads that may overlap. */
static inline uint64_t head_of(const uint8_t *bytes, size_t len) {
    if (len >= 8) return eight_bytes(bytes);
    if (len >= 4) return four_bytes(bytes) << 32 | four_bytes(bytes + len - 4) << (64 - 8 * len);
    if (len == 0) return 0;
    return (uint64_t)bytes[0] << 56 | (uint64_t)bytes[len / 2] << (56 - 8 * (len / 2)) | (uint64_t)bytes[len - 1] << (64 - 8 * len);
}

static inline int compare_ranked(const Text *texts, const Ranked *one, const Ranked *other) {
    if (one->head != other->head) return one->head < other->head ? -1 : 1;
    if (!texts) return 0;
    const Text *text = &texts[one->index], *its = &texts[other->index];
    size_t len = text->len < its->len ? text->len : its->len;
    int order = len ? memcmp(text->bytes, its->bytes, len) : 0;
    return order ? order : (text->len > its->len) - (text->len < its->len);
}

/* Sorts by merging, so that equal ones keep their order. */
static void merge_sort(const Text *texts, Ranked *ranked, Ranked *room, size_t count) {
    if (count <= 12) {
        for (size_t at = 1; at < count; at++) {
            Ranked moved = ranked[at];
            size_t to = at;
            for (; to > 0 && compare_ranked(texts, &ranked[to - 1], &moved) > 0; to--) ranked[to] = ranked[to - 1];
            ranked[to] = moved;
        }
        return;
    }
    size_t half = count / 2, low = 0, high = half, to = 0;
    merge_sort(texts, ranked, room, half);
    merge_sort(texts, ranked + half, room, count - half);
    memcpy(room, ranked, half * sizeof *ranked);
    while (low < half && high < count) ranked[to++] = compare_ranked(texts, &room[low], &ranked[high]) <= 0 ? room[low++] : ranked[high++];
    memcpy(&ranked[to], &room[low], (half - low) * sizeof *ranked);
}

/* Sorts by the highest digit in which heads differ, and then what has the same one. Equal ones keep their order. */
static void sort_by_digits(const Text *texts, Ranked *ranked, Ranked *room, size_t count) {
    enum { MOST_BITS = 10, FEW = 64 };
    uint64_t least = UINT64_MAX, most = 0;
    for (size_t at = 0; at < count; at++) {
        least = ranked[at].head < least ? ranked[at].head : least;
        most = ranked[at].head > most ? ranked[at].head : most;
    }
    if (count < FEW || least == most) {
        merge_sort(texts, ranked, room, count);
        return;
    }
    unsigned bits = 64 - (unsigned)__builtin_clzll(most - least), shift = bits > MOST_BITS ? bits - MOST_BITS : 0;
    uint32_t ends[(1 << MOST_BITS) + 1];
    size_t digits = (size_t)((most - least) >> shift) + 1;
    memset(ends, 0, (digits + 1) * sizeof *ends);
    for (size_t at = 0; at < count; at++) ends[((ranked[at].head - least) >> shift) + 1]++;
    for (size_t digit = 1; digit <= digits; digit++) ends[digit] += ends[digit - 1];
    for (size_t at = 0; at < count; at++) room[ends[(ranked[at].head - least) >> shift]++] = ranked[at];
    memcpy(ranked, room, count * sizeof *ranked);
    for (size_t digit = 0, begun = 0; digit < digits; begun = ends[digit++])
        if (ends[digit] - begun > 1) sort_by_digits(texts, &ranked[begun], &room[begun], ends[digit] - begun);
}

/* Sorts the keys; equal ones keep their order. */
static void sort(Sorted *sorted) {
    size_t count = sorted->count, at = 1;
    /* What all texts begin with alike says nothing. */
    for (size_t index = 0; sorted->texts && sorted->common > 0 && index < count; index++)
        sorted->ranked[index].head = head_of(sorted->texts[index].bytes + sorted->common, sorted->texts[index].len - sorted->common);
    while (at < count && compare_ranked(sorted->texts, &sorted->ranked[at - 1], &sorted->ranked[at]) <= 0) at++;
    if (at == count) return;
    if (count > UINT32_MAX) {
        merge_sort(sorted->texts, sorted->ranked, sorted->room, count);
    } else {
        sort_by_digits(sorted->texts, sorted->ranked, sorted->room, count);
    }
}

/* Leaves one of equal keys: `room` then has its first index, and in `head` its last one. */
static void join_equal(Sorted *sorted) {
    size_t count = 0;
    for (size_t at = 0; at < sorted->count; at++) {
        bool is_new = at == 0 || compare_ranked(sorted->texts, &sorted->ranked[at - 1], &sorted->ranked[at]) != 0;
        if (is_new) sorted->room[count++].index = sorted->ranked[at].index;
        sorted->room[count - 1].head = sorted->ranked[at].index;
    }
    sorted->count = count;
}

/* ---- reading */

/* Keeps a text, its head, and how many bytes it has in common with those before. */
static inline void rank_text(Sorted *sorted, Text text, size_t index) {
    const Text *first = sorted->texts;
    size_t most = index == 0 || text.len < sorted->common ? text.len : sorted->common, common = 0;
    sorted->texts[index] = text;
    sorted->ranked[index] = (Ranked){head_of(text.bytes, text.len), index};
    while (common < most && text.bytes[common] == first->bytes[common]) common++;
    sorted->common = common;
    sorted->len += text.len;
}

/* Reads the key at an index, and keeps what it holds. -1: it is refused; no error is left set. */
static int rank_key(Sorted *sorted, const Form *form, PyObject *key, size_t index) {
    Sought sought;
    int done = read_key(form, key, false, &sought);
    if (done == 0) {
        if (sought.where != WITHIN) done = -1;
        sorted->ranked[index] = (Ranked){sought.number, index};
        if (sorted->texts) {
            bool is_own = !sought.owner && !sought.written;
            const uint8_t *bytes = is_own ? sought.bytes : keep_bytes(sorted, sought.bytes, sought.len);
            if (!bytes) done = -1;
            if (bytes) rank_text(sorted, (Text){bytes, sought.len}, index);
        }
        let_go(&sought);
    }
    if (done < 0) PyErr_Clear();
    return done;
}

/* Reads the keys of pairs of a form, up to the first one that is refused: how many. What is not plain becomes so. */
static size_t rank_keys(Sorted *sorted, const Form *form, Pairs *pairs) {
    size_t count = pairs->count;
    sorted->by_number = is_by_number(form->letters[0]);
    sorted->ranked = PyMem_Malloc((count + 1) * sizeof(Ranked));
    sorted->room = PyMem_Malloc((count + 1) * sizeof(Ranked));
    sorted->texts = sorted->by_number ? NULL : PyMem_Malloc((count + 1) * sizeof(Text));
    if (!sorted->ranked || !sorted->room || (!sorted->texts && !sorted->by_number)) return 0;
    for (size_t at = 0; at < count; at++) {
        PyObject *key = pairs->keys[at];
        if (form->letters[0] == STR_KEYS && PyUnicode_CheckExact(key)) {
            Py_ssize_t len;
            const char *bytes = PyUnicode_AsUTF8AndSize(key, &len);
            if (bytes) {
                rank_text(sorted, (Text){(const uint8_t *)bytes, (size_t)len}, at);
                continue;
            }
            PyErr_Clear();
        }
        if (!is_plain(key)) {
            Form its;
            PyObject *plain = form_of(key, &its) == 0 && strcmp(its.letters, form->letters) == 0 ? plain_key(key) : NULL;
            PyErr_Clear();
            if (!plain) return sorted->count = at;
            pairs->keys[at] = plain;
            Py_DECREF(key);
        }
        if (rank_key(sorted, form, pairs->keys[at], at) < 0) return sorted->count = at;
    }
    return sorted->count = count;
}

/* ---- the map anew */

/* Makes the library's map of sorted keys, each of which has its place by its order. */
static uint32_t load_map(Sorted *sorted, art_bytes_map *by_bytes, art_u64_map *by_number) {
    size_t count = sorted->count, end = 0;
    sorted->places = PyMem_Malloc((count + 1) * sizeof(uint64_t));
    if (!sorted->places) return ART_NO_MEMORY;
    for (size_t at = 0; at < count; at++) sorted->places[at] = at;
    if (sorted->by_number) {
        if (!(sorted->numbers = PyMem_Malloc((count + 1) * sizeof(uint64_t)))) return ART_NO_MEMORY;
        /* `ranked` has been sorted by now, and `room` names its own indexes. */
        size_t at = 0;
        for (size_t to = 0; to < count; to++) {
            while (sorted->ranked[at].index != sorted->room[to].index) at++;
            sorted->numbers[to] = sorted->ranked[at].head;
        }
        uint32_t status = art_u64_new(by_number);
        return status == ART_NONE ? art_u64_load(by_number, sorted->numbers, count, sorted->places, count) : status;
    }
    sorted->bytes = PyMem_Malloc(sorted->len + 1);
    sorted->ends = PyMem_Malloc((count + 1) * sizeof(size_t));
    if (!sorted->bytes || !sorted->ends) return ART_NO_MEMORY;
    for (size_t at = 0; at < count; at++) {
        /* What comes later lies anywhere. */
        if (at + 16 < count) __builtin_prefetch(&sorted->texts[sorted->room[at + 16].index]);
        if (at + 8 < count) __builtin_prefetch(sorted->texts[sorted->room[at + 8].index].bytes);
        const Text *text = &sorted->texts[sorted->room[at].index];
        memcpy(sorted->bytes + end, text->bytes, text->len);
        sorted->ends[at] = end += text->len;
    }
    uint32_t status = art_bytes_new(by_bytes);
    return status == ART_NONE ? art_bytes_load(by_bytes, sorted->bytes, end, sorted->ends, count, sorted->places, count) : status;
}

/* Takes a reference out of pairs. */
static PyObject *taken(PyObject **object) {
    PyObject *it = *object;
    *object = NULL;
    return it;
}

/* Makes a map of sorted keys, and puts it in the place of what a map has. No code runs. Whether it did: else nothing has
   changed. The old entries are left to who called. */
static bool make_anew(Core *self, const Form *form, Sorted *sorted, Pairs *pairs, Order *old) {
    art_bytes_map by_bytes = {0};
    art_u64_map by_number = {0};
    Order order = {.changes = self->order.changes};
    begin_order(&order);
    uint32_t status = load_map(sorted, &by_bytes, &by_number);
    if (status != ART_NONE || reserve_many(&order, sorted->count) < 0) {
        art_bytes_free(&by_bytes);
        art_u64_free(&by_number);
        return false;
    }
    Block *block = NULL;
    for (size_t at = 0; at < sorted->count; at++) {
        Ranked *entry = &sorted->room[at];
        if (at + 16 < sorted->count) {
            __builtin_prefetch(&pairs->keys[sorted->room[at + 16].index], 1);
            __builtin_prefetch(&pairs->values[sorted->room[at + 16].head], 1);
        }
        block = append_entry(&order, block, taken(&pairs->keys[entry->index]), taken(&pairs->values[entry->head]));
    }
    free_map(self);
    self->form = *form;
    self->by_bytes = by_bytes;
    self->by_number = by_number;
    *old = self->order;
    self->order = order;
    return true;
}

/* Whether the first pairs are what a map has, after code may have run. */
static bool are_those_of(const Pairs *pairs, const Order *order, size_t count) {
    size_t index = 0;
    if ((size_t)order->count != count) return false;
    for (const Block *block = order->first; block; block = block->after)
        for (size_t at = 0; at < block->count; at++, index++)
            if (pairs->values[index] != order->entries[block->places[at]].value) return false;
    return true;
}

/* Puts pairs into a map by making all of it anew: how many of the first ones it did. Where the first keys of `pairs` are those
   of the map, it has them. */
static size_t set_by_making_anew(Core *self, Pairs *pairs, size_t kept) {
    Form form = self->form;
    Sorted sorted = {0};
    Order old = {0};
    size_t changes = self->order.changes, done = 0;
    if (form.letters[0] != NO_KEYS || form_of(pairs->keys[0], &form) == 0) done = rank_keys(&sorted, &form, pairs);
    bool is_as_before = self->order.changes == changes && are_those_of(pairs, &self->order, kept) && (self->form.letters[0] == NO_KEYS || strcmp(self->form.letters, form.letters) == 0);
    if (done > kept && is_as_before) {
        sort(&sorted);
        join_equal(&sorted);
        if (!make_anew(self, &form, &sorted, pairs, &old)) done = kept;
    } else {
        done = kept;
    }
    PyErr_Clear();
    free_sorted(&sorted);
    free_order(&old);
    return done - kept;
}

/* Whether to make the map anew costs less than to set each pair: a key that is not there yet costs as much as four entries of a
   map that is made, and one that is there as two, or where it is found by its hash as half of one. How many are there a few of
   them say. */
static bool is_better_anew(Core *self, const Pairs *pairs) {
    enum { FEW = 16, ENTRY = 2, NEW = 4 * ENTRY, THERE = 2 * ENTRY, HASHED = ENTRY / 2 };
    size_t count = (size_t)self->order.count, costs = 0;
    if (pairs->count < FEW || count / 4 > pairs->count) return false;
    for (size_t at = 0; at < FEW && count > 0; at++) {
        Entry *entry;
        /* Anywhere, since keys that are there may come at equal distances. */
        int found = look(self, pairs->keys[(at * UINT64_C(0x9E3779B97F4A7C15) >> 33) % pairs->count], &entry);
        if (found < 0) PyErr_Clear();
        costs += found == 0 ? NEW : has_hashed_keys(self->form.letters[0]) ? HASHED : THERE;
    }
    return count == 0 || (count + pairs->count) * ENTRY <= pairs->count / FEW * costs;
}

/* Sets pairs, which it lets go of; where one is refused, those before it are set. */
static int set_pairs(Core *self, Pairs *pairs) {
    size_t at = 0, count = pairs->count;
    if (is_better_anew(self, pairs)) {
        size_t kept = (size_t)self->order.count;
        Pairs all;
        if (kept == 0) {
            at = set_by_making_anew(self, pairs, 0);
        } else if (pairs_of_order(&self->order, NULL, &all, count) > 0) {
            for (size_t more = 0; more < count; more++) add_pair(&all, pairs->keys[more], pairs->values[more]);
            at = set_by_making_anew(self, &all, kept);
            let_go_pairs(&all);
        }
        PyErr_Clear();
    }
    int done = 0;
    for (; done == 0 && at < count; at++) done = set_item(self, pairs->keys[at], pairs->values[at]);
    let_go_pairs(pairs);
    return done;
}
#endif
