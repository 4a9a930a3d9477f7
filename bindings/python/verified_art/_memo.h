/* Where the key of each entry stands, by its hash: made once look-ups are many, so that these need not ask the library. That a key
   is at a place says the entry there, which has it; that it is at none, since each key that is kept has a slot. */
#ifndef MEMO_H
#define MEMO_H
#include "_keys.h"
#include "_order.h"

typedef struct {
    uint32_t *slots; /* NULL: there are none. Each is 0, or a place plus one, and in its upper bits some of the key's hash */
    size_t mask;     /* one less than their number, which is a power of two */
    size_t taken;    /* how many are not 0: those of entries that went are left */
    size_t asked;    /* how many look-ups there were since the slots, or the map without any, were made */
    unsigned bits;   /* of a slot that are of a place */
    bool is_given_up; /* since too many keys have hashes alike */
} Memo;

/* How many keys are looked at together, so that their memory is read at the same time. */
#define TOGETHER 16

/* How many slots, from that of its hash on, a place may be in: far more than are met where hashes differ. */
#define FARTHEST 1000

static void free_memo(Memo *self) {
    PyMem_Free(self->slots);
    *self = (Memo){0};
}

/* Whether a key of a map of this kind has a slot: it is of a built-in type, whose hash runs no code. All keys that such a map keeps
   are of that type. */
static inline bool is_hashed(char kind, PyObject *key) {
    switch (kind) {
    case STR_KEYS: return PyUnicode_CheckExact(key);
    case INT_KEYS: return PyLong_CheckExact(key);
    case BYTES_KEYS: return PyBytes_CheckExact(key);
    case FLOAT_KEYS: return PyFloat_CheckExact(key);
    default: return false;
    }
}

/* Whether the keys of maps of this kind have slots. */
static bool has_hashed_keys(char kind) { return kind == STR_KEYS || kind == INT_KEYS || kind == BYTES_KEYS || kind == FLOAT_KEYS; }

static inline uint64_t hash_of(PyObject *key) {
    uint64_t hash = (uint64_t)PyObject_Hash(key) * UINT64_C(0x9E3779B97F4A7C15);
    return hash ^ hash >> 32;
}

/* Whether a key that is kept is equal to one of the same built-in type. */
static inline bool is_equal(char kind, PyObject *kept, PyObject *key) {
    if (kept == key) return true;
    switch (kind) {
    case STR_KEYS: return PyUnicode_Compare(kept, key) == 0;
    case INT_KEYS: return PyObject_RichCompareBool(kept, key, Py_EQ) == 1;
    case FLOAT_KEYS: return PyFloat_AsDouble(kept) == PyFloat_AsDouble(key);
    default: return PyBytes_Size(kept) == PyBytes_Size(key) && memcmp(PyBytes_AsString(kept), PyBytes_AsString(key), (size_t)PyBytes_Size(key)) == 0;
    }
}

/* The slot of a place: it begins the search at `hash >> 32`. */
static inline uint32_t slot_of(const Memo *self, uint64_t hash, size_t place) { return (uint32_t)(hash << self->bits) | (uint32_t)(place + 1); }

/* The entry of a key with this hash, or NULL: there is none. There are slots. No code runs. */
static inline Entry *find_hashed(const Memo *self, char kind, const Order *order, PyObject *key, uint64_t hash) {
    uint32_t of_place = ((uint32_t)1 << self->bits) - 1, of_hash = (uint32_t)(hash << self->bits), slot;
    for (size_t at = hash >> 32; (slot = self->slots[at & self->mask]) != 0; at++) {
        if ((slot & ~of_place) != of_hash) continue;
        Entry *entry = &order->entries[(slot & of_place) - 1];
        if (entry->key && is_equal(kind, entry->key, key)) return entry;
    }
    return NULL;
}

/* What is known of a key without the library: -1 is nothing, 0 that it is not there, 1 that it is, and its entry. */
static inline int recall(Memo *self, char kind, const Order *order, PyObject *key, Entry **entry) {
    if (!self->slots || !is_hashed(kind, key)) return -1;
    self->asked++;
    *entry = find_hashed(self, kind, order, key, hash_of(key));
    return *entry != NULL;
}

/* Puts a place into a slot: whether there was one near enough. */
static inline bool put_slot(Memo *self, uint64_t hash, size_t place) {
    uint32_t slot = slot_of(self, hash, place);
    size_t at = hash >> 32, end = at + FARTHEST;
    for (; at < end; at++) {
        uint32_t *there = &self->slots[at & self->mask];
        if (*there == slot) return true; /* It was here before, and went. */
        if (*there == 0) {
            *there = slot;
            self->taken++;
            return true;
        }
    }
    return false;
}

/* Whether the slots would be too full with one more entry, or cannot name its place. */
static inline bool is_full(const Memo *self, size_t place) { return self->taken >= self->mask / 8 * 5 || place >= self->mask; }

/* Puts the places from one on into slots, as many as TOGETHER says: whether it could. */
static bool put_slots(Memo *self, const Order *order, size_t place) {
    uint64_t hashes[TOGETHER];
    size_t count = order->used - place < TOGETHER ? order->used - place : TOGETHER;
    for (size_t at = place + TOGETHER; at < place + 2 * TOGETHER && at < order->used; at++) __builtin_prefetch(order->entries[at].key);
    for (size_t at = 0; at < count; at++) {
        PyObject *key = order->entries[place + at].key;
        hashes[at] = key ? hash_of(key) : 0;
        __builtin_prefetch(&self->slots[hashes[at] >> 32 & self->mask], 1);
    }
    for (size_t at = 0; at < count; at++)
        if (order->entries[place + at].key && !put_slot(self, hashes[at], place + at)) return false;
    return true;
}

/* Makes the slots anew, or gives them up: where memory is refused, where hashes are alike, and where there are more entries
   than a slot can name. */
static void make_slots(Memo *self, const Order *order) {
    unsigned bits = 6;
    bool is_given_up = self->is_given_up;
    free_memo(self);
    self->is_given_up = is_given_up;
    while (bits < 30 && (size_t)1 << bits < 2 * (order->used + 1)) bits++;
    if (is_given_up || (size_t)1 << bits < 2 * (order->used + 1)) return;
    if (!(self->slots = PyMem_Calloc((size_t)1 << bits, sizeof *self->slots))) return;
    self->mask = ((size_t)1 << bits) - 1;
    self->bits = bits;
    for (size_t place = 0; place < order->used; place += TOGETHER) {
        if (put_slots(self, order, place)) continue;
        free_memo(self);
        self->is_given_up = true;
        return;
    }
}

/* Counts a look-up of a key that the library has answered. Slots are made once these are about as dear as that. */
static inline void count_asked(Memo *self, char kind, const Order *order, PyObject *key) {
    if (self->slots || !is_hashed(kind, key) || ++self->asked <= 8 + order->used / 32) return;
    make_slots(self, order);
}

/* Whether there are slots, which are made where there are none, for many look-ups at once. */
static bool has_slots(Memo *self, char kind, const Order *order) {
    if (!self->slots && has_hashed_keys(kind)) make_slots(self, order);
    self->asked += (size_t)order->count;
    return self->slots != NULL;
}

/* Gives the key of an entry that was added a slot, where there are any. Where nobody looked for them meanwhile, they go when they
   are full. */
static inline void add_slot(Memo *self, const Order *order, PyObject *key, size_t place) {
    if (!self->slots) return;
    if (!is_full(self, place) && put_slot(self, hash_of(key), place)) return;
    if (self->asked < order->used / 32) {
        free_memo(self);
    } else {
        make_slots(self, order);
    }
}
#endif
