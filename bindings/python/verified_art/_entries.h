/* The entries of a SortedMap or SortedSet: a key is in the library's map, which has the place of its entry. */
#ifndef ENTRIES_H
#define ENTRIES_H
#include <art.h>
#include "_keys.h"
#include "_memo.h"
#include "_order.h"

typedef struct {
    PyObject_HEAD
    /* Of all keys; without letters: the map has had none since it was made or cleared, and there is no map below. */
    Form form;
    art_bytes_map by_bytes;
    art_u64_map by_number;
    Order order;
    Memo memo;
    bool was_there; /* the last key that was set; the next one is looked for by the shorter way where it is likely there */
} Core;

/* Sets the error of a map that has keys of another form once a key was read. */
static int changed_meanwhile(Sought *sought) {
    let_go(sought);
    PyErr_SetString(PyExc_RuntimeError, "the map or set changed during a call");
    return -1;
}

/* Reads a key for a map, whose form it then has; where the map has no keys, any form will do. It comes before all that a
   call does with the map, since an error that is made may run the collector, and so any code. */
static int read_first(Core *self, PyObject *key, bool first_parts, Sought *sought) {
    Form form = self->form;
    bool is_first = form.letters[0] == NO_KEYS;
    if (is_first && form_of(key, &form) < 0) return -1;
    if (read_key(&form, key, first_parts, sought) < 0) return -1;
    const Form *now = &self->form;
    return strcmp(now->letters, form.letters) == 0 || (is_first && now->letters[0] == NO_KEYS) ? 0 : changed_meanwhile(sought);
}

/* The same of a whole key, by the shorter way where the form is a letter, and no address, whose class may run code. */
static inline int read_for(Core *self, PyObject *key, Sought *sought) {
    char kind = self->form.letters[0];
    if ((kind != STR_KEYS && kind != INT_KEYS && kind != BYTES_KEYS && kind != FLOAT_KEYS) || kind_of(key) != kind)
        return read_first(self, key, false, sought);
    begin_sought(sought);
    if (read_of_kind(&self->form, key, false, sought) < 0) return -1;
    return self->form.letters[0] == kind ? 0 : changed_meanwhile(sought);
}

/* ---- the calls of the library */

/* Sets the error of a status that is a refusal. */
static int refused(uint32_t status) {
    if (status == ART_NO_MEMORY) {
        PyErr_NoMemory();
    } else if (status == ART_KEY_TOO_LONG) {
        PyErr_SetString(PyExc_OverflowError, "the key is too long");
    } else {
        PyErr_Format(PyExc_SystemError, "verified_art: status %u", (unsigned)status);
    }
    return -1;
}

static int make_map(Core *self, const Form *form) {
    uint32_t status = is_by_number(form->letters[0]) ? art_u64_new(&self->by_number) : art_bytes_new(&self->by_bytes);
    if (status != ART_NONE) return refused(status);
    self->form = *form;
    return 0;
}

static void free_map(Core *self) {
    char kind = self->form.letters[0];
    if (is_by_number(kind)) {
        art_u64_free(&self->by_number);
    } else if (kind != NO_KEYS) {
        art_bytes_free(&self->by_bytes);
    }
    memset(&self->form, 0, sizeof self->form);
    free_memo(&self->memo);
}

/* Finds the place of a key: 1, or 0 where there is none, or -1 with an error set. */
static inline int find_key(Core *self, const Sought *sought, size_t *place) {
    char kind = self->form.letters[0];
    uint64_t found = 0;
    uint32_t status = ART_NONE;
    if (sought->where != WITHIN || kind == NO_KEYS) return 0;
    if (is_by_number(kind)) {
        status = art_u64_get(&self->by_number, sought->number, &found);
    } else {
        status = art_bytes_get(&self->by_bytes, sought->bytes, sought->len, &found);
    }
    *place = (size_t)found;
    return status <= ART_SOME ? (int)status : refused(status);
}

typedef uint32_t (*Neighbour)(art_bytes_map *, const uint8_t *, size_t, bool, uint8_t *, size_t, size_t *, uint64_t *);

static uint32_t next_of_bytes(art_bytes_map *map, const uint8_t *from, size_t len, bool inclusive, uint8_t *out, size_t room, size_t *key_len, uint64_t *value) {
    return art_bytes_next(map, from, len, inclusive, out, room, key_len, value);
}

static uint32_t previous_of_bytes(art_bytes_map *map, const uint8_t *from, size_t len, bool inclusive, uint8_t *out, size_t room, size_t *key_len, uint64_t *value) {
    return art_bytes_previous(map, from, len, inclusive, out, room, key_len, value);
}

/* The position of a neighbour of some bytes, and whether it has these very bytes. */
static int find_neighbour(Core *self, Neighbour call, const uint8_t *bytes, size_t len, bool inclusive, Position *position, bool *is_there) {
    uint8_t few[256], *out = few;
    size_t room = sizeof few, key_len;
    uint64_t found;
    uint32_t status;
    *position = END;
    *is_there = false;
    while ((status = call(&self->by_bytes, bytes, len, inclusive, out, room, &key_len, &found)) == ART_SMALL_BUFFER) {
        out = PyMem_Malloc(key_len);
        if (!out) return refused(ART_NO_MEMORY);
        room = key_len;
    }
    if (status == ART_SOME) {
        *position = position_of(&self->order, (size_t)found);
        *is_there = key_len == len && (len == 0 || memcmp(out, bytes, len) == 0);
    }
    if (out != few) PyMem_Free(out);
    return status <= ART_SOME ? 0 : refused(status);
}

/* The position of the first entry beyond all keys that begin with some bytes. */
static int find_beyond(Core *self, const uint8_t *bytes, size_t len, Position *position) {
    bool is_there;
    *position = END;
    while (len > 0 && bytes[len - 1] == 255) len--;
    if (len == 0) return 0;
    uint8_t *bound = PyMem_Malloc(len);
    if (!bound) return refused(ART_NO_MEMORY);
    memcpy(bound, bytes, len);
    bound[len - 1]++;
    int done = find_neighbour(self, next_of_bytes, bound, len, true, position, &is_there);
    PyMem_Free(bound);
    return done;
}

/* The position of the first entry at or after a key. */
static int find_from(Core *self, const Sought *sought, bool inclusive, Position *position) {
    char kind = self->form.letters[0];
    bool is_there;
    *position = END;
    if (kind == NO_KEYS) return 0;
    if (!is_by_number(kind)) {
        if (sought->where == ABOVE) return find_beyond(self, sought->bytes, sought->len, position);
        return find_neighbour(self, next_of_bytes, sought->bytes, sought->len, inclusive, position, &is_there);
    }
    if (sought->where == BELOW) *position = first_position(&self->order);
    if (sought->where != WITHIN) return 0;
    uint64_t number, found;
    if (art_u64_next(&self->by_number, sought->number, inclusive, &number, &found) == ART_SOME)
        *position = position_of(&self->order, (size_t)found);
    return 0;
}

/* The position of the last entry at or before a key of the map's, and whether it is that of the key. */
static int find_to(Core *self, const Sought *sought, Position *position, bool *is_there) {
    if (!is_by_number(self->form.letters[0]))
        return find_neighbour(self, previous_of_bytes, sought->bytes, sought->len, true, position, is_there);
    uint64_t number, found;
    bool found_one = art_u64_previous(&self->by_number, sought->number, true, &number, &found) == ART_SOME;
    *position = found_one ? position_of(&self->order, (size_t)found) : END;
    *is_there = found_one && number == sought->number;
    return 0;
}

/* ---- one entry */

/* How a key that is kept compares with another one, where both are of one letter and no addresses: no code runs. */
static int compare_kept(Core *self, PyObject *kept, PyObject *key, const Sought *sought) {
    if (self->form.letters[0] == STR_KEYS) return PyUnicode_Compare(kept, key);
    Sought other;
    begin_sought(&other);
    read_of_kind(&self->form, kept, false, &other);
    return compare_keys(&other, sought);
}

/* Whether a key belongs right behind the entry that was added last: keys often come in their order. */
static bool is_behind_newest(Core *self, PyObject *key, const Sought *sought) {
    Position newest = self->order.newest;
    char kind = self->form.letters[0];
    if (!newest.block || kind == TUPLE_KEYS || kind == IPV4_KEYS || kind == IPV6_KEYS) return false;
    if (compare_kept(self, newest.block->keys[newest.at], key, sought) >= 0) return false;
    Position after = position_after(newest);
    return !after.block || compare_kept(self, after.block->keys[after.at], key, sought) > 0;
}

static int add(Core *self, PyObject *key, const Sought *sought, Position before, PyObject *value) {
    if (reserve(&self->order) < 0) return refused(ART_NO_MEMORY);
    PyObject *kept = plain_key(key);
    if (!kept) return -1;
    uint64_t place = next_place(&self->order), none;
    uint32_t status = is_by_number(self->form.letters[0]) ? art_u64_insert(&self->by_number, sought->number, place, &none)
                                                          : art_bytes_insert(&self->by_bytes, sought->bytes, sought->len, place, &none);
    if (status != ART_NONE) {
        Py_DECREF(kept);
        return refused(status);
    }
    Py_INCREF(value);
    add_entry(&self->order, before, kept, value);
    add_slot(&self->memo, &self->order, kept, (size_t)place);
    return 0;
}

static int set_value(Entry *entry, PyObject *value) {
    PyObject *before = entry->value;
    Py_INCREF(value);
    entry->value = value;
    Py_DECREF(before);
    return 0;
}

/* Sets a key that was read, of which `is_absent` says that it is known not to be there. */
static int set_sought(Core *self, PyObject *key, const Sought *sought, bool is_absent, PyObject *value) {
    if (self->was_there && !is_absent) {
        size_t place;
        int found = find_key(self, sought, &place);
        if (found < 0) return -1;
        if (found) {
            count_asked(&self->memo, self->form.letters[0], &self->order, key);
            return set_value(&self->order.entries[place], value);
        }
    }
    self->was_there = false;
    if (is_behind_newest(self, key, sought)) return add(self, key, sought, self->order.newest, value);
    Position position;
    if (find_to(self, sought, &position, &self->was_there) < 0) return -1;
    if (!self->was_there) return add(self, key, sought, position, value);
    return set_value(&self->order.entries[position.block->places[position.at]], value);
}

/* Sets the error of a key that has no place in the order. */
static int has_no_place(const Sought *sought) {
    if (sought->where == NOT_A_NUMBER) {
        PyErr_SetString(PyExc_ValueError, "NaN is no key, since it has no place in the order");
    } else {
        PyErr_SetString(PyExc_OverflowError, "an int of a key has 64 bits with a sign");
    }
    return -1;
}

/* Sets a plain key. */
static int set_plain(Core *self, PyObject *key, PyObject *value) {
    Sought sought;
    Entry *recalled;
    int known = recall(&self->memo, self->form.letters[0], &self->order, key, &recalled);
    if (known == 1) return set_value(recalled, value);
    if (read_for(self, key, &sought) < 0) return -1;
    bool is_first = self->form.letters[0] == NO_KEYS;
    Form form;
    int done = sought.where != WITHIN ? has_no_place(&sought) : is_first && (form_of(key, &form) < 0 || make_map(self, &form) < 0) ? -1 : 0;
    if (done == 0) {
        done = set_sought(self, key, &sought, known == 0, value);
        /* The code that an error ran may have set other keys. */
        if (done < 0 && is_first && self->order.count == 0) free_map(self);
    }
    let_go(&sought);
    return done;
}

static int set_item(Core *self, PyObject *key, PyObject *value) {
    /* What a tuple is copied by may run any code, and so it comes first. */
    if (!PyTuple_Check(key) || is_plain(key)) return set_plain(self, key, value);
    Form form;
    PyObject *plain = form_of(key, &form) < 0 ? NULL : plain_key(key);
    int done = plain ? set_plain(self, plain, value) : -1;
    Py_XDECREF(plain);
    return done;
}

/* Removes a key: 1, and its entry, or 0 where there is none, or -1 with an error set. */
static int take(Core *self, PyObject *key, Entry *taken) {
    Sought sought;
    if (read_for(self, key, &sought) < 0) return -1;
    char kind = self->form.letters[0];
    uint64_t place = 0;
    uint32_t status = ART_NONE;
    if (kind != NO_KEYS && sought.where == WITHIN) {
        status = is_by_number(kind) ? art_u64_remove(&self->by_number, sought.number, &place)
                                    : art_bytes_remove(&self->by_bytes, sought.bytes, sought.len, &place);
    }
    let_go(&sought);
    if (status == ART_SOME) *taken = remove_entry(&self->order, (size_t)place);
    return status <= ART_SOME ? (int)status : refused(status);
}

/* Asks the library for the entry of a key. */
static int ask(Core *self, PyObject *key, Entry **entry) {
    Sought sought;
    size_t place;
    if (read_for(self, key, &sought) < 0) return -1;
    int found = find_key(self, &sought, &place);
    let_go(&sought);
    if (found == 1) *entry = &self->order.entries[place];
    if (found >= 0) count_asked(&self->memo, self->form.letters[0], &self->order, key);
    return found;
}

/* Finds the entry of a key: 1, or 0 where there is none, or -1 with an error set. */
static inline int look(Core *self, PyObject *key, Entry **entry) {
    int known = recall(&self->memo, self->form.letters[0], &self->order, key, entry);
    return known >= 0 ? known : ask(self, key, entry);
}

static void empty(Core *self) {
    free_map(self);
    empty_order(&self->order);
}
#endif
