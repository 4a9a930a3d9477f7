/* Whether a map has the entries of a dict or of another map. */
#ifndef EQUAL_H
#define EQUAL_H
#include "_entries.h"

/* What a comparison that runs no code says besides 1 and 0: it cannot tell. */
#define UNKNOWN (-1)

/* Whether a value is of a built-in type, so that it is compared with one of its own type without any code. */
static bool is_plain_value(PyObject *value) {
    return PyLong_CheckExact(value) || PyUnicode_CheckExact(value) || PyFloat_CheckExact(value) || PyBytes_CheckExact(value);
}

/* Whether two values are equal: 1 or 0, or UNKNOWN. No code runs. */
static int are_equal_values(PyObject *one, PyObject *other) {
    if (one == other) return 1;
    if (Py_TYPE(one) != Py_TYPE(other) || !is_plain_value(one)) return UNKNOWN;
    return PyObject_RichCompareBool(one, other, Py_EQ);
}

/* ---- with a dict */

/* Finds the entries of some keys, up to as many as TOGETHER says. There are slots, and the keys are of the map's kind. */
static void find_together(const Core *self, PyObject *const *keys, size_t count, Entry **found) {
    const Memo *memo = &self->memo;
    uint64_t hashes[TOGETHER];
    for (size_t at = 0; at < count; at++) __builtin_prefetch(keys[at]);
    for (size_t at = 0; at < count; at++) {
        hashes[at] = hash_of(keys[at]);
        __builtin_prefetch(&memo->slots[hashes[at] >> 32 & memo->mask]);
    }
    for (size_t at = 0; at < count; at++) {
        uint32_t slot = memo->slots[hashes[at] >> 32 & memo->mask] & (uint32_t)memo->mask;
        if (slot) __builtin_prefetch(&self->order.entries[slot - 1]);
    }
    for (size_t at = 0; at < count; at++) found[at] = find_hashed(memo, self->form.letters[0], &self->order, keys[at], hashes[at]);
}

/* Whether each entry of a dict is one of the map's: 1 or 0, or UNKNOWN. There are slots. No code runs. */
static int has_entries_of(Core *self, PyObject *dict) {
    PyObject *keys[TOGETHER], *values[TOGETHER];
    Entry *found[TOGETHER];
    Py_ssize_t next = 0;
    size_t count;
    do {
        for (count = 0; count < TOGETHER && PyDict_Next(dict, &next, &keys[count], &values[count]); count++)
            if (!is_hashed(self->form.letters[0], keys[count])) return UNKNOWN;
        find_together(self, keys, count, found);
        for (size_t at = 0; at < count; at++) {
            int equal = found[at] ? are_equal_values(found[at]->value, values[at]) : 0;
            if (equal != 1) return equal;
        }
    } while (count == TOGETHER);
    return 1;
}

/* Whether the value of a key in a dict is equal to one of the map's: 1 or 0, or -1 with an error set. */
static int has_equal(PyObject *dict, PyObject *key, PyObject *value) {
    Py_INCREF(key);
    Py_INCREF(value);
    PyObject *its = PyDict_GetItemWithError(dict, key);
    int equal = its == value;
    if (!its) {
        equal = PyErr_Occurred() ? -1 : 0;
    } else if (!equal) {
        Py_INCREF(its);
        equal = PyObject_RichCompareBool(value, its, Py_EQ);
        Py_DECREF(its);
    }
    Py_DECREF(value);
    Py_DECREF(key);
    return equal;
}

/* Whether a dict has the first entries of the map, up to this many: 1 or 0, or -1 with an error set. */
static int are_entries_in(Core *self, PyObject *dict, size_t most) {
    size_t changes = self->order.changes, passed = 0;
    int equal = 1;
    for (const Block *block = self->order.first; block && equal == 1 && passed < most; block = block->after) {
        for (size_t at = 0; at < block->count && equal == 1; at++, passed++) {
            if (at + 8 < block->count) __builtin_prefetch(block->keys[at + 8]);
            if (at + 8 < block->count) __builtin_prefetch(&self->order.entries[block->places[at + 8]]);
            equal = has_equal(dict, block->keys[at], self->order.entries[block->places[at]].value);
            /* What was compared may have run any code. */
            if (equal >= 0 && self->order.changes != changes) {
                PyErr_SetString(PyExc_RuntimeError, "the map changed while it was compared");
                equal = -1;
            }
            if (equal < 0) return -1;
        }
    }
    return equal;
}

/* Whether a dict of as many entries has the same ones: 1 or 0, or -1 with an error set. */
static int equals_dict(Core *self, PyObject *dict) {
    enum { FEW = 4096 };
    size_t count = (size_t)self->order.count, changes = self->order.changes;
    if (count < FEW) return are_entries_in(self, dict, count);
    /* Where the first entries are in it, the others may be too. */
    int equal = self->memo.slots ? 1 : are_entries_in(self, dict, count / 32);
    if (equal != 1) return equal;
    bool has_hashes = self->order.changes == changes && has_slots(&self->memo, self->form.letters[0], &self->order);
    equal = has_hashes ? has_entries_of(self, dict) : UNKNOWN;
    return equal != UNKNOWN ? equal : are_entries_in(self, dict, SIZE_MAX);
}

/* ---- with a map */

/* Whether a map of as many entries has the same ones: 1 or 0, or UNKNOWN. No code runs. */
static int equals_map(Core *self, Core *other) {
    char kind = self->form.letters[0];
    const Block *block = self->order.first, *its = other->order.first;
    if (!block && !its) return 1;
    if (!has_hashed_keys(kind) || kind != other->form.letters[0]) return UNKNOWN;
    for (size_t at = 0, its_at = 0; block && its; at++, its_at++) {
        if (at == block->count) {
            block = block->after;
            at = 0;
        }
        if (its_at == its->count) {
            its = its->after;
            its_at = 0;
        }
        if (!block || !its) break;
        if (at + 8 < block->count) __builtin_prefetch(block->keys[at + 8]);
        if (its_at + 8 < its->count) __builtin_prefetch(its->keys[its_at + 8]);
        if (!is_equal(kind, block->keys[at], its->keys[its_at])) return 0;
        int equal = are_equal_values(self->order.entries[block->places[at]].value, other->order.entries[its->places[its_at]].value);
        if (equal != 1) return equal;
    }
    return !block && !its;
}
#endif
