/* The calls of a SortedSet: its keys are entries without a value, which is None. */
#ifndef SET_H
#define SET_H
#include "_equal.h"
#include "_many.h"

static PyObject *set_add(Core *self, PyObject *key) {
    if (set_item(self, key, Py_None) < 0) return NULL;
    Py_RETURN_NONE;
}

/* Removes a key: 1, or 0 where it is not there, or -1 with an error set. */
static int remove_key(Core *self, PyObject *key) {
    Entry taken;
    int found = take(self, key, &taken);
    if (found == 1) {
        Py_DECREF(taken.key);
        Py_DECREF(taken.value);
    }
    return found;
}

static PyObject *set_discard(Core *self, PyObject *key) {
    if (remove_key(self, key) < 0) return NULL;
    Py_RETURN_NONE;
}

static PyObject *set_remove(Core *self, PyObject *key) {
    int found = remove_key(self, key);
    if (found == 0) PyErr_SetObject(PyExc_KeyError, key);
    if (found <= 0) return NULL;
    Py_RETURN_NONE;
}

static PyObject *set_pop(Core *self, PyObject *const *given, Py_ssize_t positional, PyObject *names) {
    static const Takes takes = {"pop", {"index"}, 1, 0};
    PyObject *index;
    Entry taken;
    if (take_arguments(&takes, given, positional, names, &index) < 0) return NULL;
    if (self->order.count == 0) return PyErr_Format(index ? PyExc_IndexError : PyExc_KeyError, "pop(): the set is empty");
    Py_ssize_t at = read_index(self, index);
    if (at < 0 || take_at(self, at, &taken) < 0) return NULL;
    Py_DECREF(taken.value);
    return taken.key;
}

/* _add_each(keys) */
static PyObject *set_add_each(Core *self, PyObject *keys) { return set_all(self, keys, Py_None); }

/* Which keys of two sets are given. */
enum { OF_FIRST = 1, OF_BOTH = 2, OF_SECOND = 4 };

/* The keys of a set, and where they are not compared as objects, what they are compared by. */
typedef struct {
    Pairs pairs;
    Sorted sorted;
} Read;

static void let_go_read(Read *read) {
    free_sorted(&read->sorted);
    let_go_pairs(&read->pairs);
}

/* Reads the keys of a set. */
static int read_keys(Core *self, const Form *form, Read *read) {
    *read = (Read){0};
    if (pairs_of_order(&self->order, NULL, &read->pairs, 0) < 0) return -1;
    char kind = form->letters[0];
    if (kind != TUPLE_KEYS && kind != IPV4_KEYS && kind != IPV6_KEYS) return 0;
    if (rank_keys(&read->sorted, form, &read->pairs) == read->pairs.count) return 0;
    /* Only the class of an address that was changed refuses a key that was one. */
    return refused(ART_NO_MEMORY);
}

/* How two keys compare, which are of one form. */
static int compare_read(const Form *form, const Read *one, size_t at, const Read *other, size_t its) {
    PyObject *key = one->pairs.keys[at], *other_key = other->pairs.keys[its];
    char kind = form->letters[0];
    Sought first, second;
    if (kind == STR_KEYS) return PyUnicode_Compare(key, other_key);
    if (kind == IPV4_KEYS) return compare_ranked(NULL, &one->sorted.ranked[at], &other->sorted.ranked[its]);
    begin_sought(&first);
    begin_sought(&second);
    if (kind == TUPLE_KEYS || kind == IPV6_KEYS) {
        first.bytes = one->sorted.texts[at].bytes;
        first.len = one->sorted.texts[at].len;
        second.bytes = other->sorted.texts[its].bytes;
        second.len = other->sorted.texts[its].len;
    } else {
        read_of_kind(form, key, false, &first);
        read_of_kind(form, other_key, false, &second);
    }
    return compare_keys(&first, &second);
}

/* Appends to a list, of the keys of two sets, those that are wanted. */
static int merge_keys(const Form *form, const Read *one, const Read *other, long which, PyObject *list) {
    size_t at = 0, its = 0, count = one->pairs.count, its_count = other->pairs.count;
    int done = 0;
    while (done == 0 && (at < count || its < its_count)) {
        int order = at == count ? 1 : its == its_count ? -1 : compare_read(form, one, at, other, its);
        if (order < 0 && which & OF_FIRST) done = PyList_Append(list, one->pairs.keys[at]);
        if (order == 0 && which & OF_BOTH) done = PyList_Append(list, one->pairs.keys[at]);
        if (order > 0 && which & OF_SECOND) done = PyList_Append(list, other->pairs.keys[its]);
        at += order <= 0;
        its += order >= 0;
    }
    return done;
}

/* Which keys are wanted, by the second of two arguments, of which the first is another set. */
static long read_which(PyObject *const *given, Py_ssize_t positional, bool is_set) {
    long which = positional == 2 && is_set ? PyLong_AsLong(given[1]) : -1;
    if (which < 0 && !PyErr_Occurred()) PyErr_SetString(PyExc_TypeError, "a set is needed, and which keys are wanted");
    return which;
}

/* _merged(other, which): of the keys of this set and of another one those that are wanted, in a list in their order; or None,
   where the keys are of two forms. */
static PyObject *set_merged(Core *self, PyObject *const *given, Py_ssize_t positional) {
    long which = read_which(given, positional, positional == 2 && PyObject_TypeCheck(given[0], set_type));
    if (which < 0) return NULL;
    Core *other = (Core *)given[0];
    Form form = self->order.count ? self->form : other->form;
    if (self->order.count && other->order.count && strcmp(form.letters, other->form.letters) != 0) Py_RETURN_NONE;
    Read first, second = {0};
    PyObject *list = NULL;
    if (read_keys(self, &form, &first) == 0 && read_keys(other, &form, &second) == 0) list = PyList_New(0);
    if (list && merge_keys(&form, &first, &second, which, list) < 0) Py_CLEAR(list);
    let_go_read(&first);
    let_go_read(&second);
    return list;
}

/* Whether a key is in a set of Python's: 1 or 0, or -1 with an error set. It may run any code. */
static int is_in(PyObject *there, PyObject *key) {
    Py_INCREF(key);
    int found = PySet_Contains(there, key);
    Py_DECREF(key);
    return found;
}

/* Puts the keys of this set that are wanted, by whether they are in a set or frozenset, into a list; without one it ends at the
   first of them. 1, or 0 where it ended so, or -1 with an error set. */
static int choose_by(Core *self, PyObject *there, long which, PyObject *list) {
    size_t changes = self->order.changes;
    for (const Block *block = self->order.first; block; block = block->after) {
        for (size_t at = 0; at < block->count; at++) {
            PyObject *key = block->keys[at];
            if (at + 8 < block->count) __builtin_prefetch(block->keys[at + 8]);
            int found = is_in(there, key);
            if (found >= 0 && self->order.changes != changes) {
                PyErr_SetString(PyExc_RuntimeError, "the set changed while it was compared");
                found = -1;
            }
            if (found < 0) return -1;
            if (!(which & (found ? OF_BOTH : OF_FIRST))) continue;
            if (!list) return 0;
            if (PyList_Append(list, key) < 0) return -1;
        }
    }
    return 1;
}

/* _chosen_by(set, which): of the keys of this set those that are, or are not, in a set or frozenset, in a list in their order. */
static PyObject *set_chosen_by(Core *self, PyObject *const *given, Py_ssize_t positional) {
    long which = read_which(given, positional, positional == 2 && PyAnySet_Check(given[0]));
    PyObject *list = which < 0 ? NULL : PyList_New(0);
    if (list && choose_by(self, given[0], which, list) < 0) Py_CLEAR(list);
    return list;
}

/* _has_none(set, which): whether no key of this set is, or no one is not, in a set or frozenset. */
static PyObject *set_has_none(Core *self, PyObject *const *given, Py_ssize_t positional) {
    long which = read_which(given, positional, positional == 2 && PyAnySet_Check(given[0]));
    int done = which < 0 ? -1 : choose_by(self, given[0], which, NULL);
    return done < 0 ? NULL : PyBool_FromLong(done);
}

/* Takes the next keys of an iterator, up to as many as TOGETHER says: how many there were. */
static size_t take_keys(PyObject *steps, PyObject **keys) {
    size_t count = 0;
    while (count < TOGETHER && (keys[count] = PyIter_Next(steps))) count++;
    return count;
}

/* How many of some keys are in this set: UNKNOWN where one is of another type, or with an error set. */
static Py_ssize_t count_there(Core *self, PyObject *const *keys, size_t count) {
    Entry *found[TOGETHER];
    Py_ssize_t there = 0;
    for (size_t at = 0; at < count; at++)
        if (!is_hashed(self->form.letters[0], keys[at])) return UNKNOWN;
    bool has_slots = self->memo.slots != NULL;
    if (has_slots) find_together(self, keys, count, found);
    for (size_t at = 0; at < count; at++) {
        int known = has_slots ? found[at] != NULL : look(self, keys[at], &found[at]);
        if (known < 0) return UNKNOWN;
        there += known;
    }
    return there;
}

/* _has_each(set): whether each key of a set or frozenset is in this one; None: the keys of this one have to be looked for in it. */
static PyObject *set_has_each(Core *self, PyObject *set) {
    PyObject *keys[TOGETHER], *steps = PyAnySet_CheckExact(set) ? PyObject_GetIter(set) : NULL;
    if (!steps && PyErr_Occurred()) return NULL;
    if (!steps) Py_RETURN_NONE;
    Py_ssize_t there;
    size_t count;
    do {
        count = take_keys(steps, keys);
        there = count_there(self, keys, count);
        for (size_t at = 0; at < count; at++) Py_DECREF(keys[at]);
    } while (count == TOGETHER && there == TOGETHER);
    Py_DECREF(steps);
    if (PyErr_Occurred()) return NULL;
    if (there != UNKNOWN) return PyBool_FromLong((size_t)there == count);
    Py_RETURN_NONE;
}

/* _equals(set): whether a SortedSet of as many keys has the same ones; None: its keys are to be looked for. */
static PyObject *set_equals(Core *self, PyObject *other) {
    int equal = PyObject_TypeCheck(other, set_type) ? equals_map(self, (Core *)other) : UNKNOWN;
    if (equal != UNKNOWN) return PyBool_FromLong(equal);
    Py_RETURN_NONE;
}
#endif
