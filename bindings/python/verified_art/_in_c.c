/* The entries of a SortedMap or SortedSet, and the routes of a RouteTable (`_routes.h`). Made for the limited interface of
   CPython 3.10, so that one build serves each later one.

   A key is in the library's map, which has the place of its entry (`_entries.h`): an entry has the key and the value as
   objects, and stands in a list of blocks in the order of the keys (`_order.h`), so that a walk needs the library only where
   it begins and ends. Each call holds the interpreter's lock, and lets go of an object, which may run any code, only once the
   map is whole. */
#define PY_SSIZE_T_CLEAN
#define Py_LIMITED_API 0x030A0000
#include <Python.h>
#include <art.h>
#include <string.h>
#include "_many.h"
#include "_walks.h"

/* What the two classes have in common, and the map and the set. */
static PyTypeObject *map_type, *set_type;

/* The memory for an object of a class of Python over a base of this module, which has no objects of its own: what such an
   object lets go of, Python's own dealloc frees without a deep stack, and the limited interface has no way to that. */
static PyObject *made_over(PyTypeObject *base, PyTypeObject *type) {
    if (type != base) return ((allocfunc)PyType_GetSlot(type, Py_tp_alloc))(type, 0);
    PyErr_SetString(PyExc_TypeError, "this is a part of SortedMap, SortedSet or RouteTable, and has no objects of its own");
    return NULL;
}

/* ---- arguments */

/* What a call takes: the names of its arguments, as many as `count`, and how many of them have to be there. */
typedef struct {
    const char *call;
    const char *names[4];
    Py_ssize_t count, needed;
} Takes;

static int wrong_arguments(const Takes *takes) {
    PyErr_Format(PyExc_TypeError, "%s takes %zd to %zd arguments, of these names: %s %s %s %s", takes->call, takes->needed, takes->count,
                 takes->names[0], takes->names[1] ? takes->names[1] : "", takes->names[2] ? takes->names[2] : "",
                 takes->names[3] ? takes->names[3] : "");
    return -1;
}

/* Puts the arguments of a call in order; NULL: it is not given. */
static int take_arguments(const Takes *takes, PyObject *const *given, Py_ssize_t positional, PyObject *names, PyObject **arguments) {
    if (positional > takes->count) return wrong_arguments(takes);
    if (!names && positional >= takes->needed) {
        for (Py_ssize_t at = 0; at < takes->count; at++) arguments[at] = at < positional ? given[at] : NULL;
        return 0;
    }
    for (Py_ssize_t at = 0; at < takes->count; at++) arguments[at] = at < positional ? given[at] : NULL;
    Py_ssize_t named = names ? PyTuple_Size(names) : 0;
    for (Py_ssize_t other = 0; other < named; other++) {
        Py_ssize_t at = 0;
        while (at < takes->count && PyUnicode_CompareWithASCIIString(PyTuple_GetItem(names, other), takes->names[at]) != 0) at++;
        if (at == takes->count || arguments[at]) return wrong_arguments(takes);
        arguments[at] = given[positional + other];
    }
    for (Py_ssize_t at = 0; at < takes->needed; at++)
        if (!arguments[at]) return wrong_arguments(takes);
    return 0;
}

/* An index of entries, which may count from the end: -1 with an error set where there is no such entry. */
static Py_ssize_t read_index(Core *self, PyObject *index) {
    Py_ssize_t at = index ? PyNumber_AsSsize_t(index, PyExc_IndexError) : -1;
    if (at == -1 && PyErr_Occurred()) return -1;
    if (at < 0) at += self->order.count;
    if (at >= 0 && at < self->order.count) return at;
    PyErr_SetString(PyExc_IndexError, "the index is out of range");
    return -1;
}

/* A bound of a slice as an index from 0 up to how many entries there are. -1 with an error set: it is none. */
static Py_ssize_t read_slice_bound(Core *self, PyObject *bound, Py_ssize_t otherwise) {
    if (!bound || bound == Py_None) return otherwise;
    Py_ssize_t at = PyNumber_AsSsize_t(bound, NULL);
    if (at == -1 && PyErr_Occurred()) return -1;
    if (at < 0) at += self->order.count;
    return at < 0 ? 0 : at > self->order.count ? self->order.count : at;
}

/* ---- the calls of both */

static int core_contains(Core *self, PyObject *key) {
    Entry *entry;
    return look(self, key, &entry);
}

static Py_ssize_t core_length(Core *self) { return self->order.count; }

static PyObject *core_clear(Core *self, PyObject *Py_UNUSED(none)) {
    empty(self);
    Py_RETURN_NONE;
}

static PyObject *core_count_prefix(Core *self, PyObject *prefix) {
    Sought sought;
    int read = read_prefix(self, prefix, &sought);
    if (read < 0) return NULL;
    if (read == 0 || self->form.letters[0] == NO_KEYS) {
        if (read) let_go(&sought);
        return PyLong_FromLong(0);
    }
    size_t count = art_bytes_count_prefix(&self->by_bytes, sought.bytes, sought.len);
    let_go(&sought);
    return PyLong_FromSize_t(count);
}

static PyObject *core_size(Core *self, PyObject *Py_UNUSED(none)) {
    size_t blocks = self->order.spare ? 1 : 0;
    for (const Block *block = self->order.first; block; block = block->after) blocks++;
    size_t begins = self->order.begins ? (self->order.begins_count + 1) * sizeof(struct Begin) : 0;
    size_t hints = self->memo.slots ? (self->memo.mask + 1) * sizeof *self->memo.slots : 0;
    return PyLong_FromSize_t(sizeof *self + self->order.room * sizeof(Entry) + blocks * sizeof(Block) + begins + hints);
}

static PyObject *core_iter(Core *self) { return walk_all(self, KEYS, 0); }

static PyObject *core_reversed(Core *self, PyObject *Py_UNUSED(none)) { return walk_all(self, KEYS, 1); }

/* Reads which ends a range has. */
static int read_inclusive(PyObject *inclusive, bool ends[2]) {
    ends[0] = ends[1] = true;
    if (!inclusive) return 0;
    PyObject *pair = PySequence_Tuple(inclusive);
    if (pair && PyTuple_Size(pair) == 2) {
        int first = PyObject_IsTrue(PyTuple_GetItem(pair, 0)), second = first < 0 ? -1 : PyObject_IsTrue(PyTuple_GetItem(pair, 1));
        Py_DECREF(pair);
        ends[0] = first > 0;
        ends[1] = second > 0;
        return second < 0 ? -1 : 0;
    }
    if (pair || PyErr_ExceptionMatches(PyExc_TypeError))
        PyErr_SetString(PyExc_TypeError, "inclusive is a pair of booleans, for the minimum and for the maximum, as (True, False)");
    Py_XDECREF(pair);
    return -1;
}

static PyObject *core_irange(Core *self, PyObject *const *given, Py_ssize_t positional, PyObject *names) {
    static const Takes takes = {"irange", {"minimum", "maximum", "inclusive", "reverse"}, 4, 0};
    PyObject *arguments[4];
    bool ends[2];
    if (take_arguments(&takes, given, positional, names, arguments) < 0 || read_inclusive(arguments[2], ends) < 0) return NULL;
    int reverse = arguments[3] ? PyObject_IsTrue(arguments[3]) : 0;
    if (reverse < 0) return NULL;
    return walk_range(self, arguments[0] ? arguments[0] : Py_None, arguments[1] ? arguments[1] : Py_None, ends[0], ends[1], reverse);
}

static PyObject *core_prefix(Core *self, PyObject *const *given, Py_ssize_t positional, PyObject *names) {
    static const Takes takes = {"prefix", {"prefix", "reverse"}, 2, 1};
    PyObject *arguments[2];
    if (take_arguments(&takes, given, positional, names, arguments) < 0) return NULL;
    int reverse = arguments[1] ? PyObject_IsTrue(arguments[1]) : 0;
    return reverse < 0 ? NULL : walk_prefix(self, arguments[0], reverse);
}

static PyObject *core_islice(Core *self, PyObject *const *given, Py_ssize_t positional, PyObject *names) {
    static const Takes takes = {"islice", {"start", "stop", "reverse"}, 3, 0};
    PyObject *arguments[3];
    if (take_arguments(&takes, given, positional, names, arguments) < 0) return NULL;
    int reverse = arguments[2] ? PyObject_IsTrue(arguments[2]) : 0;
    Py_ssize_t start = reverse < 0 ? -1 : read_slice_bound(self, arguments[0], 0);
    Py_ssize_t stop = start < 0 ? -1 : read_slice_bound(self, arguments[1], self->order.count);
    return stop < 0 ? NULL : walk_slice(self, KEYS, start, stop, reverse);
}

/* _slice(given, start, stop, reverse): what a walk gives of the entries between two indexes. */
static PyObject *core_slice(Core *self, PyObject *arguments) {
    int given, reverse;
    Py_ssize_t start, stop;
    if (!PyArg_ParseTuple(arguments, "innp", &given, &start, &stop, &reverse)) return NULL;
    return walk_slice(self, given, start, stop, reverse);
}

/* _walk(given, reverse) */
static PyObject *core_walk(Core *self, PyObject *const *given, Py_ssize_t positional) {
    long what = positional == 2 ? PyLong_AsLong(given[0]) : -1;
    if (what < KEYS || what > ITEMS) return PyErr_Occurred() ? NULL : PyErr_Format(PyExc_TypeError, "_walk takes what is given, and whether in reverse");
    return walk_all(self, (Given)what, given[1] == Py_True);
}

/* _at(given, index): what a walk gives of the entry at an index. */
static PyObject *core_at(Core *self, PyObject *const *given, Py_ssize_t positional) {
    long what = positional == 2 ? PyLong_AsLong(given[0]) : -1;
    if (what < KEYS || what > ITEMS) return PyErr_Occurred() ? NULL : PyErr_Format(PyExc_TypeError, "_at takes what is given, and an index");
    Py_ssize_t index = read_index(self, given[1]);
    if (index < 0) return NULL;
    Position position = position_at(&self->order, (size_t)index);
    return given_of(&self->order, position.block, position.at, (Given)what);
}

/* How many entries come before a key, or with it. -1 with an error set. */
static Py_ssize_t rank_of(Core *self, PyObject *key, bool with_key) {
    Sought sought;
    Position position;
    if (read_first(self, key, true, &sought) < 0) return -1;
    int done = sought.where == NOT_A_NUMBER ? has_no_place(&sought) : find_from(self, &sought, !with_key, &position);
    let_go(&sought);
    return done < 0 ? -1 : index_of(&self->order, position);
}

static PyObject *core_bisect_left(Core *self, PyObject *key) {
    Py_ssize_t rank = rank_of(self, key, false);
    return rank < 0 ? NULL : PyLong_FromSsize_t(rank);
}

static PyObject *core_bisect_right(Core *self, PyObject *key) {
    Py_ssize_t rank = rank_of(self, key, true);
    return rank < 0 ? NULL : PyLong_FromSsize_t(rank);
}

static PyObject *core_index(Core *self, PyObject *const *given, Py_ssize_t positional, PyObject *names) {
    static const Takes takes = {"index", {"key", "start", "stop"}, 3, 1};
    PyObject *arguments[3];
    Entry *entry;
    if (take_arguments(&takes, given, positional, names, arguments) < 0) return NULL;
    Py_ssize_t start = read_slice_bound(self, arguments[1], 0), stop = start < 0 ? -1 : read_slice_bound(self, arguments[2], PY_SSIZE_T_MAX);
    if (stop < 0) return NULL;
    int found = look(self, arguments[0], &entry);
    if (found < 0) return NULL;
    Py_ssize_t rank = found ? index_of(&self->order, position_of(&self->order, (size_t)(entry - self->order.entries))) : -1;
    if (rank >= start && rank < stop) return PyLong_FromSsize_t(rank);
    return PyErr_Format(PyExc_ValueError, "%R is not in it", arguments[0]);
}

/* ---- the calls of a map */

static PyObject *map_get_item(Core *self, PyObject *key) {
    Entry *entry;
    int found = look(self, key, &entry);
    if (found == 0) PyErr_SetObject(PyExc_KeyError, key);
    if (found <= 0) return NULL;
    Py_INCREF(entry->value);
    return entry->value;
}

static int map_set_item(Core *self, PyObject *key, PyObject *value) {
    if (value) return set_item(self, key, value);
    Entry taken;
    int found = take(self, key, &taken);
    if (found == 0) PyErr_SetObject(PyExc_KeyError, key);
    if (found <= 0) return -1;
    Py_DECREF(taken.key);
    Py_DECREF(taken.value);
    return 0;
}

static PyObject *map_get(Core *self, PyObject *const *given, Py_ssize_t positional, PyObject *names) {
    static const Takes takes = {"get", {"key", "default"}, 2, 1};
    PyObject *arguments[2];
    if (take_arguments(&takes, given, positional, names, arguments) < 0) return NULL;
    Entry *entry;
    int found = look(self, arguments[0], &entry);
    if (found < 0) return NULL;
    PyObject *value = found ? entry->value : arguments[1] ? arguments[1] : Py_None;
    Py_INCREF(value);
    return value;
}

static PyObject *map_setdefault(Core *self, PyObject *const *given, Py_ssize_t positional, PyObject *names) {
    static const Takes takes = {"setdefault", {"key", "default"}, 2, 1};
    PyObject *arguments[2];
    if (take_arguments(&takes, given, positional, names, arguments) < 0) return NULL;
    Entry *entry;
    int found = look(self, arguments[0], &entry);
    PyObject *value = found == 1 ? entry->value : arguments[1] ? arguments[1] : Py_None;
    Py_INCREF(value);
    /* A class over the map may set it in its own way. */
    if (found >= 0 && (found == 1 || PyObject_SetItem((PyObject *)self, arguments[0], value) == 0)) return value;
    Py_DECREF(value);
    return NULL;
}

static PyObject *map_pop(Core *self, PyObject *const *given, Py_ssize_t positional, PyObject *names) {
    static const Takes takes = {"pop", {"key", "default"}, 2, 1};
    PyObject *arguments[2];
    if (take_arguments(&takes, given, positional, names, arguments) < 0) return NULL;
    Entry taken;
    int found = take(self, arguments[0], &taken);
    if (found < 0) return NULL;
    if (found) {
        Py_DECREF(taken.key);
        return taken.value;
    }
    if (!arguments[1]) PyErr_SetObject(PyExc_KeyError, arguments[0]);
    Py_XINCREF(arguments[1]);
    return arguments[1];
}

static PyObject *map_peekitem(Core *self, PyObject *const *given, Py_ssize_t positional, PyObject *names) {
    static const Takes takes = {"peekitem", {"index"}, 1, 0};
    PyObject *index;
    if (take_arguments(&takes, given, positional, names, &index) < 0) return NULL;
    Py_ssize_t at = read_index(self, index);
    if (at < 0) return NULL;
    Position position = position_at(&self->order, (size_t)at);
    return given_of(&self->order, position.block, position.at, ITEMS);
}

/* Removes the entry at an index, whose references become the caller's. No code runs where it is removed. */
static int take_at(Core *self, Py_ssize_t index, Entry *taken) {
    Position position = position_at(&self->order, (size_t)index);
    PyObject *key = position.block->keys[position.at];
    Py_INCREF(key);
    int found = take(self, key, taken);
    Py_DECREF(key);
    /* Only the class of an address that was changed has it at 0. */
    if (found == 0) PyErr_SetString(PyExc_RuntimeError, "the key has changed since it was added");
    return found == 1 ? 0 : -1;
}

static PyObject *map_popitem(Core *self, PyObject *const *given, Py_ssize_t positional, PyObject *names) {
    static const Takes takes = {"popitem", {"index", "last"}, 2, 0};
    PyObject *arguments[2];
    if (positional > 1 || take_arguments(&takes, given, positional, names, arguments) < 0) {
        if (!PyErr_Occurred()) wrong_arguments(&takes);
        return NULL;
    }
    int last = arguments[1] ? PyObject_IsTrue(arguments[1]) : 1;
    if (last < 0) return NULL;
    if (self->order.count == 0) return PyErr_Format(PyExc_KeyError, "popitem(): the map is empty");
    Py_ssize_t index = last ? read_index(self, arguments[0]) : 0;
    PyObject *item = index < 0 ? NULL : PyTuple_New(2);
    Entry taken;
    /* A tuple that is made may run the collector, and so any code. */
    if (!item || index >= self->order.count || take_at(self, index, &taken) < 0) {
        if (item && !PyErr_Occurred()) PyErr_SetString(PyExc_RuntimeError, "the map or set changed during a call");
        Py_XDECREF(item);
        return NULL;
    }
    PyTuple_SetItem(item, 0, taken.key);
    PyTuple_SetItem(item, 1, taken.value);
    return item;
}

/* Sets a pair of an iterator. */
static int set_pair(Core *self, PyObject *pair) {
    PyObject *both = PySequence_Tuple(pair);
    if (!both) return -1;
    int done = -1;
    if (PyTuple_Size(both) == 2) {
        done = set_item(self, PyTuple_GetItem(both, 0), PyTuple_GetItem(both, 1));
    } else {
        PyErr_Format(PyExc_ValueError, "a pair of a key and a value is needed, and not %zd objects", PyTuple_Size(both));
    }
    Py_DECREF(both);
    return done;
}

/* Sets what an iterator gives: pairs, or where a value is given keys. */
static PyObject *set_each(Core *self, PyObject *from, PyObject *value) {
    PyObject *steps = PyObject_GetIter(from), *step;
    if (!steps) return NULL;
    while ((step = PyIter_Next(steps))) {
        int done = value ? set_item(self, step, value) : set_pair(self, step);
        Py_DECREF(step);
        if (done < 0) break;
    }
    Py_DECREF(steps);
    if (PyErr_Occurred()) return NULL;
    Py_RETURN_NONE;
}

/* Sets all entries of what has them: of a dict, a map or set of this module, a list or a tuple at once, where that serves. */
static PyObject *set_all(Core *self, PyObject *from, PyObject *value) {
    Pairs pairs;
    bool is_core = PyObject_TypeCheck(from, map_type) || (value && PyObject_TypeCheck(from, set_type));
    int has_pairs = is_core ? pairs_of_order(&((Core *)from)->order, value, &pairs, 0) : pairs_of(from, value, &pairs);
    if (has_pairs == 0) return set_each(self, from, value);
    if (has_pairs < 0 || set_pairs(self, &pairs) < 0) return NULL;
    Py_RETURN_NONE;
}

/* _set_each(pairs): sets the entries of a dict, of a SortedMap, or of pairs, and where one is refused those before it. */
static PyObject *map_set_each(Core *self, PyObject *from) { return set_all(self, from, NULL); }

/* _set_keys(keys, value): sets each of these keys to a value. */
static PyObject *map_set_keys(Core *self, PyObject *const *given, Py_ssize_t positional) {
    if (positional == 2) return set_all(self, given[0], given[1]);
    return PyErr_Format(PyExc_TypeError, "_set_keys takes keys and a value");
}

#include "_equal.h"

/* _equals(other): whether a dict or a SortedMap of as many entries has the same ones; None: it has to be compared as a dict. */
static PyObject *map_equals(Core *self, PyObject *other) {
    int equal = PyDict_Check(other) ? equals_dict(self, other) : PyObject_TypeCheck(other, map_type) ? equals_map(self, (Core *)other) : -1;
    if (PyErr_Occurred()) return NULL;
    if (equal >= 0) return PyBool_FromLong(equal);
    Py_RETURN_NONE;
}

#include "_set.h"

/* ---- the types */

static PyObject *core_new(PyTypeObject *base, PyTypeObject *type) {
    Core *self = (Core *)made_over(base, type);
    if (self) begin_order(&self->order);
    return (PyObject *)self;
}

static PyObject *map_new(PyTypeObject *type, PyObject *Py_UNUSED(arguments), PyObject *Py_UNUSED(named)) { return core_new(map_type, type); }

static PyObject *set_new(PyTypeObject *type, PyObject *Py_UNUSED(arguments), PyObject *Py_UNUSED(named)) { return core_new(set_type, type); }

static int core_traverse(Core *self, visitproc visit, void *arg) {
    Py_VISIT(Py_TYPE(self));
    /* Keys of built-in types have no others behind them. */
    bool with_keys = strpbrk(self->form.letters, "46") != NULL;
    for (size_t place = 0; place < self->order.used; place++) {
        if (!self->order.entries[place].key) continue;
        if (with_keys) Py_VISIT(self->order.entries[place].key);
        Py_VISIT(self->order.entries[place].value);
    }
    return 0;
}

static int core_let_go(Core *self) {
    empty(self);
    return 0;
}

static void core_dealloc(Core *self) {
    PyTypeObject *type = Py_TYPE(self);
    PyObject_GC_UnTrack(self);
    empty(self);
    ((freefunc)PyType_GetSlot(type, Py_tp_free))(self);
    Py_DECREF(type);
}

#define WITH_NAMES(call) ((PyCFunction)(void (*)(void))(call)), METH_FASTCALL | METH_KEYWORDS
#define WITHOUT_NAMES(call) ((PyCFunction)(void (*)(void))(call)), METH_FASTCALL

#define CALLS_OF_BOTH                                                                                                             \
    {"clear", (PyCFunction)core_clear, METH_NOARGS, "clear($self, /)\n--\n\nRemoves all. The next key may be of another type."},   \
    {"count_prefix", (PyCFunction)core_count_prefix, METH_O,                                                                      \
     "count_prefix($self, prefix, /)\n--\n\nHow many keys begin with a prefix. Takes time linear in their number."},              \
    {"irange", WITH_NAMES(core_irange),                                                                                           \
     "irange($self, minimum=None, maximum=None, inclusive=(True, True), reverse=False)\n--\n\n"                                   \
     "The keys between two keys, in their order or the reverse; None is no bound."},                                              \
    {"prefix", WITH_NAMES(core_prefix),                                                                                           \
     "prefix($self, prefix, reverse=False)\n--\n\nThe keys that begin with a prefix: of bytes, of a str, or the first parts of a tuple."}, \
    {"islice", WITH_NAMES(core_islice),                                                                                           \
     "islice($self, start=None, stop=None, reverse=False)\n--\n\n"                                                                \
     "The keys from one index up to before another, in their order or the reverse; None is no bound."},                           \
    {"bisect_left", (PyCFunction)core_bisect_left, METH_O, "bisect_left($self, key, /)\n--\n\nThe index of the first key at or after this one."}, \
    {"bisect_right", (PyCFunction)core_bisect_right, METH_O, "bisect_right($self, key, /)\n--\n\nThe index of the first key after this one."},    \
    {"bisect", (PyCFunction)core_bisect_right, METH_O, "bisect($self, key, /)\n--\n\nThe index of the first key after this one."}, \
    {"index", WITH_NAMES(core_index),                                                                                             \
     "index($self, key, start=None, stop=None)\n--\n\nThe index of a key, which is between two where they are given, else ValueError."}, \
    {"__reversed__", (PyCFunction)core_reversed, METH_NOARGS, NULL},                                                              \
    {"__sizeof__", (PyCFunction)core_size, METH_NOARGS, "The memory of all, without the library's and the keys and values."},      \
    {"_slice", (PyCFunction)core_slice, METH_VARARGS, NULL},                                                                      \
    {"_at", WITHOUT_NAMES(core_at), NULL}

static PyMethodDef map_methods[] = {
    CALLS_OF_BOTH,
    {"get", WITH_NAMES(map_get), "get($self, key, default=None)\n--\n\nThe value of a key, or the default."},
    {"setdefault", WITH_NAMES(map_setdefault),
     "setdefault($self, key, default=None)\n--\n\nThe value of a key, which is set to the default where there is none."},
    {"pop", WITH_NAMES(map_pop), "Removes a key and returns its value, else the default, else raises KeyError."},
    {"peekitem", WITH_NAMES(map_peekitem), "peekitem($self, index=-1)\n--\n\nThe key and value at an index."},
    {"popitem", WITH_NAMES(map_popitem),
     "popitem($self, index=-1, *, last=True)\n--\n\n"
     "Removes the entry at an index, or with `last=False` the first one, and returns its key and value."},
    {"_equals", (PyCFunction)map_equals, METH_O, NULL},
    {"_walk", WITHOUT_NAMES(core_walk), NULL},
    {"_set_each", (PyCFunction)map_set_each, METH_O, NULL},
    {"_set_keys", WITHOUT_NAMES(map_set_keys), NULL},
    {NULL, NULL, 0, NULL},
};

#define SLOTS_OF_BOTH \
    {Py_tp_traverse, core_traverse}, {Py_tp_clear, core_let_go}, {Py_tp_dealloc, core_dealloc}, {Py_tp_iter, core_iter}, {Py_sq_contains, core_contains}

static PyType_Slot map_slots[] = {
    SLOTS_OF_BOTH,
    {Py_tp_new, map_new},
    {Py_tp_methods, map_methods},
    {Py_mp_subscript, map_get_item},
    {Py_mp_ass_subscript, map_set_item},
    {Py_mp_length, core_length},
    {0, NULL},
};

static PyMethodDef set_methods[] = {
    CALLS_OF_BOTH,
    {"add", (PyCFunction)set_add, METH_O, "add($self, key, /)\n--\n\nAdds a key, where it is not there."},
    {"discard", (PyCFunction)set_discard, METH_O, "discard($self, key, /)\n--\n\nRemoves a key, where it is there."},
    {"remove", (PyCFunction)set_remove, METH_O, "remove($self, key, /)\n--\n\nRemoves a key, else raises KeyError."},
    {"pop", WITH_NAMES(set_pop), "pop($self, index=-1)\n--\n\nRemoves the key at an index, and returns it."},
    {"_add_each", (PyCFunction)set_add_each, METH_O, NULL},
    {"_merged", WITHOUT_NAMES(set_merged), NULL},
    {"_chosen_by", WITHOUT_NAMES(set_chosen_by), NULL},
    {"_has_none", WITHOUT_NAMES(set_has_none), NULL},
    {"_has_each", (PyCFunction)set_has_each, METH_O, NULL},
    {"_equals", (PyCFunction)set_equals, METH_O, NULL},
    {NULL, NULL, 0, NULL},
};

static PyType_Slot set_slots[] = {
    SLOTS_OF_BOTH,
    {Py_tp_new, set_new},
    {Py_tp_methods, set_methods},
    {Py_sq_length, core_length},
    {0, NULL},
};

#define FLAGS (Py_TPFLAGS_DEFAULT | Py_TPFLAGS_HAVE_GC | Py_TPFLAGS_BASETYPE)

static PyType_Spec map_spec = {"verified_art._in_c.Core", sizeof(Core), 0, FLAGS, map_slots};

static PyType_Spec set_spec = {"verified_art._in_c.SetCore", sizeof(Core), 0, FLAGS, set_slots};

#include "_routes.h"

static struct PyModuleDef module = {PyModuleDef_HEAD_INIT, "_in_c", "The entries of a SortedMap or SortedSet, and the routes of a RouteTable.", -1, NULL, NULL, NULL, NULL, NULL};

PyMODINIT_FUNC PyInit__in_c(void) {
    PyObject *made = PyModule_Create(&module);
    PyObject *version = PyUnicode_FromFormat("%u.%u.%u", ART_VERSION_MAJOR, ART_VERSION_MINOR, ART_VERSION_PATCH);
    map_type = (PyTypeObject *)PyType_FromSpec(&map_spec);
    set_type = (PyTypeObject *)PyType_FromSpec(&set_spec);
    routes_type = (PyTypeObject *)PyType_FromSpec(&routes_spec);
    walk_type = (PyTypeObject *)PyType_FromSpec(&walk_spec);
    route_walk_type = (PyTypeObject *)PyType_FromSpec(&route_walk_spec);
    if (!made || !version || make_names() < 0 || !map_type || !set_type || !routes_type || !walk_type || !route_walk_type ||
        PyModule_AddObjectRef(made, "Core", (PyObject *)map_type) < 0 || PyModule_AddObjectRef(made, "SetCore", (PyObject *)set_type) < 0 ||
        PyModule_AddObjectRef(made, "Routes", (PyObject *)routes_type) < 0 || PyModule_AddObjectRef(made, "__version__", version) < 0)
        Py_CLEAR(made);
    Py_XDECREF(version);
    return made;
}
