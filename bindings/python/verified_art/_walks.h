/* The walks over the entries of a SortedMap or SortedSet, and where they begin and end. */
#ifndef WALKS_H
#define WALKS_H
#include "_entries.h"

typedef enum { KEYS, VALUES, ITEMS } Given;

typedef struct {
    PyObject_HEAD
    Core *map; /* NULL: at its end */
    Block *block;
    size_t at, stop; /* of the block: forward the next entry and the end, in reverse one more than the next entry and than the end */
    Position end;    /* of all */
    size_t changes;
    Given given;
    int reverse;
} Walk;

static PyTypeObject *walk_type;

/* ---- steps */

/* Sets where a walk is in its block: up to its end, or to that of all. */
static void enter(Walk *self, Position at) {
    Position end = self->end;
    self->block = at.block;
    self->at = at.at;
    if (!at.block) {
        self->stop = self->at;
    } else if (self->reverse) {
        self->stop = at.block == end.block ? end.at : 0;
    } else {
        self->stop = at.block == end.block ? end.at : at.block->count;
    }
}

/* A walk over the entries from one position up to before another, or down from before that one. The first is no later one. */
static PyObject *walk_between(Core *self, Given given, Position low, Position high, int reverse) {
    size_t changes = self->order.changes;
    Position at = low, end = high;
    if (reverse) {
        at = high.block ? high : self->order.last ? (Position){self->order.last, self->order.last->count} : END;
        end = low.block ? low : at;
    }
    /* This may run the collector, and so any code: where the map then changes, the first step is an error. */
    Walk *walk = (Walk *)((allocfunc)PyType_GetSlot(walk_type, Py_tp_alloc))(walk_type, 0);
    if (!walk) return NULL;
    Py_INCREF(self);
    walk->map = self;
    walk->end = end;
    walk->changes = changes;
    walk->given = given;
    walk->reverse = reverse;
    if (changes == self->order.changes) enter(walk, at);
    return (PyObject *)walk;
}

static PyObject *walk_nothing(Core *self, Given given) { return walk_between(self, given, END, END, 0); }

static PyObject *walk_all(Core *self, Given given, int reverse) {
    return walk_between(self, given, first_position(&self->order), END, reverse);
}

static PyObject *given_of(const Order *order, const Block *block, size_t at, Given given) {
    PyObject *key = block->keys[at];
    if (given == KEYS) {
        Py_INCREF(key);
        return key;
    }
    PyObject *value = order->entries[block->places[at]].value;
    Py_INCREF(value);
    if (given == VALUES) return value;
    /* A tuple that is made may run the collector, and so any code: both are held meanwhile. */
    Py_INCREF(key);
    PyObject *item = PyTuple_Pack(2, key, value);
    Py_DECREF(key);
    Py_DECREF(value);
    return item;
}

/* Asks for the memory of steps to come, which lies anywhere. */
static inline void fetch_ahead(const Order *order, const Block *block, size_t at, const Walk *walk) {
    size_t near = walk->reverse ? at - 6 : at + 6, far = walk->reverse ? at - 12 : at + 12;
    if (walk->given != VALUES && near < block->count) __builtin_prefetch(block->keys[near], 1);
    if (near < block->count) __builtin_prefetch(order->entries[block->places[near]].value, 1);
    if (far < block->count) __builtin_prefetch(&order->entries[block->places[far]]);
}

/* Goes to the next block of a walk that has done its own: whether there is one. */
static bool enter_next(Walk *self) {
    Block *block = self->block;
    if (!block || block == self->end.block) return false;
    Block *next = self->reverse ? block->before : block->after;
    if (!next) return false;
    enter(self, (Position){next, self->reverse ? next->count : 0});
    return self->at != self->stop;
}

static PyObject *walk_next(Walk *self) {
    Core *map = self->map;
    if (!map) return NULL;
    if (self->changes != map->order.changes) return PyErr_Format(PyExc_RuntimeError, "the map or set changed during iteration");
    if (self->at == self->stop && !enter_next(self)) {
        self->map = NULL;
        Py_DECREF(map);
        return NULL;
    }
    const Block *block = self->block;
    size_t at = self->reverse ? --self->at : self->at++;
    if (self->given == KEYS) {
        PyObject *key = block->keys[at];
        size_t near = self->reverse ? at - 8 : at + 8;
        if (near < block->count) __builtin_prefetch(block->keys[near], 1);
        Py_INCREF(key);
        return key;
    }
    fetch_ahead(&map->order, block, at, self);
    PyObject *given = given_of(&map->order, block, at, self->given);
    if (!given) self->at = self->reverse ? at + 1 : at;
    return given;
}

static int walk_traverse(Walk *self, visitproc visit, void *arg) {
    Py_VISIT(Py_TYPE(self));
    Py_VISIT(self->map);
    return 0;
}

static int walk_clear(Walk *self) {
    Py_CLEAR(self->map);
    return 0;
}

static void walk_dealloc(Walk *self) {
    PyTypeObject *type = Py_TYPE(self);
    PyObject_GC_UnTrack(self);
    walk_clear(self);
    ((freefunc)PyType_GetSlot(type, Py_tp_free))(self);
    Py_DECREF(type);
}

static PyType_Slot walk_slots[] = {
    {Py_tp_iter, PyObject_SelfIter}, {Py_tp_iternext, walk_next},   {Py_tp_traverse, walk_traverse},
    {Py_tp_clear, walk_clear},       {Py_tp_dealloc, walk_dealloc}, {0, NULL},
};

static PyType_Spec walk_spec = {
    "verified_art._in_c.Walk", sizeof(Walk), 0, Py_TPFLAGS_DEFAULT | Py_TPFLAGS_HAVE_GC | Py_TPFLAGS_DISALLOW_INSTANTIATION, walk_slots,
};

/* ---- ranges */

/* Reads a bound of a form, or of none where it is None. */
static int read_bound(const Form *form, PyObject *bound, Sought *sought) {
    begin_sought(sought);
    if (bound == Py_None) return 0;
    if (read_key(form, bound, true, sought) < 0) return -1;
    if (sought->where != NOT_A_NUMBER) return 0;
    let_go(sought);
    return has_no_place(sought);
}

/* The walk between two bounds that were read. */
static PyObject *walk_bounds(Core *self, const Sought *from, const Sought *to, bool with_minimum, bool with_maximum, int reverse) {
    Position low = first_position(&self->order), high = END;
    if (from && to) {
        int order = compare_keys(from, to);
        if (order > 0 || (order == 0 && !(with_minimum && with_maximum))) return walk_nothing(self, KEYS);
    }
    if (from && find_from(self, from, with_minimum, &low) < 0) return NULL;
    if (to && find_from(self, to, !with_maximum, &high) < 0) return NULL;
    if (!low.block || is_same(low, high)) return walk_nothing(self, KEYS);
    return walk_between(self, KEYS, low, high, reverse);
}

/* The form that bounds have where the map has no keys: of two, of which one may be the first parts of a tuple, the longer one. */
static int form_of_bounds(PyObject *minimum, PyObject *maximum, Form *form) {
    Form other = {0};
    memset(form, 0, sizeof *form);
    if (minimum != Py_None && form_of(minimum, form) < 0) return -1;
    if (maximum != Py_None && form_of(maximum, &other) < 0) return -1;
    if (strlen(other.letters) > strlen(form->letters)) *form = other;
    return 0;
}

/* The keys between two bounds. */
static PyObject *walk_range(Core *self, PyObject *minimum, PyObject *maximum, bool with_minimum, bool with_maximum, int reverse) {
    bool is_from = minimum != Py_None, is_to = maximum != Py_None, has_none = self->form.letters[0] == NO_KEYS;
    Form form = self->form;
    Sought from, to;
    /* Where the map has no keys, the bounds are of one form all the same. */
    if (has_none && form_of_bounds(minimum, maximum, &form) < 0) return NULL;
    if (read_bound(&form, minimum, &from) < 0) return NULL;
    PyObject *walk = NULL;
    if (read_bound(&form, maximum, &to) == 0) {
        if (strcmp(self->form.letters, has_none ? "" : form.letters) != 0) {
            PyErr_SetString(PyExc_RuntimeError, "the map or set changed during a call");
        } else {
            walk = walk_bounds(self, is_from ? &from : NULL, is_to ? &to : NULL, with_minimum, with_maximum, reverse);
        }
        let_go(&to);
    }
    let_go(&from);
    return walk;
}

/* Whether the keys have prefixes, else with an error set. */
static bool has_prefixes(PyObject *prefix) {
    char kind = kind_of(prefix);
    if (kind == NO_KEYS || kind == STR_KEYS || kind == BYTES_KEYS || kind == TUPLE_KEYS) return true;
    PyErr_SetString(PyExc_TypeError, "a prefix is a str, bytes, or the first parts of a tuple");
    return false;
}

/* Reads a prefix of keys: 1, or 0 where no key has it, or -1 with an error set. */
static int read_prefix(Core *self, PyObject *prefix, Sought *sought) {
    if (read_first(self, prefix, true, sought) < 0) return -1;
    if (has_prefixes(prefix)) {
        if (sought->where == WITHIN) return 1;
        let_go(sought);
        return 0;
    }
    let_go(sought);
    return -1;
}

/* The keys that begin with a prefix. */
static PyObject *walk_prefix(Core *self, PyObject *prefix, int reverse) {
    Sought sought;
    int read = read_prefix(self, prefix, &sought);
    if (read <= 0) return read < 0 ? NULL : walk_nothing(self, KEYS);
    Position low = END, high = END;
    int done = find_from(self, &sought, true, &low);
    if (done == 0 && low.block) done = find_beyond(self, sought.bytes, sought.len, &high);
    let_go(&sought);
    if (done < 0) return NULL;
    return low.block && !is_same(low, high) ? walk_between(self, KEYS, low, high, reverse) : walk_nothing(self, KEYS);
}

/* The entries from one index up to before another. */
static PyObject *walk_slice(Core *self, Given given, Py_ssize_t start, Py_ssize_t stop, int reverse) {
    if (start < 0) start = 0;
    if (stop > self->order.count) stop = self->order.count;
    if (start >= stop) return walk_nothing(self, given);
    Position low = position_at(&self->order, (size_t)start), high = END;
    if (stop < self->order.count) high = position_at(&self->order, (size_t)stop);
    return walk_between(self, given, low, high, reverse);
}
#endif
