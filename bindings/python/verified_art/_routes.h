/* The routes of a RouteTable: the library's table has the place of each value. */
#ifndef ROUTES_H
#define ROUTES_H
#include "_networks.h"

#define NO_PLACE SIZE_MAX

typedef struct {
    PyObject_HEAD
    art_routes_map table; /* from the object's making to its end */
    PyObject **values;    /* at a free place stands the next free one, twice and one more, as an address never does */
    size_t room, used, free_place;
    Py_ssize_t count;
} Routes;

static PyTypeObject *routes_type;

/* ---- the values, by their places */

/* A place for one more value. */
static int take_place(Routes *self, size_t *place) {
    if (self->free_place != NO_PLACE) {
        *place = self->free_place;
        self->free_place = (size_t)self->values[*place] >> 1;
        if (self->free_place == NO_PLACE >> 1) self->free_place = NO_PLACE;
        return 0;
    }
    if (self->used == self->room) {
        size_t room = self->room ? 2 * self->room : 8;
        PyObject **values = PyMem_Realloc(self->values, room * sizeof *values);
        if (!values) return refused(ART_NO_MEMORY);
        self->values = values;
        self->room = room;
    }
    *place = self->used++;
    return 0;
}

static void free_at(Routes *self, size_t place) {
    self->values[place] = (PyObject *)(self->free_place << 1 | 1);
    self->free_place = place;
}

static bool is_free(const PyObject *value) { return (size_t)value & 1; }

/* ---- the calls of a mapping */

/* The status of a call of the library: 1 where it found a route, 0 where there is none, or -1 with an error set. */
static int route_found(uint32_t status, PyObject *key) {
    if (status <= ART_SOME) return (int)status;
    return status == ART_BAD_NETWORK ? no_network(key) : refused(status);
}

/* The longest route that covers a network. */
static int longest(Routes *self, PyObject *key, const Net *net, uint8_t *length, uint64_t *place) {
    if (net->length == bits_of(net)) return route_found(art_routes_longest_match(&self->table, net->address, net->width, length, place), key);
    size_t count = 0;
    uint32_t status = art_routes_covering(&self->table, net->address, net->width, (uint8_t)net->length, length, 1, place, 1, &count);
    return status == ART_NONE ? (int)count : route_found(status, key);
}

/* Finds the value of the longest route: 1, or 0 where there is none, or -1 with an error set. */
static int look_up(Routes *self, PyObject *key, PyObject **value) {
    Net net;
    uint8_t length;
    uint64_t place;
    if (read_net(key, &net) < 0) return -1;
    int found = longest(self, key, &net, &length, &place);
    if (found == 1) *value = self->values[place];
    return found;
}

static PyObject *routes_get_item(Routes *self, PyObject *key) {
    PyObject *value;
    int found = look_up(self, key, &value);
    if (found == 0) PyErr_SetObject(PyExc_KeyError, key);
    if (found <= 0) return NULL;
    Py_INCREF(value);
    return value;
}

static int routes_contains(Routes *self, PyObject *key) {
    PyObject *value;
    return look_up(self, key, &value);
}

static PyObject *routes_get(Routes *self, PyObject *const *arguments, Py_ssize_t positional, PyObject *names) {
    Py_ssize_t named = names ? PyTuple_Size(names) : 0;
    if (positional < 1 || positional + named > 2 ||
        (named && PyUnicode_CompareWithASCIIString(PyTuple_GetItem(names, 0), "default") != 0)) {
        PyErr_SetString(PyExc_TypeError, "get takes a network and a default");
        return NULL;
    }
    PyObject *value = positional + named == 2 ? arguments[1] : Py_None;
    if (look_up(self, arguments[0], &value) < 0) return NULL;
    Py_INCREF(value);
    return value;
}

static int take_route(Routes *self, PyObject *key, PyObject **value) {
    Net net;
    uint64_t place;
    if (read_net(key, &net) < 0) return -1;
    int found = route_found(art_routes_remove(&self->table, net.address, net.width, (uint8_t)net.length, &place), key);
    if (found == 1) {
        *value = self->values[place];
        free_at(self, place);
        self->count--;
    }
    return found;
}

static int routes_set_item(Routes *self, PyObject *key, PyObject *value) {
    Net net;
    PyObject *before = NULL;
    if (!value) {
        int found = take_route(self, key, &before);
        if (found == 0) PyErr_SetObject(PyExc_KeyError, key);
        Py_XDECREF(before);
        return found == 1 ? 0 : -1;
    }
    size_t place;
    uint64_t place_before;
    if (read_net(key, &net) < 0 || take_place(self, &place) < 0) return -1;
    Py_INCREF(value);
    self->values[place] = value;
    uint32_t status = art_routes_insert(&self->table, net.address, net.width, (uint8_t)net.length, place, &place_before);
    if (status > ART_SOME) {
        free_at(self, place);
        Py_DECREF(value);
        return route_found(status, key);
    }
    if (status == ART_SOME) {
        before = self->values[place_before];
        free_at(self, place_before);
    } else {
        self->count++;
    }
    Py_XDECREF(before);
    return 0;
}

static PyObject *routes_set_default(Routes *self, PyObject *const *arguments, Py_ssize_t positional) {
    if (positional < 1 || positional > 2) {
        PyErr_SetString(PyExc_TypeError, "setdefault takes a network and at most a default");
        return NULL;
    }
    Net net;
    size_t place;
    uint64_t found = 0;
    PyObject *value = positional == 2 ? arguments[1] : Py_None;
    if (read_net(arguments[0], &net) < 0 || take_place(self, &place) < 0) return NULL;
    Py_INCREF(value);
    self->values[place] = value;
    uint32_t status = art_routes_get_or_insert(&self->table, net.address, net.width, (uint8_t)net.length, place, &found);
    if (status == ART_NONE) {
        self->count++;
    } else {
        free_at(self, place);
        Py_DECREF(value);
        if (status != ART_SOME) {
            route_found(status, arguments[0]);
            return NULL;
        }
        value = self->values[found];
    }
    Py_INCREF(value);
    return value;
}

static Py_ssize_t routes_length(Routes *self) { return self->count; }

static PyObject *routes_get_key(Routes *self, PyObject *key) {
    Net net;
    uint8_t length;
    uint64_t place;
    if (read_net(key, &net) < 0) return NULL;
    int found = longest(self, key, &net, &length, &place);
    if (found < 0) return NULL;
    if (found == 0) Py_RETURN_NONE;
    cut(&net, length);
    return text_of(&net);
}

static PyObject *routes_has_key(Routes *self, PyObject *key) {
    Net net;
    uint64_t place;
    if (read_net(key, &net) < 0) return NULL;
    int found = route_found(art_routes_get(&self->table, net.address, net.width, (uint8_t)net.length, &place), key);
    return found < 0 ? NULL : PyBool_FromLong(found);
}

static PyObject *routes_parent(Routes *self, PyObject *key) {
    Net net;
    uint8_t length;
    uint64_t place;
    if (read_net(key, &net) < 0) return NULL;
    int found = route_found(art_routes_parent(&self->table, net.address, net.width, (uint8_t)net.length, &length, &place), key);
    if (found < 0) return NULL;
    if (found == 0) Py_RETURN_NONE;
    cut(&net, length);
    return text_of(&net);
}

static PyObject *routes_pop(Routes *self, PyObject *const *arguments, Py_ssize_t positional) {
    if (positional < 1 || positional > 2) {
        PyErr_SetString(PyExc_TypeError, "pop takes a network and at most a default");
        return NULL;
    }
    PyObject *value;
    int found = take_route(self, arguments[0], &value);
    if (found < 0) return NULL;
    if (found) return value;
    if (positional == 2) {
        Py_INCREF(arguments[1]);
        return arguments[1];
    }
    PyErr_SetObject(PyExc_KeyError, arguments[0]);
    return NULL;
}

/* The next route from a network on, and its place: false where there is none. */
static bool next_route(art_routes_map *table, Net *at, bool inclusive, uint64_t *place) {
    uint8_t length = 0;
    uint32_t status = art_routes_next(table, at->address, at->width, (uint8_t)at->length, inclusive, at->address, 16, &at->width, &length, place);
    at->length = length;
    return status == ART_SOME;
}

/* The last one up to it. */
static bool previous_route(art_routes_map *table, Net *at, bool inclusive, uint64_t *place) {
    uint8_t length = 0;
    uint32_t status = art_routes_previous(table, at->address, at->width, (uint8_t)at->length, inclusive, at->address, 16, &at->width, &length, place);
    at->length = length;
    return status == ART_SOME;
}

static PyObject *routes_direct_children(Routes *self, PyObject *key) {
    Net within;
    uint64_t place;
    if (read_net(key, &within) < 0 ||
        route_found(art_routes_get(&self->table, within.address, within.width, (uint8_t)within.length, &place), key) < 0)
        return NULL;
    PyObject *texts = PyList_New(0);
    Net at = within;
    while (texts && next_route(&self->table, &at, false, &place) && covers(&within, at)) {
        PyObject *text = text_of(&at);
        if (!text || PyList_Append(texts, text) < 0) Py_CLEAR(texts);
        Py_XDECREF(text);
        go_to_last(&at);
    }
    return texts;
}

/* The library says how many routes are gone: of those inside the network the first ones. Their values are let go once the
   table is whole. */
static PyObject *routes_remove_covered(Routes *self, PyObject *key) {
    Net within;
    uint64_t place;
    size_t count = 0, inside = 0, room = 0;
    if (read_net(key, &within) < 0 ||
        route_found(art_routes_get(&self->table, within.address, within.width, (uint8_t)within.length, &place), key) < 0)
        return NULL;
    uint64_t *places = NULL; /* and then the values */
    Net at = within;
    for (bool begun = false; next_route(&self->table, &at, !begun, &place) && covers(&within, at); begun = true) {
        if (inside == room) {
            room = room ? 2 * room : 8;
            uint64_t *more = PyMem_Realloc(places, room * sizeof *places);
            if (!more) {
                PyMem_Free(places);
                refused(ART_NO_MEMORY);
                return NULL;
            }
            places = more;
        }
        places[inside++] = place;
    }
    uint32_t status = art_routes_remove_covered(&self->table, within.address, within.width, (uint8_t)within.length, &count);
    size_t gone = (size_t)self->count - art_routes_len(&self->table);
    for (size_t item = 0; item < gone; item++) {
        size_t free_place = (size_t)places[item];
        places[item] = (uintptr_t)self->values[free_place];
        free_at(self, free_place);
    }
    self->count -= (Py_ssize_t)gone;
    for (size_t item = 0; item < gone; item++) Py_DECREF((PyObject *)(uintptr_t)places[item]);
    PyMem_Free(places);
    if (status != ART_NONE) {
        route_found(status, key);
        return NULL;
    }
    return PyLong_FromSize_t(count);
}

/* The most addresses that are looked up in one call of the library. */
#define MANY 256

static PyObject *routes_get_many(Routes *self, PyObject *const *arguments, Py_ssize_t positional, PyObject *names) {
    Py_ssize_t named = names ? PyTuple_Size(names) : 0;
    if (positional < 1 || positional + named > 2 ||
        (named && PyUnicode_CompareWithASCIIString(PyTuple_GetItem(names, 0), "default") != 0)) {
        PyErr_SetString(PyExc_TypeError, "get_many takes addresses and a default");
        return NULL;
    }
    /* A tuple keeps its keys, whatever code their attributes run. */
    PyObject *other = positional + named == 2 ? arguments[1] : Py_None, *keys = PySequence_Tuple(arguments[0]);
    Py_ssize_t size = keys ? PyTuple_Size(keys) : 0;
    PyObject *values = keys ? PyList_New(0) : NULL;
    for (Py_ssize_t done = 0; values && done < size;) {
        uint8_t addresses[16 * MANY], lengths[MANY];
        uint64_t places[MANY];
        size_t many = 0, width = 0, count;
        Net net;
        /* As many as are of one family. */
        for (; many < MANY && done + (Py_ssize_t)many < size; many++) {
            if (read_address(PyTuple_GetItem(keys, done + (Py_ssize_t)many), &net) < 0) {
                Py_CLEAR(values);
                break;
            }
            if (many == 0) width = net.width;
            if (net.width != width) break;
            memcpy(addresses + many * width, net.address, width);
        }
        if (!values) break;
        art_routes_longest_match_many(&self->table, addresses, many * width, width, lengths, many, places, many, &count);
        for (size_t at = 0; values && at < many; at++, done++)
            if (PyList_Append(values, lengths[at] == ART_NO_ROUTE ? other : self->values[places[at]]) < 0) Py_CLEAR(values);
    }
    Py_XDECREF(keys);
    return values;
}

static void drop_routes(Routes *self) {
    PyObject **values = self->values;
    size_t used = self->used;
    art_routes_clear(&self->table);
    self->values = NULL;
    self->room = self->used = 0;
    self->free_place = NO_PLACE;
    self->count = 0;
    for (size_t place = 0; place < used; place++)
        if (!is_free(values[place])) Py_DECREF(values[place]);
    PyMem_Free(values);
}

static PyObject *routes_clear(Routes *self, PyObject *Py_UNUSED(none)) {
    drop_routes(self);
    Py_RETURN_NONE;
}

static PyObject *routes_size(Routes *self, PyObject *Py_UNUSED(none)) {
    return PyLong_FromSize_t(sizeof *self + self->room * sizeof *self->values);
}

/* The routes of a table, each as a pair of its network and its number. */
static PyObject *numbered_routes(art_routes_map *table) {
    PyObject *routes = PyList_New(0);
    Net at = {{0}, 4, 0};
    uint64_t number;
    for (bool begun = false; routes && next_route(table, &at, !begun, &number); begun = true) {
        PyObject *text = text_of(&at), *route = text ? Py_BuildValue("NK", text, (unsigned long long)number) : NULL;
        if (!route || PyList_Append(routes, route) < 0) Py_CLEAR(routes);
        Py_XDECREF(route);
    }
    return routes;
}

/* _aggregated(numbers): given one number for each route in order, fewer routes by which each address has the number that it
   had. This table stays as it is. */
static PyObject *routes_aggregated(Routes *self, PyObject *arguments) {
    PyObject *numbers, *routes = NULL;
    if (!PyArg_ParseTuple(arguments, "O!", &PyTuple_Type, &numbers)) return NULL;
    art_routes_map other = {0};
    uint32_t status = art_routes_new(&other);
    Net at = {{0}, 4, 0};
    uint64_t place, before;
    Py_ssize_t given = 0, size = PyTuple_Size(numbers);
    for (; status <= ART_SOME && given < size && next_route(&self->table, &at, given == 0, &place); given++) {
        unsigned long long number = PyLong_AsUnsignedLongLong(PyTuple_GetItem(numbers, given));
        status = art_routes_insert(&other, at.address, at.width, (uint8_t)at.length, number, &before);
    }
    if (status <= ART_SOME) status = art_routes_aggregate(&other);
    if (status > ART_SOME) {
        refused(status);
    } else if (PyErr_Occurred()) {
        /* of a number */
    } else if (given < size || given < self->count) {
        PyErr_SetString(PyExc_RuntimeError, "the table has changed");
    } else {
        routes = numbered_routes(&other);
    }
    art_routes_free(&other);
    return routes;
}

#include "_route_walks.h"

/* ---- the type */

static PyObject *routes_new(PyTypeObject *type, PyObject *Py_UNUSED(arguments), PyObject *Py_UNUSED(named)) {
    Routes *self = (Routes *)made_over(routes_type, type);
    if (!self) return NULL;
    self->free_place = NO_PLACE;
    uint32_t status = art_routes_new(&self->table);
    if (status == ART_NONE) return (PyObject *)self;
    Py_DECREF(self);
    refused(status);
    return NULL;
}

static int routes_traverse(Routes *self, visitproc visit, void *arg) {
    Py_VISIT(Py_TYPE(self));
    for (size_t place = 0; place < self->used; place++)
        if (!is_free(self->values[place])) Py_VISIT(self->values[place]);
    return 0;
}

static int routes_let_go(Routes *self) {
    drop_routes(self);
    return 0;
}

static void routes_dealloc(Routes *self) {
    PyTypeObject *type = Py_TYPE(self);
    PyObject_GC_UnTrack(self);
    drop_routes(self);
    art_routes_free(&self->table);
    ((freefunc)PyType_GetSlot(type, Py_tp_free))(self);
    Py_DECREF(type);
}

static PyMethodDef routes_methods[] = {
    {"get", (PyCFunction)(void (*)(void))routes_get, METH_FASTCALL | METH_KEYWORDS, "The value of the longest route around an address or a network, or the default."},
    {"get_many", (PyCFunction)(void (*)(void))routes_get_many, METH_FASTCALL | METH_KEYWORDS, "The values of many addresses, which are no networks, as `get` finds each, in a list."},
    {"get_key", (PyCFunction)routes_get_key, METH_O, "The network of the longest route around an address or a network, or None."},
    {"has_key", (PyCFunction)routes_has_key, METH_O, "Whether there is a route to this very network."},
    {"parent", (PyCFunction)routes_parent, METH_O, "The network of the longest route around a network, but for the one to it, or None."},
    {"direct_children", (PyCFunction)routes_direct_children, METH_O, "The networks of the routes to parts of a network with none between, in order, in a list."},
    {"remove_covered", (PyCFunction)routes_remove_covered, METH_O, "Removes the route to a network and those inside it, and returns how many there were."},
    {"pop", (PyCFunction)(void (*)(void))routes_pop, METH_FASTCALL, "Removes the route to this very network and returns its value, else the default, else raises KeyError."},
    {"setdefault", (PyCFunction)(void (*)(void))routes_set_default, METH_FASTCALL, "The value of the route to this very network, which is the default, or None, where there was none."},
    {"free", (PyCFunction)(void (*)(void))routes_free, METH_VARARGS | METH_KEYWORDS, "The networks of a length inside a network that overlap no route, in order."},
    {"clear", (PyCFunction)routes_clear, METH_NOARGS, "Removes all routes."},
    {"__sizeof__", (PyCFunction)routes_size, METH_NOARGS, "The memory of the table, without the library's and the values."},
    {"_walk", (PyCFunction)routes_walk, METH_VARARGS, NULL},
    {"_differences", (PyCFunction)routes_differences, METH_O, NULL},
    {"_aggregated", (PyCFunction)routes_aggregated, METH_VARARGS, NULL},
    {NULL, NULL, 0, NULL},
};

static PyType_Slot routes_slots[] = {
    {Py_tp_new, routes_new},
    {Py_tp_traverse, routes_traverse},
    {Py_tp_clear, routes_let_go},
    {Py_tp_dealloc, routes_dealloc},
    {Py_tp_methods, routes_methods},
    {Py_mp_subscript, routes_get_item},
    {Py_mp_ass_subscript, routes_set_item},
    {Py_mp_length, routes_length},
    {Py_sq_contains, routes_contains},
    {0, NULL},
};

static PyType_Spec routes_spec = {
    "verified_art._in_c.Routes", sizeof(Routes), 0, Py_TPFLAGS_DEFAULT | Py_TPFLAGS_HAVE_GC | Py_TPFLAGS_BASETYPE, routes_slots,
};

#endif
