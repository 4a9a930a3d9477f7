/* Walks along the routes of a RouteTable, its free networks, and its differences from another one. */
#ifndef ROUTE_WALKS_H
#define ROUTE_WALKS_H

typedef struct {
    PyObject_HEAD
    Routes *routes; /* NULL: at its end */
    Net at, within;
    bool begun, all, backwards, is_free;
    Given given;
} RouteWalk;

static PyTypeObject *route_walk_type;

/* A walk inside a network. */
static RouteWalk *walk_of(Routes *self, const Net *within) {
    RouteWalk *walk = (RouteWalk *)((allocfunc)PyType_GetSlot(route_walk_type, Py_tp_alloc))(route_walk_type, 0);
    if (!walk) return NULL;
    Py_INCREF(self);
    walk->routes = self;
    walk->at = walk->within = *within;
    return walk;
}

/* _walk(given, network, backwards): of the routes inside a network, or of all where it is None. */
static PyObject *routes_walk(Routes *self, PyObject *arguments) {
    int given, backwards;
    PyObject *key;
    Net within = {{0}, 4, 0};
    uint64_t place;
    if (!PyArg_ParseTuple(arguments, "iOp", &given, &key, &backwards)) return NULL;
    if (key != Py_None && (read_net(key, &within) < 0 ||
                           route_found(art_routes_get(&self->table, within.address, within.width, (uint8_t)within.length, &place), key) < 0))
        return NULL;
    RouteWalk *walk = walk_of(self, &within);
    if (!walk) return NULL;
    walk->all = key == Py_None;
    walk->backwards = backwards;
    walk->given = given;
    if (!backwards) return (PyObject *)walk;
    if (walk->all) walk->at.width = 16;
    go_to_last(&walk->at);
    return (PyObject *)walk;
}

/* free(network, length): of the free networks of this length inside a network. */
static PyObject *routes_free(Routes *self, PyObject *arguments, PyObject *named) {
    static char *names[] = {"network", "length", NULL};
    PyObject *key;
    int length;
    Net within;
    uint64_t place;
    if (!PyArg_ParseTupleAndKeywords(arguments, named, "Oi:free", names, &key, &length) || read_net(key, &within) < 0 ||
        route_found(art_routes_get(&self->table, within.address, within.width, (uint8_t)within.length, &place), key) < 0)
        return NULL;
    if (length < 0 || length > (int)bits_of(&within)) {
        PyErr_Format(PyExc_ValueError, "a network of addresses of %u bits has no length %d", bits_of(&within), length);
        return NULL;
    }
    RouteWalk *walk = walk_of(self, &within);
    if (!walk) return NULL;
    walk->is_free = true;
    walk->at.length = (unsigned)length;
    return (PyObject *)walk;
}

/* Goes on to the next free network, one at each step: routes may come and go between two. */
static bool find_free(RouteWalk *self) {
    uint8_t found[16];
    size_t count = 0;
    Net *at = &self->at, *within = &self->within;
    art_routes_available_many(&self->routes->table, within->address, within->width, (uint8_t)within->length, (uint8_t)at->length,
                              at->address, self->begun ? at->width : 0, found, within->width, &count);
    if (count == 1) memcpy(at->address, found, within->width);
    return count == 1;
}

/* Goes on to the next route. */
static bool find_route(RouteWalk *self, uint64_t *place) {
    Net *at = &self->at;
    art_routes_map *table = &self->routes->table;
    if (!(self->backwards ? previous_route : next_route)(table, at, !self->begun, place)) return false;
    return self->all || covers(&self->within, *at);
}

static PyObject *route_walk_next(RouteWalk *self) {
    Routes *routes = self->routes;
    uint64_t place = 0;
    if (!routes) return NULL;
    bool found = self->is_free ? find_free(self) : find_route(self, &place);
    self->begun = true;
    if (!found) {
        self->routes = NULL;
        Py_DECREF(routes);
        return NULL;
    }
    if (self->is_free || self->given == KEYS) return text_of(&self->at);
    PyObject *value = routes->values[place];
    Py_INCREF(value);
    if (self->given == VALUES) return value;
    PyObject *text = text_of(&self->at), *item = text ? PyTuple_Pack(2, text, value) : NULL;
    Py_XDECREF(text);
    Py_DECREF(value);
    return item;
}

/* The value of a table at its next route, where that is to the network. */
static PyObject *value_at(const Routes *routes, bool is_there, uint64_t place) {
    PyObject *value = is_there ? routes->values[place] : Py_None;
    Py_INCREF(value);
    return value;
}

/* _differences(new): of each network of which a table or the new one has a route, in order: the change, the network, and the
   value before and after, or None. Which values are equal is not asked here. */
static PyObject *routes_differences(Routes *self, PyObject *argument) {
    if (!PyObject_TypeCheck(argument, routes_type)) {
        PyErr_Format(PyExc_TypeError, "the new one is a RouteTable, and not of %R", (PyObject *)Py_TYPE(argument));
        return NULL;
    }
    Routes *new_routes = (Routes *)argument;
    PyObject *all = PyList_New(0);
    Net at = {{0}, 4, 0};
    for (bool begun = false; all; begun = true) {
        Net one = at, two = at;
        uint64_t before = 0, after = 0;
        bool is_old = next_route(&self->table, &one, !begun, &before), is_new = next_route(&new_routes->table, &two, !begun, &after);
        if (!is_old && !is_new) break;
        /* Of two networks the first counts, and the other table has none there. */
        if (is_old && is_new) {
            int order = order_of(&one, &two);
            is_old = order <= 0;
            is_new = order >= 0;
        }
        at = is_old ? one : two;
        PyObject *old_value = value_at(self, is_old, before), *new_value = value_at(new_routes, is_new, after);
        PyObject *text = text_of(&at);
        PyObject *item = text ? Py_BuildValue("sOOO", !is_old ? "insert" : is_new ? "replace" : "remove", text, old_value, new_value) : NULL;
        if (!item || PyList_Append(all, item) < 0) Py_CLEAR(all);
        Py_XDECREF(item);
        Py_XDECREF(text);
        Py_DECREF(old_value);
        Py_DECREF(new_value);
    }
    return all;
}

static int route_walk_traverse(RouteWalk *self, visitproc visit, void *arg) {
    Py_VISIT(Py_TYPE(self));
    Py_VISIT(self->routes);
    return 0;
}

static int route_walk_clear(RouteWalk *self) {
    Py_CLEAR(self->routes);
    return 0;
}

static void route_walk_dealloc(RouteWalk *self) {
    PyTypeObject *type = Py_TYPE(self);
    PyObject_GC_UnTrack(self);
    route_walk_clear(self);
    ((freefunc)PyType_GetSlot(type, Py_tp_free))(self);
    Py_DECREF(type);
}

static PyType_Slot route_walk_slots[] = {
    {Py_tp_iter, PyObject_SelfIter},       {Py_tp_iternext, route_walk_next},   {Py_tp_traverse, route_walk_traverse},
    {Py_tp_clear, route_walk_clear},       {Py_tp_dealloc, route_walk_dealloc}, {0, NULL},
};

static PyType_Spec route_walk_spec = {
    "verified_art._in_c.RouteWalk", sizeof(RouteWalk), 0,
    Py_TPFLAGS_DEFAULT | Py_TPFLAGS_HAVE_GC | Py_TPFLAGS_DISALLOW_INSTANTIATION, route_walk_slots,
};

#endif
