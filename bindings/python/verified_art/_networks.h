/* Networks, as Python has them and as the library does. */
#ifndef NETWORKS_H
#define NETWORKS_H
#include <arpa/inet.h>
#include <stdio.h>

typedef struct {
    uint8_t address[16];
    size_t width;
    unsigned length;
} Net;

static int no_network(PyObject *key) {
    PyErr_Format(PyExc_ValueError, "%R is no network: an address and how many of its first bits are given, with none set behind these", key);
    return -1;
}

static unsigned bits_of(const Net *net) { return 8 * (unsigned)net->width; }

/* An address, alone or with a `/` and a length. */
static int read_text(PyObject *key, Net *net) {
    Py_ssize_t size;
    const char *text = PyUnicode_AsUTF8AndSize(key, &size);
    if (!text) {
        /* Lone surrogates. */
        if (!PyErr_ExceptionMatches(PyExc_UnicodeEncodeError)) return -1;
        PyErr_Clear();
        return no_network(key);
    }
    const char *slash = memchr(text, '/', (size_t)size);
    size_t len = slash ? (size_t)(slash - text) : (size_t)size;
    char address[64];
    if (len >= sizeof address || memchr(text, 0, (size_t)size)) return no_network(key);
    memcpy(address, text, len);
    address[len] = 0;
    bool is_six = memchr(address, ':', len);
    if (inet_pton(is_six ? AF_INET6 : AF_INET, address, net->address) != 1) return no_network(key);
    net->width = is_six ? 16 : 4;
    net->length = bits_of(net);
    if (slash) {
        const char *digit = slash + 1;
        net->length = 0;
        if (!*digit || strlen(digit) > 3) return no_network(key);
        for (; *digit; digit++) {
            if (*digit < '0' || *digit > '9') return no_network(key);
            net->length = 10 * net->length + (unsigned)(*digit - '0');
        }
        if (net->length > bits_of(net)) return no_network(key);
    }
    return 0;
}

/* The bytes of an address. */
static int read_bytes(PyObject *key, PyObject *bytes, Net *net) {
    char *start;
    Py_ssize_t size;
    if (!PyBytes_Check(bytes) || PyBytes_AsStringAndSize(bytes, &start, &size) < 0 || (size != 4 && size != 16)) {
        PyErr_Clear();
        return no_network(key);
    }
    memcpy(net->address, start, (size_t)size);
    net->width = (size_t)size;
    net->length = bits_of(net);
    return 0;
}

/* -1 with an error set, as an attribute is not there. Another error of it stands. */
static int no_attribute(PyObject *key) {
    if (PyErr_ExceptionMatches(PyExc_AttributeError)) {
        PyErr_Clear();
        PyErr_Format(PyExc_TypeError, "a network is a str, or of `ipaddress`, and not %R", (PyObject *)Py_TYPE(key));
    }
    return -1;
}

static int set_length(PyObject *key, PyObject *prefixlen, Net *net) {
    long length = PyLong_AsLong(prefixlen);
    if (length == -1 && PyErr_Occurred()) {
        if (!PyErr_ExceptionMatches(PyExc_TypeError) && !PyErr_ExceptionMatches(PyExc_OverflowError)) return -1;
        PyErr_Clear();
    }
    if (length < 0 || length > (long)bits_of(net)) return no_network(key);
    net->length = (unsigned)length;
    return 0;
}

static int read_length(PyObject *key, Net *net) {
    PyObject *prefixlen = PyObject_GetAttrString(key, "prefixlen");
    if (!prefixlen) return no_attribute(key);
    int done = set_length(key, prefixlen, net);
    Py_DECREF(prefixlen);
    return done;
}

static int read_net(PyObject *key, Net *net);

/* A pair of an address and a length. */
static int read_with_length(PyObject *pair, Net *net) {
    if (PyTuple_Size(pair) != 2) return no_network(pair);
    if (PyTuple_Check(PyTuple_GetItem(pair, 0))) return no_network(pair);
    if (read_net(PyTuple_GetItem(pair, 0), net) < 0) return -1;
    if (net->length != bits_of(net)) return no_network(pair);
    return set_length(pair, PyTuple_GetItem(pair, 1), net);
}

/* Reads a network or an address: a str, bytes, a pair, or what `ipaddress` makes, whose attributes may run any code. So may each
   error that shows a key: a call makes it once the table is whole. */
static int read_net(PyObject *key, Net *net) {
    if (PyUnicode_Check(key)) return read_text(key, net);
    if (PyBytes_Check(key)) return read_bytes(key, key, net);
    if (PyTuple_Check(key)) return read_with_length(key, net);
    PyObject *network = PyObject_GetAttrString(key, "network_address");
    if (!network) {
        if (!PyErr_ExceptionMatches(PyExc_AttributeError)) return -1;
        PyErr_Clear();
    }
    PyObject *packed = PyObject_GetAttrString(network ? network : key, "packed");
    int done = packed ? read_bytes(key, packed, net) : no_attribute(key);
    if (done == 0 && network) done = read_length(key, net);
    Py_XDECREF(packed);
    Py_XDECREF(network);
    return done;
}

/* Reads an address. */
static int read_address(PyObject *key, Net *net) {
    if (read_net(key, net) < 0) return -1;
    if (net->length == bits_of(net)) return 0;
    PyErr_Format(PyExc_ValueError, "an address is needed, and not the network %R", key);
    return -1;
}

/* Leaves the first bits, so many of them. */
static void cut(Net *net, unsigned length) {
    for (unsigned at = 0; at < net->width; at++) {
        unsigned kept = length > 8 * at ? length - 8 * at : 0;
        if (kept < 8) net->address[at] &= (uint8_t)~(0xFFu >> kept);
    }
    net->length = length;
}

static bool covers(const Net *net, Net other) {
    if (net->width != other.width || net->length > other.length) return false;
    cut(&other, net->length);
    return memcmp(net->address, other.address, net->width) == 0;
}

/* Below 0 where the first comes before the other in the order of networks, above 0 where it comes after it, and else 0. */
static int order_of(const Net *net, const Net *other) {
    if (net->width != other->width) return net->width < other->width ? -1 : 1;
    int order = memcmp(net->address, other->address, net->width);
    return order ? order : (int)net->length - (int)other->length;
}

/* The text of a network, as `ipaddress` has it. */
static PyObject *text_of(const Net *net) {
    char text[64];
    const uint8_t *a = net->address;
    if (net->width == 4) {
        snprintf(text, sizeof text, "%u.%u.%u.%u/%u", a[0], a[1], a[2], a[3], net->length);
        return PyUnicode_FromString(text);
    }
    /* The longest run of two groups or more that are zero, the first of the longest. */
    unsigned groups[8], begin = 8, longest = 1, run = 0;
    for (unsigned at = 0; at < 8; at++) {
        groups[at] = a[2 * at] * 256u + a[2 * at + 1];
        run = groups[at] ? 0 : run + 1;
        if (run > longest) {
            longest = run;
            begin = at + 1 - run;
        }
    }
    size_t end = 0;
    for (unsigned at = 0; at < 8; at++) {
        if (at == begin) {
            end += (size_t)snprintf(text + end, sizeof text - end, "::");
            at += longest - 1;
        } else {
            bool apart = at > 0 && at != begin + longest;
            end += (size_t)snprintf(text + end, sizeof text - end, apart ? ":%x" : "%x", groups[at]);
        }
    }
    snprintf(text + end, sizeof text - end, "/%u", net->length);
    return PyUnicode_FromString(text);
}

/* Sets all bits of an address behind its first ones: the last address of a network. */
static void go_to_last(Net *net) {
    for (unsigned at = 0; at < net->width; at++) {
        unsigned kept = net->length > 8 * at ? net->length - 8 * at : 0;
        if (kept < 8) net->address[at] |= (uint8_t)(0xFFu >> kept);
    }
    net->length = bits_of(net);
}

#endif
