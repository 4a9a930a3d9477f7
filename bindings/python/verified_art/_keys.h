/* The keys of a SortedMap or SortedSet: as objects, and as the library has them. Those of int, float and IPv4Address are
   numbers there, the others bytes, which have the order of the keys. */
#ifndef KEYS_H
#define KEYS_H
#include <Python.h>
#include <math.h>
#include <stdbool.h>
#include <stdint.h>
#include <string.h>

/* The kinds of keys, each by a letter. */
enum { NO_KEYS = 0, STR_KEYS = 's', BYTES_KEYS = 'b', INT_KEYS = 'i', FLOAT_KEYS = 'f', IPV4_KEYS = '4', IPV6_KEYS = '6', TUPLE_KEYS = '(', TUPLE_END = ')' };

#define MOST_LETTERS 62

/* What all keys of a map are: the letter of their kind; of tuples, those of their parts between two parentheses. */
typedef struct {
    char letters[MOST_LETTERS + 2];
} Form;

#define SIGN (UINT64_C(1) << 63)

/* Why a key may be none of the map's: it stands before or behind all keys that begin with its bytes (of numbers: all), or
   has no place in their order. */
enum { BELOW = -1, WITHIN = 0, ABOVE = 1, NOT_A_NUMBER = 2 };

/* A key as the library has it. It must not be moved. */
typedef struct {
    const uint8_t *bytes;
    size_t len;
    uint64_t number;
    int where;
    PyObject *owner;  /* who has the bytes, if they are not the key's own */
    uint8_t *written; /* where they are written, if they are neither: `few`, or memory of its own */
    size_t room;
    uint8_t few[64];
} Sought;

static void let_go(Sought *sought) {
    Py_CLEAR(sought->owner);
    if (sought->written && sought->written != sought->few) PyMem_Free(sought->written);
    sought->written = NULL;
}

/* ---- kinds and forms */

/* IPv4Address and IPv6Address, once there is such a key. */
static PyObject *address_types[2];

/* The names of what they have, each one object: for another one Python's cache of attributes would take another entry. */
static PyObject *number_name, *scope_name;

static int make_names(void) {
    number_name = PyUnicode_InternFromString("_ip");
    scope_name = PyUnicode_InternFromString("scope_id");
    return number_name && scope_name ? 0 : -1;
}

/* Looks for them in `ipaddress`, where that was imported: else there is no address. */
static bool find_address_types(void) {
    if (address_types[0]) return true;
    PyObject *name = PyUnicode_FromString("ipaddress"), *module = name ? PyImport_GetModule(name) : NULL;
    PyObject *four = module ? PyObject_GetAttrString(module, "IPv4Address") : NULL;
    PyObject *six = four ? PyObject_GetAttrString(module, "IPv6Address") : NULL;
    Py_XDECREF(module);
    Py_XDECREF(name);
    /* Code that ran meanwhile may have found them. */
    if (six && !address_types[0]) {
        address_types[0] = four;
        address_types[1] = six;
        return true;
    }
    Py_XDECREF(four);
    Py_XDECREF(six);
    PyErr_Clear();
    return address_types[0] != NULL;
}

/* The kind of what is of no built-in type, or of a class over one. Of addresses only those of these very types are keys:
   an interface, whose class is over them, is more than an address. */
static char kind_of_other(PyObject *key) {
    if (PyUnicode_Check(key)) return STR_KEYS;
    if (PyLong_Check(key)) return INT_KEYS;
    if (PyBytes_Check(key)) return BYTES_KEYS;
    if (PyTuple_Check(key)) return TUPLE_KEYS;
    if (PyFloat_Check(key)) return FLOAT_KEYS;
    if (!find_address_types()) return NO_KEYS;
    PyObject *type = (PyObject *)Py_TYPE(key);
    return type == address_types[0] ? IPV4_KEYS : type == address_types[1] ? IPV6_KEYS : NO_KEYS;
}

/* The kind of a key by its object, whatever its class says of itself. */
static inline char kind_of(PyObject *key) {
    if (PyUnicode_CheckExact(key)) return STR_KEYS;
    if (PyLong_CheckExact(key)) return INT_KEYS;
    if (PyBytes_CheckExact(key)) return BYTES_KEYS;
    return kind_of_other(key);
}

static bool is_by_number(char kind) { return kind == INT_KEYS || kind == FLOAT_KEYS || kind == IPV4_KEYS; }

/* Sets the error of an object that is no key. */
static int no_key(PyObject *key) {
    PyObject *name = PyObject_GetAttrString((PyObject *)Py_TYPE(key), "__name__");
    if (name)
        PyErr_Format(PyExc_TypeError, "a key is a str, bytes, int, float, IPv4Address or IPv6Address, or a tuple of these, and not %S", name);
    Py_XDECREF(name);
    return -1;
}

/* Writes the letters of a key, of which so many may be. */
static int write_letters(PyObject *key, char **letter, size_t *left) {
    char kind = kind_of(key);
    size_t its = kind == TUPLE_KEYS ? 2 : 1;
    if (kind == NO_KEYS) return no_key(key);
    if (its > *left) {
        PyErr_Format(PyExc_TypeError, "a key has at most %d parts, where each tuple counts twice", MOST_LETTERS);
        return -1;
    }
    *left -= its;
    *(*letter)++ = kind;
    if (kind != TUPLE_KEYS) return 0;
    Py_ssize_t parts = PyTuple_Size(key);
    for (Py_ssize_t at = 0; at < parts; at++)
        if (write_letters(PyTuple_GetItem(key, at), letter, left) < 0) return -1;
    *(*letter)++ = TUPLE_END;
    return 0;
}

static int form_of(PyObject *key, Form *form) {
    char *letter = form->letters;
    size_t left = MOST_LETTERS;
    memset(form, 0, sizeof *form);
    return write_letters(key, &letter, &left);
}

/* Writes a form as Python does, as "tuple[str, int]". */
static void write_form(const Form *form, char text[16 * MOST_LETTERS]) {
    const char *separator = "";
    *text = 0;
    for (const char *letter = form->letters; *letter; letter++) {
        if (*letter != TUPLE_END) strcat(text, separator);
        separator = *letter == TUPLE_KEYS ? "" : ", ";
        switch (*letter) {
        case STR_KEYS: strcat(text, "str"); break;
        case BYTES_KEYS: strcat(text, "bytes"); break;
        case INT_KEYS: strcat(text, "int"); break;
        case FLOAT_KEYS: strcat(text, "float"); break;
        case IPV4_KEYS: strcat(text, "IPv4Address"); break;
        case IPV6_KEYS: strcat(text, "IPv6Address"); break;
        case TUPLE_KEYS: strcat(text, letter[1] == TUPLE_END ? "tuple[()" : "tuple["); break;
        default: strcat(text, "]");
        }
    }
}

/* Sets the error of a key of another form. */
static int other_form(const Form *form, PyObject *key) {
    Form its;
    char due[16 * MOST_LETTERS], given[16 * MOST_LETTERS];
    if (form_of(key, &its) < 0) return -1;
    write_form(form, due);
    write_form(&its, given);
    PyErr_Format(PyExc_TypeError, "a key of %s is needed here, as those that are there, and not of %s", due, given);
    return -1;
}

/* ---- numbers */

static void read_int(PyObject *key, Sought *sought) {
    long long number = PyLong_AsLongLongAndOverflow(key, &sought->where);
    sought->number = (uint64_t)number ^ SIGN;
}

/* By the bits of a float, so that numbers below 0 come first. 0.0 and -0.0 are one key. */
static void read_float(PyObject *key, Sought *sought) {
    double number = PyFloat_AsDouble(key);
    uint64_t bits;
    if (number == 0) number = 0;
    if (isnan(number)) sought->where = NOT_A_NUMBER;
    memcpy(&bits, &number, sizeof bits);
    sought->number = bits & SIGN ? ~bits : bits | SIGN;
}

/* The number of an address, which its `_ip` is in each Python up to now. */
static PyObject *address_number(PyObject *key) {
    PyObject *number = PyObject_GetAttr(key, number_name);
    if (number && PyLong_CheckExact(number)) return number;
    Py_XDECREF(number);
    PyErr_Clear();
    return PyNumber_Long(key);
}

static int read_ipv4(PyObject *key, Sought *sought) {
    PyObject *number = address_number(key);
    if (!number) return -1;
    unsigned long long bits = PyLong_AsUnsignedLongLong(number);
    Py_DECREF(number);
    if (PyErr_Occurred()) return -1;
    sought->number = bits;
    if (bits <= UINT32_MAX) return 0;
    PyErr_SetString(PyExc_ValueError, "an IPv4Address has 32 bits");
    return -1;
}

/* ---- bytes */

/* Room for more bytes behind those that are written, or NULL with an error set. */
static uint8_t *more_bytes(Sought *sought, size_t more) {
    if (!sought->written) {
        sought->written = sought->few;
        sought->room = sizeof sought->few;
    }
    if (more > sought->room - sought->len) {
        size_t room = sought->len + more + sought->room;
        bool is_few = sought->written == sought->few;
        uint8_t *written = room < more ? NULL : PyMem_Realloc(is_few ? NULL : sought->written, room);
        if (!written) {
            PyErr_NoMemory();
            return NULL;
        }
        if (is_few) memcpy(written, sought->few, sought->len);
        sought->written = written;
        sought->room = room;
    }
    uint8_t *bytes = sought->written + sought->len;
    sought->bytes = sought->written;
    sought->len += more;
    return bytes;
}

static int write_number(uint64_t number, size_t count, Sought *sought) {
    uint8_t *bytes = more_bytes(sought, count);
    if (!bytes) return -1;
    for (size_t at = 0; at < count; at++) bytes[at] = (uint8_t)(number >> 8 * (count - 1 - at));
    return 0;
}

/* The bytes of a str; where it has lone surrogates, those of an owner. */
static const char *bytes_of_str(PyObject *key, Py_ssize_t *len, PyObject **owner) {
    const char *bytes = PyUnicode_AsUTF8AndSize(key, len);
    if (bytes || !PyErr_ExceptionMatches(PyExc_UnicodeEncodeError)) return bytes;
    PyErr_Clear();
    *owner = PyUnicode_AsEncodedString(key, "utf-8", "surrogatepass");
    if (!*owner) return NULL;
    *len = PyBytes_Size(*owner);
    return PyBytes_AsString(*owner);
}

/* A str as a part of a key: each byte plus one, and a zero at the end. */
static int write_str(PyObject *part, Sought *sought) {
    PyObject *owner = NULL;
    Py_ssize_t len;
    const char *bytes = bytes_of_str(part, &len, &owner);
    uint8_t *out = bytes ? more_bytes(sought, (size_t)len + 1) : NULL;
    if (out) {
        for (Py_ssize_t at = 0; at < len; at++) out[at] = (uint8_t)(bytes[at] + 1);
        out[len] = 0;
    }
    Py_XDECREF(owner);
    return out ? 0 : -1;
}

/* Bytes as a part of a key: in groups of eight, each with its length behind it, and 9 where it is not the last one. */
static int write_bytes(PyObject *part, Sought *sought) {
    size_t len = (size_t)PyBytes_Size(part), at = 0;
    const char *bytes = PyBytes_AsString(part);
    for (;;) {
        size_t left = len - at, count = left < 8 ? left : 8;
        uint8_t *out = more_bytes(sought, 9);
        if (!out) return -1;
        memset(out, 0, 8);
        memcpy(out, bytes + at, count);
        out[8] = left > 8 ? 9 : (uint8_t)count;
        if (left <= 8) return 0;
        at += 8;
    }
}

/* Writes the 128 bits of a number. */
static int write_ipv6_number(PyObject *number, Sought *sought) {
    PyObject *bits = PyLong_FromLong(64), *high = bits ? PyNumber_Rshift(number, bits) : NULL;
    Py_XDECREF(bits);
    if (!high) return -1;
    unsigned long long above = PyLong_AsUnsignedLongLong(high);
    Py_DECREF(high);
    if (PyErr_Occurred()) return -1;
    unsigned long long below = PyLong_AsUnsignedLongLongMask(number);
    return write_number(above, 8, sought) < 0 ? -1 : write_number(below, 8, sought);
}

/* The number of an IPv6Address and behind it its scope as a str, which is empty where it has none. */
static int write_ipv6(PyObject *key, Sought *sought) {
    PyObject *number = address_number(key);
    int done = number ? write_ipv6_number(number, sought) : -1;
    Py_XDECREF(number);
    PyObject *scope = done == 0 ? PyObject_GetAttr(key, scope_name) : NULL;
    if (!scope) return -1;
    done = PyUnicode_Check(scope) ? write_str(scope, sought) : write_number(0, 1, sought);
    Py_DECREF(scope);
    return done;
}

/* Writes a part of a key, of which none begins another one, unless a part before it has no place. */
static int write_part(char kind, PyObject *part, Sought *sought) {
    if (sought->where != WITHIN) return 0;
    if (kind == STR_KEYS) return write_str(part, sought);
    if (kind == BYTES_KEYS) return write_bytes(part, sought);
    if (kind == IPV6_KEYS) return write_ipv6(part, sought);
    if (kind == IPV4_KEYS) return read_ipv4(part, sought) < 0 ? -1 : write_number(sought->number, 4, sought);
    if (kind == INT_KEYS) {
        read_int(part, sought);
    } else {
        read_float(part, sought);
    }
    return sought->where == WITHIN ? write_number(sought->number, 8, sought) : 0;
}

/* How reading ends without an error: the key is of the form, or of another one. */
enum { OF_FORM = 0, OF_OTHER_FORM = 1 };

/* Writes the parts of a tuple, whose letters begin here; with `first_parts` the last ones may be missing. */
static int write_parts(const char **letters, PyObject *tuple, bool first_parts, Sought *sought) {
    Py_ssize_t parts = PyTuple_Size(tuple);
    const char *letter = *letters + 1;
    for (Py_ssize_t at = 0; at < parts; at++) {
        PyObject *part = PyTuple_GetItem(tuple, at);
        char kind = kind_of(part);
        if (kind == NO_KEYS || kind != *letter) return OF_OTHER_FORM;
        int done = kind == TUPLE_KEYS ? write_parts(&letter, part, false, sought) : write_part(kind, part, sought);
        if (done != OF_FORM) return done;
        letter++;
    }
    *letters = letter;
    return first_parts || *letter == TUPLE_END ? OF_FORM : OF_OTHER_FORM;
}

/* ---- keys */

static inline void begin_sought(Sought *sought) {
    sought->bytes = NULL;
    sought->len = 0;
    sought->number = 0;
    sought->where = WITHIN;
    sought->owner = NULL;
    sought->written = NULL;
}

/* Reads a key of a kind that is its own. */
static inline int read_of_kind(const Form *form, PyObject *key, bool first_parts, Sought *sought) {
    char kind = form->letters[0];
    Py_ssize_t len;
    if (kind == STR_KEYS) {
        sought->bytes = (const uint8_t *)bytes_of_str(key, &len, &sought->owner);
        sought->len = (size_t)len;
        return sought->bytes ? OF_FORM : -1;
    }
    if (kind == INT_KEYS) {
        read_int(key, sought);
        return OF_FORM;
    }
    if (kind == BYTES_KEYS) {
        sought->bytes = (const uint8_t *)PyBytes_AsString(key);
        sought->len = (size_t)PyBytes_Size(key);
        return OF_FORM;
    }
    if (kind == FLOAT_KEYS) {
        read_float(key, sought);
        return OF_FORM;
    }
    if (kind == IPV4_KEYS) return read_ipv4(key, sought);
    if (kind == IPV6_KEYS) return write_ipv6(key, sought);
    const char *letters = form->letters;
    sought->bytes = sought->few;
    int done = write_parts(&letters, key, first_parts, sought);
    sought->number = 0;
    return done;
}

/* Reads a key of this form; with `first_parts`, of a tuple also the first parts alone. -1 with an error set, and what it
   holds let go: it is of another form. */
static inline int read_key(const Form *form, PyObject *key, bool first_parts, Sought *sought) {
    begin_sought(sought);
    int done = kind_of(key) == form->letters[0] ? read_of_kind(form, key, first_parts, sought) : OF_OTHER_FORM;
    if (done == OF_FORM) return 0;
    let_go(sought);
    return done == OF_OTHER_FORM ? other_form(form, key) : -1;
}

/* How one key compares with another one of its form: below 0, 0 or above 0. */
static int compare_keys(const Sought *one, const Sought *other) {
    size_t len = one->len < other->len ? one->len : other->len;
    int order = len ? memcmp(one->bytes, other->bytes, len) : 0;
    if (order) return order;
    if (one->len < other->len) return one->where == ABOVE ? 1 : -1;
    if (one->len > other->len) return other->where == ABOVE ? -1 : 1;
    if (one->where != other->where) return one->where - other->where;
    return (one->number > other->number) - (one->number < other->number);
}

/* Whether an object, which has tuples in it no deeper than this, is as it is kept. */
static bool is_plain_within(PyObject *key, int depth) {
    if (PyUnicode_CheckExact(key) || PyLong_CheckExact(key) || PyBytes_CheckExact(key) || PyFloat_CheckExact(key)) return true;
    if (!PyTuple_Check(key)) return !(PyUnicode_Check(key) || PyLong_Check(key) || PyBytes_Check(key) || PyFloat_Check(key));
    bool plain = depth > 0 && PyTuple_CheckExact(key);
    for (Py_ssize_t at = 0; plain && at < PyTuple_Size(key); at++) plain = is_plain_within(PyTuple_GetItem(key, at), depth - 1);
    return plain;
}

/* Whether a key is kept as it is, since it and its parts are of no class over those of keys. */
static bool is_plain(PyObject *key) { return is_plain_within(key, MOST_LETTERS / 2); }

/* The object to keep for a key that was read: itself, or what it holds. Where it is a tuple, this may run any code. */
static PyObject *plain_key(PyObject *key) {
    if (is_plain(key)) {
        Py_INCREF(key);
        return key;
    }
    if (PyUnicode_Check(key)) return PyUnicode_FromObject(key);
    if (PyLong_Check(key)) {
        int where;
        long long number = PyLong_AsLongLongAndOverflow(key, &where);
        if (where == WITHIN) return PyLong_FromLongLong(number);
        Py_INCREF(key); /* It is refused later. */
        return key;
    }
    if (PyFloat_Check(key)) return PyFloat_FromDouble(PyFloat_AsDouble(key));
    if (PyBytes_Check(key)) return PyBytes_FromStringAndSize(PyBytes_AsString(key), PyBytes_Size(key));
    PyObject *made = PyTuple_New(PyTuple_Size(key));
    for (Py_ssize_t at = 0; made && at < PyTuple_Size(key); at++) {
        PyObject *part = plain_key(PyTuple_GetItem(key, at));
        if (!part || PyTuple_SetItem(made, at, part) < 0) Py_CLEAR(made);
    }
    return made;
}
#endif
