/* The entries of a SortedMap or SortedSet in their order. An entry stays at its place in an array, by which the library knows it; the
   order is a list of blocks, so that a walk reads memory in sequence, and an index is found block by block. */
#ifndef ORDER_H
#define ORDER_H
#include <Python.h>
#include <stdbool.h>
#include <stdint.h>
#include <string.h>

/* How many entries a block has at most. */
#define MOST 128
#define NO_PLACE SIZE_MAX

typedef struct Block {
    struct Block *before, *after;
    size_t count; /* at least 1 */
    size_t ordinal; /* how many blocks come before, where the order has `begins` */
    uint32_t places[MOST];
    PyObject *keys[MOST];
} Block;

typedef struct {
    PyObject *key; /* of exactly the types of keys; NULL where the place is free */
    PyObject *value;
    union {
        Block *block;
        size_t next_free;
    };
} Entry;

/* Where an entry stands in the order; without a block: at its end. Holds until an entry is added or removed. */
typedef struct {
    Block *block;
    size_t at;
} Position;

static const Position END = {NULL, 0};

typedef struct {
    Entry *entries;
    size_t room, used, free; /* how many places there is memory for, and were ever used; the first free one of these */
    Block *first, *last, *spare;
    Position newest; /* of the entry that was added last, near which the next one may belong */
    Py_ssize_t count;
    size_t changes; /* how many times entries were added or removed */
    /* For calls by an index: where each block begins, as of the changes of `indexed`; the last call was as of `asked`. */
    struct Begin {
        size_t index;
        Block *block;
    } *begins;
    size_t begins_count, indexed, asked;
} Order;

static void begin_order(Order *self) {
    size_t changes = self->changes;
    memset(self, 0, sizeof *self);
    self->free = NO_PLACE;
    self->changes = changes + 1;
    self->indexed = self->asked = changes;
}

/* ---- positions */

static bool is_same(Position one, Position other) { return one.block == other.block && one.at == other.at; }

static Position first_position(const Order *self) { return (Position){self->first, 0}; }

static Position position_after(Position position) {
    if (position.at + 1 < position.block->count) return (Position){position.block, position.at + 1};
    return (Position){position.block->after, 0};
}

/* The position of the entry at a place. */
static Position position_of(const Order *self, size_t place) {
    Block *block = self->entries[place].block;
    /* Those that came together have their places one after another. */
    size_t at = place - block->places[0];
    if (at < block->count && block->places[at] == place) return (Position){block, at};
    for (at = 0; block->places[at] != place;) at++;
    return (Position){block, at};
}

/* ---- indexes */

/* Whether it is known where each block begins. Where one call by an index comes after another, without a change between
   them, this is gathered, unless memory is refused: else the blocks from the nearer end are few enough. */
static bool has_begins(Order *self) {
    if (self->indexed == self->changes) return true;
    if (self->asked != self->changes) {
        self->asked = self->changes;
        return false;
    }
    size_t count = 0, index = 0;
    for (const Block *block = self->first; block; block = block->after) count++;
    struct Begin *begins = PyMem_Realloc(self->begins, (count + 1) * sizeof *begins);
    if (!begins) return false;
    self->begins = begins;
    self->begins_count = 0;
    for (Block *block = self->first; block; block = block->after) {
        begins[self->begins_count] = (struct Begin){index, block};
        block->ordinal = self->begins_count++;
        index += block->count;
    }
    self->indexed = self->changes;
    return true;
}

/* The position of an index below the count. */
static Position position_at(Order *self, size_t index) {
    size_t count = (size_t)self->count, begun = 0;
    if (has_begins(self)) {
        size_t low = 0, high = self->begins_count;
        while (high - low > 1) {
            size_t middle = low + (high - low) / 2;
            *(self->begins[middle].index <= index ? &low : &high) = middle;
        }
        return (Position){self->begins[low].block, index - self->begins[low].index};
    }
    Block *block = self->first;
    if (index < count / 2) {
        for (; index >= begun + block->count; block = block->after) begun += block->count;
    } else {
        block = self->last;
        for (begun = count - block->count; index < begun; begun -= block->count) block = block->before;
    }
    return (Position){block, index - begun};
}

/* The index of a position. */
static Py_ssize_t index_of(Order *self, Position position) {
    if (!position.block) return self->count;
    if (has_begins(self)) return (Py_ssize_t)(self->begins[position.block->ordinal].index + position.at);
    size_t below = position.at, above = position.block->count - position.at;
    const Block *down = position.block, *up = position.block;
    for (;;) {
        if (!(down = down->before)) return (Py_ssize_t)below;
        below += down->count;
        if (!(up = up->after)) return self->count - (Py_ssize_t)above;
        above += up->count;
    }
}

/* ---- changes */

/* Has room for one more entry and one more block. -1: there is no memory. */
static int reserve(Order *self) {
    if (!self->spare && !(self->spare = PyMem_Malloc(sizeof(Block)))) return -1;
    if (self->free != NO_PLACE || self->used < self->room) return 0;
    size_t room = self->room + self->room / 2 + 8;
    if (room > UINT32_MAX) return -1;
    Entry *entries = PyMem_Realloc(self->entries, room * sizeof(Entry));
    if (!entries) return -1;
    self->entries = entries;
    self->room = room;
    return 0;
}

/* The place that the next entry gets. */
static size_t next_place(const Order *self) { return self->free != NO_PLACE ? self->free : self->used; }

/* Puts the spare block, without entries, after another one, or first. */
static Block *add_block(Order *self, Block *before) {
    Block *block = self->spare, *after = before ? before->after : self->first;
    self->spare = NULL;
    block->count = 0;
    block->before = before;
    block->after = after;
    *(before ? &before->after : &self->first) = block;
    *(after ? &after->before : &self->last) = block;
    return block;
}

static void remove_block(Order *self, Block *block) {
    *(block->before ? &block->before->after : &self->first) = block->after;
    *(block->after ? &block->after->before : &self->last) = block->before;
    PyMem_Free(self->spare);
    self->spare = block;
}

/* Moves the entries of a block from one on to the end of another. */
static void move_items(Order *self, Block *from, size_t at, Block *to) {
    size_t moved = from->count - at;
    memcpy(&to->keys[to->count], &from->keys[at], moved * sizeof from->keys[0]);
    memcpy(&to->places[to->count], &from->places[at], moved * sizeof from->places[0]);
    for (size_t more = 0; more < moved; more++) self->entries[from->places[at + more]].block = to;
    to->count += moved;
    from->count = at;
}

/* Adds an entry, whose references become the order's, after a position, or as the first one. There is room. */
static void add_entry(Order *self, Position before, PyObject *key, PyObject *value) {
    size_t place = next_place(self), at = before.block ? before.at + 1 : 0;
    if (place == self->used) {
        self->used++;
    } else {
        self->free = self->entries[place].next_free;
    }
    Block *block = before.block ? before.block : self->first ? self->first : add_block(self, NULL);
    if (block->count == MOST) {
        Block *other = add_block(self, block);
        /* Keys that come in their order fill their blocks. */
        size_t kept = at == MOST && !other->after ? MOST : MOST / 2;
        move_items(self, block, kept, other);
        if (at >= kept) {
            block = other;
            at -= kept;
        }
    }
    memmove(&block->keys[at + 1], &block->keys[at], (block->count - at) * sizeof block->keys[0]);
    memmove(&block->places[at + 1], &block->places[at], (block->count - at) * sizeof block->places[0]);
    block->keys[at] = key;
    block->places[at] = (uint32_t)place;
    block->count++;
    self->entries[place] = (Entry){key, value, {block}};
    self->newest = (Position){block, at};
    self->count++;
    self->changes++;
}

/* Joins a block with the next one where both are small. */
static void join_next(Order *self, Block *block) {
    Block *next = block ? block->after : NULL;
    if (!next || block->count + next->count > MOST / 2) return;
    move_items(self, next, 0, block);
    remove_block(self, next);
}

/* Takes the entry at a place out, whose references become the caller's. */
static Entry remove_entry(Order *self, size_t place) {
    Entry taken = self->entries[place];
    Block *block = taken.block, *before = block->before;
    size_t at = position_of(self, place).at;
    block->count--;
    memmove(&block->keys[at], &block->keys[at + 1], (block->count - at) * sizeof block->keys[0]);
    memmove(&block->places[at], &block->places[at + 1], (block->count - at) * sizeof block->places[0]);
    if (block->count == 0) {
        remove_block(self, block);
    } else {
        join_next(self, block);
        join_next(self, before);
    }
    self->entries[place] = (Entry){.key = NULL, .value = NULL, .next_free = self->free};
    self->free = place;
    self->newest = END;
    self->count--;
    self->changes++;
    return taken;
}

/* Frees an order, which no map has any more, and lets go of what it has: that may run any code. */
static void free_order(Order *self) {
    for (Block *block = self->first, *after; block; block = after) {
        after = block->after;
        PyMem_Free(block);
    }
    PyMem_Free(self->spare);
    PyMem_Free(self->begins);
    for (size_t place = 0; place < self->used; place++) {
        if (place + 16 < self->used) __builtin_prefetch(self->entries[place + 16].key, 1);
        Py_XDECREF(self->entries[place].key);
        Py_XDECREF(self->entries[place].value);
    }
    PyMem_Free(self->entries);
}

/* Lets go of all entries, once the order is empty. */
static void empty_order(Order *self) {
    Order before = *self;
    begin_order(self);
    free_order(&before);
}

/* ---- many entries at once */

/* Has room for so many entries and their blocks, in an order without any. -1: there is no memory, and nothing has changed. */
static int reserve_many(Order *self, size_t count) {
    if (count > UINT32_MAX || !(self->entries = PyMem_Calloc(count, sizeof(Entry)))) return -1;
    self->room = count;
    for (size_t begun = 0; begun < count; begun += MOST) {
        if (!(self->spare = PyMem_Malloc(sizeof(Block)))) {
            free_order(self);
            begin_order(self);
            return -1;
        }
        add_block(self, self->last)->count = count - begun < MOST ? count - begun : MOST;
    }
    return 0;
}

/* Adds an entry, whose references become the order's, behind the others, of which there are as many as its place says. There
   is room, by `reserve_many`. */
static inline Block *append_entry(Order *self, Block *block, PyObject *key, PyObject *value) {
    size_t place = self->used++, at = place % MOST;
    if (at == 0) block = block ? block->after : self->first;
    block->keys[at] = key;
    block->places[at] = (uint32_t)place;
    self->entries[place] = (Entry){key, value, {block}};
    self->count++;
    return block;
}
#endif
