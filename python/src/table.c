/* SortedMap's base class: entries in the order of arcs, which are also found by a hash of their keys' octets. Keys are
 * compared by their octets alone. No code of Python runs between two steps of a change: what it needs is allocated
 * before it, and what it no longer needs is given up after it, since the end of a value may change the table again. */
#include "native.h"
#include <stdlib.h>

/* The most keys of a part, while parts are few, so that one more moves few of them: see most_of. */
#ifndef PART
#define PART 64
#endif
_Static_assert(PART > 1, "a part is split in two");

/* The most entries of a table: their indices have less than 32 bits. */
#define MOST (UINT32_C(1) << 30)

/* The start of a key, in a number whose order is that of arcs: see encode. */
typedef struct {
    uint64_t high;      /* 0 of an entry that may have no more than the hash: see code_of */
    uint32_t low, hash; /* of an entry, that of the key's octets */
} Code;

typedef struct {
    PyObject *key; /* an identifier, or NULL: see is_vacant */
    union {
        PyObject *value;
        size_t next_vacant; /* of a vacant entry: the number of another one, or 0 */
    };
    Code code;
} Entry;

static inline int is_vacant(const Entry *entry) {
    return !entry->key;
}

/* Entries with references of their own. */
typedef struct {
    Entry *entries;
    size_t count, room;
} Run;

/* Some keys in a row. No code of a part's keys is above its bound, and none of a later part's is below it, so most
 * searches for a part read no key. The bound of the last part is not read. */
typedef struct {
    Code bound;
    uint32_t *indices;
    uint32_t count, room;
} Part;

/* The number of an entry is one more than its index, and 0 is none. */
typedef struct {
    Entry *entries;
    uint32_t *slots; /* numbers of entries by a hash of their keys: see find_slot */
    uint32_t mask;   /* one less than how many slots there are, a power of two */
    Part *parts;     /* indices in the order of the keys themselves, in parts that all have some */
    uint32_t part_count;
    uint32_t part_room;
    uint32_t size;              /* how many entries are there */
    uint32_t used;              /* how many there were at a time: the others are vacant */
    uint32_t room;              /* how many there is memory for */
    uint32_t first_vacant;      /* the number of a vacant entry, or 0 */
    unsigned long long version; /* how often keys came or went */
} Tree;

/* Where a key is in the order, or would be, which may be at the end of any part. */
typedef struct {
    uint32_t part, index;
    int is_there;
} Place;

typedef struct {
    PyObject ob_base;
    Tree tree;
} Table;

#define INLINE static inline __attribute__((always_inline))

/* ---- Entries and runs ---- */

static inline Tree *tree_of(PyObject *self) {
    return &((Table *)self)->tree;
}

static inline int is_key(PyObject *self, PyObject *key) {
    return is_identifier(key) || raise_wrong_type(self, "key must be an ObjectIdentifier", key);
}

static int no_memory(void) {
    PyErr_NoMemory();
    return -1;
}

static const const_oid_octets *items_of(PyObject *key) {
    return &((Identifier *)key)->items;
}

static void swap_values(Entry *left, Entry *right) {
    PyObject *value = left->value;
    left->value = right->value;
    right->value = value;
}

/* Eight octets, in a number of their order. */
static inline uint64_t word_of(const uint8_t *octets) {
    uint64_t word;
    memcpy(&word, octets, sizeof word);
    return __BYTE_ORDER__ == __ORDER_LITTLE_ENDIAN__ ? __builtin_bswap64(word) : word;
}

/* A subidentifier of several octets comes after 128 and their number, which is above all single ones. If the codes of
 * two keys differ, the keys are in their order. */
static Code encode(const const_oid_octets *items) {
    uint8_t code[24] = {0}, *out = code; /* for 16 octets, and the numbers of up to 8 subidentifiers */
    uint8_t *number = NULL;              /* of the subidentifier that goes on, if it has several octets */
    const uint8_t *octets = items->octets, *end = octets + (items->len < 16 ? items->len : 16);
    for (; octets < end && (number || out < &code[12]); octets++) {
        if (!number && *octets > 127) {
            number = out++;
            *number = 128;
        }
        if (number)
            *number += 1;
        *out++ = *octets;
        if (*octets < 128)
            number = NULL;
    }
    return (Code){word_of(code), (uint32_t)(word_of(&code[8]) >> 32), 0};
}

static int compare_codes(Code left, Code right) {
    if (left.high != right.high)
        return left.high < right.high ? -1 : 1;
    return (left.low > right.low) - (left.low < right.low);
}

/* The hash of bytes, which they keep, and which has the seed of Python. */
static hashfunc hash_bytes;

static uint32_t hash_of(PyObject *key) {
    return (uint32_t)hash_bytes(((Identifier *)key)->octets);
}

/* The code of an entry, which it has from the first search that needs it on. */
static inline Code code_of(Entry *entry) {
    if (!entry->code.high) {
        uint32_t hash = entry->code.hash;
        entry->code = encode(items_of(entry->key));
        entry->code.hash = hash;
    }
    return entry->code;
}

INLINE int begins_with(const Entry *entry, const const_oid_octets *start) {
    const const_oid_octets *items = items_of(entry->key);
    return start->len <= items->len && !memcmp(start->octets, items->octets, start->len);
}

/* Compares the key of an entry with some items and their code. If it is before a key that begins with the items, it is
 * not after them unless it does, too. */
INLINE int compare(Entry *entry, const const_oid_octets *items, Code code, int is_before) {
    int order = compare_codes(code_of(entry), code);
    if (order)
        return order;
    if (!is_before)
        return const_oid_by_arcs(items_of(entry->key), items);
    return begins_with(entry, items) ? items_of(entry->key)->len > items->len : -1;
}

/* Makes room for more entries, or raises MemoryError. */
static int reserve_run(Run *run, size_t more) {
    size_t room = run->count + run->count / 2 + more;
    Entry *entries = PyMem_Realloc(run->entries, room * sizeof *entries);
    if (!entries)
        return no_memory();
    run->entries = entries;
    run->room = room;
    return 0;
}

/* Appends an entry without its code. For a table, the key may be of any type: that of the last one is no other. */
static inline int append(PyObject *self, Run *run, PyObject *key, PyObject *value) {
    int is_like_last = run->count && Py_TYPE(key) == Py_TYPE(run->entries[run->count - 1].key);
    if (self && !is_like_last && !is_key(self, key))
        return -1;
    if (run->count == run->room && reserve_run(run, 4))
        return -1;
    Entry *entry = &run->entries[run->count++];
    entry->key = Py_NewRef(key);
    entry->value = Py_NewRef(value);
    return 0;
}

/* Gives up the references of a run, and its memory. This may run code that changes a table, but none has the run. */
static void drop(Run *run) {
    for (size_t index = 0; index < run->count; index++) {
        Entry entry = run->entries[index];
        if (is_vacant(&entry))
            continue;
        Py_DecRef(entry.value);
        Py_DecRef(entry.key);
    }
    PyMem_Free(run->entries);
}

/* Gives entries their hashes. Whether each key comes after the one before it. */
static int hash_all(Run *run) {
    const const_oid_octets *last = NULL;
    int is_in_order = 1;
    for (Entry *entry = run->entries, *end = entry + run->count; entry < end; entry++) {
        const const_oid_octets *items = items_of(entry->key);
        entry->code = (Code){.hash = hash_of(entry->key)};
        if (is_in_order && last)
            is_in_order = const_oid_by_arcs(last, items) < 0;
        last = items;
    }
    return is_in_order;
}

static int compare_entries(const void *left, const void *right) {
    const Entry *one = left, *other = right;
    int order = compare_codes(one->code, other->code);
    return order ? order : const_oid_by_arcs(items_of(one->key), items_of(other->key));
}

/* Sorts a run, if there is memory for it and no two keys are equal, of which the last value counts. */
static int put_in_order(Run *run) {
    Entry *sorted = PyMem_Malloc(run->count * sizeof *sorted);
    if (!sorted)
        return 0;
    for (size_t index = 0; index < run->count; index++)
        code_of(&run->entries[index]);
    memcpy(sorted, run->entries, run->count * sizeof *sorted);
    qsort(sorted, run->count, sizeof *sorted, compare_entries);
    size_t index = 1;
    while (index < run->count && !is_same(sorted[index - 1].key, sorted[index].key))
        index++;
    if (index >= run->count)
        memcpy(run->entries, sorted, run->count * sizeof *sorted);
    PyMem_Free(sorted);
    return index >= run->count;
}

/* ---- The hash table: open addressing, with linear probing ---- */

/* The slot of a key with a hash, or the free one, which is 0, where it would be. A key's slot is found from that of the
 * low bits of its hash on, before a free one. It has these bits of the number, and the others of the hash. */
static inline uint32_t find_slot(const Tree *tree, PyObject *key, uint32_t hash) {
    uint32_t mask = tree->mask, at = hash & mask;
    while (tree->slots[at]) {
        uint32_t slot = tree->slots[at];
        if ((slot & ~mask) == (hash & ~mask) && is_same(tree->entries[(slot & mask) - 1].key, key))
            break;
        at = (at + 1) & mask;
    }
    return at;
}

/* The entry of a key with a hash, or NULL. */
static inline Entry *lookup_hashed(const Tree *tree, PyObject *key, uint32_t hash) {
    uint32_t slot = tree->size ? tree->slots[find_slot(tree, key, hash)] : 0;
    return slot ? &tree->entries[(slot & tree->mask) - 1] : NULL;
}

static inline Entry *lookup(const Tree *tree, PyObject *key) {
    return lookup_hashed(tree, key, hash_of(key));
}

/* Gives an entry, whose key has no slot, one. */
static inline void fill_slot(uint32_t *slots, uint32_t mask, const Entry *entries, uint32_t index) {
    uint32_t hash = entries[index].code.hash, at = hash & mask;
    while (slots[at])
        at = (at + 1) & mask;
    slots[at] = (hash & ~mask) | (index + 1);
}

/* Frees a slot. Each after it, up to a free one, whose key would not be found past that, takes its place in turn. */
static void free_slot(Tree *tree, uint32_t hole) {
    uint32_t mask = tree->mask, slot;
    for (uint32_t at = (hole + 1) & mask; (slot = tree->slots[at]); at = (at + 1) & mask) {
        uint32_t first = tree->entries[(slot & mask) - 1].code.hash & mask;
        if (((at - first) & mask) < ((at - hole) & mask))
            continue;
        tree->slots[hole] = slot;
        hole = at;
    }
    tree->slots[hole] = 0;
}

/* Makes slots for a number of entries, so that a third of them is free. It makes more only for more entries than there
 * ever were, and so where no index is vacant. */
static int reserve_slots(Tree *tree, uint32_t size) {
    uint32_t count = tree->slots ? tree->mask + 1 : 8;
    while (count - count / 3 < size)
        count *= 2;
    if (tree->slots && count == tree->mask + 1)
        return 0;
    uint32_t mask = count - 1, used = tree->used, *slots = PyMem_Calloc(count, sizeof *slots);
    if (!slots)
        return -1;
    PyMem_Free(tree->slots);
    tree->slots = slots;
    tree->mask = mask;
    for (uint32_t index = 0; index < used; index++)
        fill_slot(slots, mask, tree->entries, index);
    return 0;
}

/* Makes room for more entries, which changes none. */
static int reserve(Tree *tree, size_t more) {
    size_t size = tree->size + more, room = size + size / 8 + 3;
    if (size > MOST)
        return -1;
    if (size > tree->room) {
        Entry *entries = PyMem_Realloc(tree->entries, room * sizeof *entries);
        if (!entries)
            return -1;
        tree->entries = entries;
        tree->room = (uint32_t)room;
    }
    return reserve_slots(tree, (uint32_t)size);
}

/* ---- The order ---- */

/* The entry at a place, which moves on, or NULL after all. */
INLINE Entry *next_entry(const Tree *tree, Place *place) {
    const Part *parts = tree->parts;
    uint32_t count = tree->part_count;
    if (place->part < count && place->index == parts[place->part].count)
        *place = (Place){place->part + 1, 0, 0};
    return place->part < count ? &tree->entries[parts[place->part].indices[place->index++]] : NULL;
}

/* The last entry of a part. */
static Entry *last_entry(const Tree *tree, uint32_t at) {
    const Part *part = &tree->parts[at];
    return &tree->entries[part->indices[part->count - 1]];
}

/* The part, up to one, for a key with some items and their code. */
INLINE uint32_t find_part(const Tree *tree, uint32_t end, const const_oid_octets *items, Code code, int is_before) {
    uint32_t first = 0;
    while (first < end) {
        uint32_t middle = (first + end) / 2;
        int order = compare_codes(tree->parts[middle].bound, code);
        if (!order)
            order = compare(last_entry(tree, middle), items, code, is_before);
        if (order < 0)
            first = middle + 1;
        else
            end = middle;
    }
    return first;
}

/* The place of some items up to one: after all keys that are before them. */
INLINE Place find_up_to(const Tree *tree, Place most, const const_oid_octets *items, Code code, int is_before) {
    Place place = {find_part(tree, most.part, items, code, is_before), 0, 0};
    const Part *part = &tree->parts[place.part];
    for (uint32_t end = place.part < most.part ? part->count : most.index; place.index < end;) {
        uint32_t middle = (place.index + end) / 2;
        int order = compare(&tree->entries[part->indices[middle]], items, code, is_before);
        if (!order)
            return (Place){place.part, middle, 1};
        if (order < 0)
            place.index = middle + 1;
        else
            end = middle;
    }
    return place;
}

/* The same among all. That after all is found at once. */
static Place find(const Tree *tree, const const_oid_octets *items, Code code) {
    uint32_t last = tree->part_count - 1;
    if (!tree->size)
        return (Place){0, 0, 0};
    Place end = {last, tree->parts[last].count, 0};
    return compare(last_entry(tree, last), items, code, 0) < 0 ? end : find_up_to(tree, end, items, code, 0);
}

static Place place_of(const Tree *tree, Entry *entry) {
    return find(tree, items_of(entry->key), code_of(entry));
}

/* The entry at a place that some items have, or else the one before it. NULL before all. */
static const Entry *entry_up_to(const Tree *tree, Place place) {
    if (!place.is_there && !place.index)
        return place.part ? last_entry(tree, place.part - 1) : NULL;
    return &tree->entries[tree->parts[place.part].indices[place.index - !place.is_there]];
}

/* The most keys of a part. They grow with the number of parts, all of which may have to move for one more. */
static uint32_t most_of(const Tree *tree) {
    return tree->part_count < 32 * PART ? PART : tree->part_count / 16;
}

/* Gives a part, of no more indices, room for a count of them: for a multiple of eight, which is 32 octets. */
static int resize(Part *part, uint32_t count) {
    uint32_t room = (count + 7) / 8 * 8;
    if (room == part->room)
        return 0;
    uint32_t *indices = PyMem_Realloc(part->indices, room * sizeof *indices);
    if (!indices)
        return -1;
    part->indices = indices;
    part->room = room;
    return 0;
}

/* Puts an empty part, with room for a count of indices, among the others. */
static int add_part(Tree *tree, uint32_t at, uint32_t count) {
    Part part = {0};
    if (tree->part_count == tree->part_room) {
        uint32_t room = tree->part_room + tree->part_room / 4 + 1;
        Part *parts = PyMem_Realloc(tree->parts, room * sizeof *parts);
        if (!parts)
            return -1;
        tree->parts = parts;
        tree->part_room = room;
    }
    if (resize(&part, count))
        return -1;
    memmove(&tree->parts[at + 1], &tree->parts[at], (tree->part_count - at) * sizeof part);
    tree->parts[at] = part;
    tree->part_count++;
    return 0;
}

/* The bound of a part is the code of its last key. It stays when that key goes. */
static void set_bound(Tree *tree, uint32_t at) {
    tree->parts[at].bound = code_of(last_entry(tree, at));
}

/* Moves the second half of a part into a new one after it. */
static int split(Tree *tree, uint32_t at) {
    uint32_t kept = tree->parts[at].count / 2, moved = tree->parts[at].count - kept;
    if (add_part(tree, at + 1, moved))
        return -1;
    Part *first = &tree->parts[at], *second = &tree->parts[at + 1];
    memcpy(second->indices, &first->indices[kept], moved * sizeof *first->indices);
    second->count = moved;
    second->bound = first->bound;
    first->count = kept;
    resize(first, kept); /* or else it keeps its memory */
    set_bound(tree, at);
    return 0;
}

/* Gives a part room for one index more. */
static int make_room_in(Tree *tree, uint32_t at) {
    return resize(&tree->parts[at], tree->parts[at].count + 1);
}

/* Makes room for an index at a place. A full part is split, and the place is in one of both. But another part follows a
 * full one at its end if that is the last: keys that come in order fill parts. */
static int make_room(Tree *tree, Place *place) {
    if (!tree->part_count)
        return add_part(tree, 0, 1);
    uint32_t at = place->part, count = tree->parts[at].count;
    if (count < most_of(tree))
        return make_room_in(tree, at);
    if (at == tree->part_count - 1 && place->index == count) {
        if (add_part(tree, at + 1, 1))
            return -1;
        set_bound(tree, at);
        *place = (Place){at + 1, 0, 0};
        return 0;
    }
    if (split(tree, at))
        return -1;
    uint32_t kept = tree->parts[at].count;
    if (place->index >= kept)
        *place = (Place){at + 1, place->index - kept, 0};
    return make_room_in(tree, place->part);
}

/* For tests: whether all keys are in order, in parts that have some and whose bounds are as Part says. */
static int is_whole(const Tree *tree) {
    const Entry *last = NULL;
    uint32_t count = 0;
    for (Place place = {0, 0, 0}; count < tree->size; count++) {
        Entry *entry = next_entry(tree, &place);
        if (!entry || place.index > tree->parts[place.part].count)
            return 0;
        if (last && const_oid_by_arcs(items_of(last->key), items_of(entry->key)) >= 0)
            return 0;
        if (place.part > 0 && compare_codes(tree->parts[place.part - 1].bound, code_of(entry)) > 0)
            return 0;
        if (place.part + 1 < tree->part_count && compare_codes(tree->parts[place.part].bound, code_of(entry)) < 0)
            return 0;
        last = entry;
    }
    return !tree->size || last == last_entry(tree, tree->part_count - 1);
}

/* ---- Changes ---- */

/* Gives up a tree that no table has any more. */
static void drop_tree(Tree tree) {
    Run run = {.entries = tree.entries, .count = tree.used};
    while (tree.part_count)
        PyMem_Free(tree.parts[--tree.part_count].indices);
    PyMem_Free(tree.parts);
    PyMem_Free(tree.slots);
    drop(&run);
}

/* Takes all entries out, and then gives them up. */
static void clear(Tree *tree) {
    Tree before = *tree;
    *tree = (Tree){.version = before.version + (before.size > 0)};
    drop_tree(before);
}

/* Puts entries that are in order into parts. */
static int fill_parts(Tree *tree) {
    for (uint32_t index = 0; index < tree->size;) {
        uint32_t left = tree->size - index, most = most_of(tree), count = left < most ? left : most;
        if (add_part(tree, tree->part_count, count))
            return -1;
        Part *part = &tree->parts[tree->part_count - 1];
        for (uint32_t at = 0; at < count; at++)
            part->indices[at] = index++;
        part->count = count;
        set_bound(tree, tree->part_count - 1);
    }
    return 0;
}

/* Gives a tree the entries of a run, which are in order, in place of its own. */
static int fill(Tree *tree, Run *run) {
    Entry *entries = run->count > MOST ? NULL : PyMem_Realloc(run->entries, run->count * sizeof *entries);
    if (!entries)
        return -1;
    run->entries = entries;
    Tree before = *tree, made = {.entries = entries, .version = before.version + 1};
    made.size = made.used = made.room = (uint32_t)run->count;
    if (reserve_slots(&made, made.size) || fill_parts(&made)) {
        drop_tree((Tree){.slots = made.slots, .parts = made.parts, .part_count = made.part_count});
        return -1;
    }
    *tree = made;
    *run = (Run){0};
    drop_tree(before);
    return 0;
}

/* Builds a tree anew of which an eighth is left, if there is memory for it, and gives back its own. An empty one then
 * has none. */
static __attribute__((noinline)) void shrink(Tree *tree) {
    Run run = {.entries = PyMem_Malloc(tree->size * sizeof *run.entries)};
    Place place = {0, 0, 0};
    uint32_t used = tree->used;
    while (run.entries && run.count < tree->size)
        run.entries[run.count++] = *next_entry(tree, &place);
    tree->used = 0; /* the run has the references */
    if (!tree->size)
        clear(tree);
    else if (!run.entries || fill(tree, &run))
        tree->used = used;
    PyMem_Free(run.entries);
}

/* The index of an entry that is used next: one that is vacant, or else the one after all. */
static uint32_t take_index(Tree *tree) {
    if (!tree->first_vacant)
        return tree->used++;
    uint32_t index = tree->first_vacant - 1;
    tree->first_vacant = (uint32_t)tree->entries[index].next_vacant;
    return index;
}

/* Puts an entry in, whose key is not there. Takes over its references. */
static int add(Tree *tree, Entry entry) {
    Place place = place_of(tree, &entry);
    if (reserve(tree, 1) || make_room(tree, &place)) {
        if (!tree->size)
            clear(tree);
        return -1;
    }
    Part *part = &tree->parts[place.part];
    uint32_t *at = &part->indices[place.index], index = take_index(tree);
    memmove(at + 1, at, (part->count - place.index) * sizeof *at);
    *at = index;
    part->count++;
    tree->entries[index] = entry;
    fill_slot(tree->slots, tree->mask, tree->entries, index);
    tree->size++;
    tree->version++;
    return 0;
}

/* Takes out the entry at a place, with its references, and its part if that has no other. The next one that is added
 * comes there. */
static Entry take(Tree *tree, Place place) {
    Part *part = &tree->parts[place.part];
    uint32_t *at = &part->indices[place.index], index = *at;
    Entry entry = tree->entries[index];
    free_slot(tree, find_slot(tree, entry.key, entry.code.hash));
    part->count--;
    memmove(at, at + 1, (part->count - place.index) * sizeof *at);
    if (!part->count) {
        PyMem_Free(part->indices);
        tree->part_count--;
        memmove(part, part + 1, (tree->part_count - place.part) * sizeof *part);
    }
    tree->entries[index] = (Entry){.next_vacant = tree->first_vacant};
    tree->first_vacant = index + 1;
    tree->size--;
    tree->version++;
    if (tree->size <= tree->room / 8)
        shrink(tree);
    return entry;
}

/* Sets an entry of a run, which keeps its key. It then has the value of before, or none if the key was not there. */
static int exchange(Tree *tree, Entry *entry) {
    Entry *there = lookup_hashed(tree, entry->key, entry->code.hash);
    if (there) {
        swap_values(there, entry);
        return 0;
    }
    if (add(tree, *entry))
        return -1;
    Py_IncRef(entry->key);
    entry->value = NULL;
    return 0;
}

/* Undoes this, for which no memory is needed. */
static void change_back(Tree *tree, Entry *entry) {
    Entry *there = lookup_hashed(tree, entry->key, entry->code.hash);
    if (entry->value) {
        swap_values(there, entry);
        return;
    }
    Entry taken = take(tree, place_of(tree, there));
    entry->value = taken.value;
    Py_DecRef(taken.key); /* which the entry still has */
}

/* Sets all entries of a run, or none, with MemoryError. The run then has what is no longer needed. */
static int update(Tree *tree, Run *run) {
    size_t done = 0;
    int is_in_order = hash_all(run) || (!tree->size && put_in_order(run));
    if (is_in_order && !tree->size && run->count)
        return fill(tree, run) ? no_memory() : 0;
    while (done < run->count && !exchange(tree, &run->entries[done]))
        done++;
    if (done == run->count)
        return 0;
    while (done > 0) {
        done--;
        change_back(tree, &run->entries[done]);
    }
    return no_memory();
}

/* ---- The class ---- */

static int table_clear_all(PyObject *self) {
    clear(tree_of(self));
    return 0;
}

void table_dealloc(PyObject *self) {
    PyTypeObject *type = Py_TYPE(self);
    PyObject_GC_UnTrack(self);
    table_clear_all(self);
    ((freefunc)PyType_GetSlot(type, Py_tp_free))(self);
    Py_DecRef((PyObject *)type);
}

static int table_traverse(PyObject *self, visitproc visit, void *arg) {
    const Tree *tree = tree_of(self);
    for (uint32_t index = 0; index < tree->used; index++) {
        if (is_vacant(&tree->entries[index]))
            continue;
        Py_VISIT(tree->entries[index].key);
        Py_VISIT(tree->entries[index].value);
    }
    Py_VISIT(Py_TYPE(self));
    return 0;
}

static PyObject *raise_missing(PyObject *key) {
    PyErr_SetObject(PyExc_KeyError, key);
    return NULL;
}

static Py_ssize_t table_len(PyObject *self) {
    return tree_of(self)->size;
}

static int table_contains(PyObject *self, PyObject *key) {
    return is_key(self, key) ? lookup(tree_of(self), key) != NULL : -1;
}

static PyObject *table_subscript(PyObject *self, PyObject *key) {
    if (!is_key(self, key))
        return NULL;
    const Entry *entry = lookup(tree_of(self), key);
    return entry ? Py_NewRef(entry->value) : raise_missing(key);
}

/* Puts an entry in, whose key is not there. */
static int add_new(Tree *tree, PyObject *key, PyObject *value) {
    Entry entry = {Py_NewRef(key), {Py_NewRef(value)}, {.hash = hash_of(key)}};
    if (!add(tree, entry))
        return 0;
    Py_DecRef(value);
    Py_DecRef(key);
    return no_memory();
}

static int table_set(PyObject *self, PyObject *key, PyObject *value) {
    Tree *tree = tree_of(self);
    if (!is_key(self, key))
        return -1;
    Entry *there = lookup(tree, key), entry = {.value = value};
    if (!there && value)
        return add_new(tree, key, value);
    if (!there) {
        raise_missing(key);
        return -1;
    }
    if (value) {
        Py_IncRef(value);
        swap_values(there, &entry);
    } else {
        entry = take(tree, place_of(tree, there));
    }
    Py_DecRef(entry.value);
    Py_DecRef(entry.key);
    return 0;
}

/* Reads the arguments of a call by place or name. */
static int read_named(PyObject *const *given, Py_ssize_t count, PyObject *names, const char *format, char **wanted,
    PyObject **key, PyObject **value) {
    Py_ssize_t named = names ? PyTuple_Size(names) : 0;
    OWNED *places = PyTuple_New(count), *keywords = PyDict_New();
    int error = !places || !keywords;
    for (Py_ssize_t index = 0; !error && index < count + named; index++) {
        if (index < count)
            error = PyTuple_SetItem(places, index, Py_NewRef(given[index]));
        else
            error = PyDict_SetItem(keywords, PyTuple_GetItem(names, index - count), given[index]);
    }
    return !error && PyArg_ParseTupleAndKeywords(places, keywords, format, wanted, key, value);
}

/* The first argument of a call, which has to be an identifier, or NULL with an exception. The second one, if the call
 * may have it and it is given, is put into a value. */
INLINE PyObject *read_key(
    PyObject *self, PyObject *const *given, Py_ssize_t count, PyObject *names, const char *format, PyObject **value) {
    static char *one[] = {"oid", NULL}, *two[] = {"key", "default", NULL};
    PyObject *key = NULL;
    if (!names && count == 1) {
        key = given[0];
    } else if (!names && count == 2 && value) {
        key = given[0];
        *value = given[1];
    } else if (!read_named(given, count, names, format, value ? two : one, &key, value)) {
        return NULL;
    }
    return is_key(self, key) ? key : NULL;
}

static PyObject *table_get(PyObject *self, PyObject *const *given, Py_ssize_t count, PyObject *names) {
    PyObject *value = Py_None, *key = read_key(self, given, count, names, "O|O:get", &value);
    if (!key)
        return NULL;
    const Entry *entry = lookup(tree_of(self), key);
    return Py_NewRef(entry ? entry->value : value);
}

static PyObject *table_pop(PyObject *self, PyObject *const *given, Py_ssize_t count, PyObject *names) {
    PyObject *value = NULL, *key = read_key(self, given, count, names, "O|O:pop", &value);
    if (!key)
        return NULL;
    Tree *tree = tree_of(self);
    Entry *there = lookup(tree, key);
    if (!there)
        return value ? Py_NewRef(value) : raise_missing(key);
    Entry entry = take(tree, place_of(tree, there));
    Py_DecRef(entry.key);
    return entry.value;
}

static PyObject *table_setdefault(PyObject *self, PyObject *const *given, Py_ssize_t count, PyObject *names) {
    PyObject *value = Py_None, *key = read_key(self, given, count, names, "O|O:setdefault", &value);
    if (!key)
        return NULL;
    const Entry *entry = lookup(tree_of(self), key);
    if (entry)
        return Py_NewRef(entry->value);
    return add_new(tree_of(self), key, value) ? NULL : Py_NewRef(value);
}

/* A tuple of a key and a value, whose references it takes over. */
static PyObject *pair_of(PyObject *key, PyObject *value) {
    PyObject *pair = PyTuple_New(2);
    if (!pair) {
        Py_DecRef(value);
        Py_DecRef(key);
        return NULL;
    }
    PyTuple_SetItem(pair, 0, key);
    PyTuple_SetItem(pair, 1, value);
    return pair;
}

/* The tuple of an entry that is there, which may go while the tuple is made. */
static __attribute__((noinline)) PyObject *pair_of_entry(const Entry *entry) {
    return pair_of(Py_NewRef(entry->key), Py_NewRef(entry->value));
}

/* The tuple is made first, which may run code that changes the table. */
static PyObject *table_popitem(PyObject *self, PyObject *Py_UNUSED(none)) {
    Tree *tree = tree_of(self);
    OWNED *pair = PyTuple_New(2);
    if (!pair)
        return NULL;
    if (!tree->size) {
        PyErr_SetString(PyExc_KeyError, "popitem(): the map is empty");
        return NULL;
    }
    uint32_t part = tree->part_count - 1;
    Entry entry = take(tree, (Place){part, tree->parts[part].count - 1, 1});
    PyTuple_SetItem(pair, 0, entry.key);
    PyTuple_SetItem(pair, 1, entry.value);
    return Py_NewRef(pair);
}

static PyObject *table_is_whole(PyObject *self, PyObject *Py_UNUSED(none)) {
    return PyBool_FromLong(is_whole(tree_of(self)));
}

static PyObject *table_clear(PyObject *self, PyObject *Py_UNUSED(none)) {
    table_clear_all(self);
    return Py_NewRef(Py_None);
}

/* How many octets the arcs take that two keys begin with. */
static size_t common_len(const const_oid_octets *left, const const_oid_octets *right) {
    size_t common = 0, most = left->len < right->len ? left->len : right->len;
    while (common + 8 <= most && word_of(&left->octets[common]) == word_of(&right->octets[common]))
        common += 8;
    while (common < most && left->octets[common] == right->octets[common])
        common++;
    while (common && left->octets[common - 1] > 127)
        common--;
    return common;
}

/* A key that is a prefix of another one is also a prefix of the last key that is not after that. */
static PyObject *table_nearest(PyObject *self, PyObject *const *given, Py_ssize_t count, PyObject *names) {
    const Tree *tree = tree_of(self);
    PyObject *key = read_key(self, given, count, names, "O:nearest", NULL);
    if (!key)
        return NULL;
    const Entry *entry = lookup(tree, key);
    if (entry)
        return pair_of_entry(entry);
    const_oid_octets above = *items_of(key);
    Place place = find(tree, &above, encode(&above));
    for (entry = entry_up_to(tree, place); entry; entry = entry_up_to(tree, place)) {
        above.len = common_len(&above, items_of(entry->key));
        if (above.len == items_of(entry->key)->len)
            return pair_of_entry(entry);
        place = find_up_to(tree, place, &above, encode(&above), 1);
    }
    return Py_NewRef(Py_None);
}

static PyObject *table_next_after(PyObject *self, PyObject *const *given, Py_ssize_t count, PyObject *names) {
    const Tree *tree = tree_of(self);
    PyObject *key = read_key(self, given, count, names, "O:next_after", NULL);
    if (!key)
        return NULL;
    Place place = find(tree, items_of(key), encode(items_of(key)));
    place.index += (uint32_t)place.is_there;
    const Entry *entry = next_entry(tree, &place);
    return entry ? pair_of_entry(entry) : Py_NewRef(Py_None);
}

/* Appends entries from a place on, whose keys begin with some octets, or all. */
static int append_all(const Tree *tree, Place place, const const_oid_octets *start, Run *run) {
    for (const Entry *entry = next_entry(tree, &place); entry; entry = next_entry(tree, &place)) {
        if (start && !begins_with(entry, start))
            break;
        if (append(NULL, run, entry->key, entry->value))
            return -1;
    }
    return 0;
}

/* A list of tuples of what a run has, which it gives up. It is made last, when nothing else runs any more. */
static PyObject *list_of(Run *run, int error) {
    for (size_t index = 0; !error && index < run->count; index++) {
        Entry *entry = &run->entries[index], taken = *entry;
        *entry = (Entry){0};
        entry->key = pair_of(taken.key, taken.value);
        error = !entry->key;
    }
    PyObject *list = error ? NULL : PyList_New((Py_ssize_t)run->count);
    for (Py_ssize_t index = 0; list && index < (Py_ssize_t)run->count; index++) {
        PyList_SetItem(list, index, run->entries[index].key);
        run->entries[index].key = NULL;
    }
    drop(run);
    return list;
}

static PyObject *table_subtree(PyObject *self, PyObject *const *given, Py_ssize_t count, PyObject *names) {
    const Tree *tree = tree_of(self);
    PyObject *key = read_key(self, given, count, names, "O:subtree", NULL);
    if (!key)
        return NULL;
    Run run = {0};
    const const_oid_octets *items = items_of(key);
    return list_of(&run, append_all(tree, find(tree, items, encode(items)), items, &run));
}

static PyObject *table_sizeof(PyObject *self, PyObject *Py_UNUSED(none)) {
    const Tree *tree = tree_of(self);
    OWNED *own = PyObject_CallMethod((PyObject *)&PyBaseObject_Type, "__sizeof__", "O", self);
    size_t size = own ? PyLong_AsSize_t(own) : 0, slots = tree->slots ? (size_t)tree->mask + 1 : 0;
    size += tree->room * sizeof(Entry) + (size_t)tree->part_room * sizeof(Part);
    for (uint32_t at = 0; at < tree->part_count; at++)
        slots += tree->parts[at].room;
    return own ? PyLong_FromSize_t(size + slots * sizeof *tree->slots) : NULL;
}

/* ---- Entries of others ---- */

static PyObject *table_iter(PyObject *self);

/* Appends the entry of a pair, which is a tuple or another iterable. */
static int collect_pair(PyObject *self, PyObject *item, Run *run) {
    static const char *wanted = "an entry must be a pair of a key and a value";
    int is_iterable = PyType_GetSlot(Py_TYPE(item), Py_tp_iter) || PySequence_Check(item);
    OWNED *pair = is_iterable ? PySequence_Tuple(item) : raise_wrong_type(self, wanted, item);
    Py_ssize_t size = pair ? PyTuple_Size(pair) : -1;
    if (size == 2)
        return append(self, run, PyTuple_GetItem(pair, 0), PyTuple_GetItem(pair, 1));
    if (pair)
        PyErr_Format(PyExc_ValueError, "%s, not %zd items: %R", wanted, size, item);
    return -1;
}

/* Those of an iterable of pairs, or of a mapping, by an iterable of its keys. */
static int collect_items(PyObject *self, PyObject *items, PyObject *mapping, Run *run) {
    OWNED *walk = items ? PyObject_GetIter(items) : NULL;
    int error = !walk;
    while (!error) {
        OWNED *item = PyIter_Next(walk), *value = item && mapping ? PyObject_GetItem(mapping, item) : NULL;
        if (!item)
            return PyErr_Occurred() ? -1 : 0;
        error = mapping ? !value || append(self, run, item, value) : collect_pair(self, item, run);
    }
    return -1;
}

/* Those of a dict, while no code of Python runs. */
static int collect_dict(PyObject *self, PyObject *given, Run *run) {
    PyObject *key, *value;
    Py_ssize_t at = 0;
    int error = reserve_run(run, (size_t)PyDict_Size(given));
    while (!error && PyDict_Next(given, &at, &key, &value))
        error = append(self, run, key, value);
    return error ? -1 : 0;
}

/* Appends the entries of a mapping or an iterable. As dict does, it takes those of a table or a dict, or of a subclass
 * with the iterator of these, as they are. */
static int collect(PyObject *self, PyObject *given, Run *run) {
    void *iter = PyType_GetSlot(Py_TYPE(given), Py_tp_iter);
    if (iter == (void *)table_iter)
        return append_all(tree_of(given), (Place){0, 0, 0}, NULL, run);
    if (PyDict_Check(given) && iter == PyType_GetSlot(&PyDict_Type, Py_tp_iter))
        return collect_dict(self, given, run);
    OWNED *method = attribute(given, "keys");
    if (!method && !PyErr_ExceptionMatches(PyExc_AttributeError))
        return -1;
    PyErr_Clear();
    OWNED *keys = method ? PyObject_CallNoArgs(method) : Py_NewRef(given);
    return collect_items(self, keys, method ? given : NULL, run);
}

/* Sets the entries of a mapping or an iterable: all, or none. */
static int set_all(PyObject *self, PyObject *given) {
    Run run = {0};
    int error = given && (collect(self, given, &run) || update(tree_of(self), &run));
    drop(&run);
    return error ? -1 : 0;
}

static int table_init(PyObject *self, PyObject *arguments, PyObject *keywords) {
    static char *names[] = {"entries", NULL};
    PyObject *entries = NULL;
    if (!PyArg_ParseTupleAndKeywords(arguments, keywords, "|O:SortedMap", names, &entries))
        return -1;
    return set_all(self, entries);
}

static PyObject *table_update(PyObject *self, PyObject *arguments) {
    PyObject *entries = NULL;
    if (!PyArg_UnpackTuple(arguments, "update", 0, 1, &entries))
        return NULL;
    return set_all(self, entries) ? NULL : Py_NewRef(Py_None);
}

/* ---- Equality ---- */

/* Whether another tree has the same keys. Appends the values that are not the same objects, each beside the other's.
 * Negative without memory. */
static int pair_values(const Tree *tree, const Tree *other, Run *pairs) {
    Place place = {0, 0, 0}, at = {0, 0, 0};
    if (tree->size != other->size)
        return 0;
    for (const Entry *one = next_entry(tree, &place); one; one = next_entry(tree, &place)) {
        const Entry *same = next_entry(other, &at);
        if (!is_same(one->key, same->key))
            return 0;
        if (one->value != same->value && append(NULL, pairs, one->value, same->value))
            return -1;
    }
    return 1;
}

/* How many keys of a dict are looked up at once, so that each waits for memory while others do. */
#define AT_ONCE 32

/* 0 if a dict has other keys, 1 if its values are the same objects, and otherwise 2. Gives the value of each key to the
 * index of its entry. */
static int find_values(const Tree *tree, PyObject *dict, PyObject **values) {
    PyObject *keys[AT_ONCE], *others[AT_ONCE];
    uint32_t hashes[AT_ONCE];
    Py_ssize_t at = 0;
    int found = 1, count = AT_ONCE;
    while (count == AT_ONCE) {
        for (count = 0; count < AT_ONCE && PyDict_Next(dict, &at, &keys[count], &others[count]); count++) {
            if (!is_identifier(keys[count]))
                return 0;
            hashes[count] = hash_of(keys[count]);
            __builtin_prefetch(&tree->slots[hashes[count] & tree->mask]);
        }
        for (int index = 0; index < count; index++) {
            uint32_t number = tree->slots[hashes[index] & tree->mask] & tree->mask;
            if (!number)
                return 0;
            __builtin_prefetch(&tree->entries[number - 1]);
            __builtin_prefetch(&values[number - 1]);
        }
        for (int index = 0; index < count; index++) {
            const Entry *entry = lookup_hashed(tree, keys[index], hashes[index]);
            if (!entry || values[entry - tree->entries])
                return 0;
            values[entry - tree->entries] = others[index];
            if (others[index] != entry->value)
                found = 2;
        }
    }
    return found;
}

/* The same as of another tree. */
static int pair_dict(const Tree *tree, PyObject *dict, Run *pairs) {
    if (PyDict_Size(dict) != tree->size)
        return 0;
    PyObject **values = PyMem_Calloc(tree->used, sizeof *values);
    if (!values)
        return no_memory();
    int found = find_values(tree, dict, values);
    Place place = {0, 0, 0};
    for (uint32_t left = tree->size; left > 0 && found == 2; left--) {
        const Entry *one = next_entry(tree, &place);
        PyObject *other = values[one - tree->entries];
        if (one->value != other && append(NULL, pairs, one->value, other))
            found = -1;
    }
    PyMem_Free(values);
    return found;
}

/* Whether all pairs are equal, in turn. */
static int are_equal(const Run *pairs, int found) {
    for (size_t index = 0; found > 0 && index < pairs->count; index++) {
        found = PyObject_RichCompareBool(pairs->entries[index].key, pairs->entries[index].value, Py_EQ);
    }
    return found;
}

/* None if the other one is neither a table nor a dict, nor of a subclass, all of which are read as they are. Their
 * values may change both, of which all is read before. */
static PyObject *table_equals(PyObject *self, PyObject *other) {
    const Tree *tree = tree_of(self);
    Run pairs = {0};
    int found;
    if (base_by(Py_TYPE(other), table_dealloc))
        found = pair_values(tree, tree_of(other), &pairs);
    else if (PyDict_Check(other))
        found = pair_dict(tree, other, &pairs);
    else
        return Py_NewRef(Py_None);
    found = are_equal(&pairs, found);
    drop(&pairs);
    return found < 0 ? NULL : PyBool_FromLong(found);
}

/* ---- Iterators ---- */

/* The keys, values or entries of a table. */
typedef struct {
    PyObject ob_base;
    PyObject *table;
    unsigned char kind;
} View;

/* An iterator over them, with a step of 1, or of -1, which is back. */
typedef struct {
    View view; /* without a table after its end */
    unsigned long long version;
    const uint32_t *indices; /* those of a part */
    ptrdiff_t part;          /* the part's number */
    ptrdiff_t at, end, step; /* where the next index is, and where the part ends */
    Py_ssize_t left;         /* how many are left in other parts */
} Walk;

enum { KEYS, VALUES, ENTRIES };

static void view_dealloc(PyObject *self) {
    PyTypeObject *type = Py_TYPE(self);
    PyObject_GC_UnTrack(self);
    Py_DecRef(((View *)self)->table);
    ((freefunc)PyType_GetSlot(type, Py_tp_free))(self);
    Py_DecRef((PyObject *)type);
}

static int view_traverse(PyObject *self, visitproc visit, void *arg) {
    Py_VISIT(((View *)self)->table);
    Py_VISIT(Py_TYPE(self));
    return 0;
}

static PyObject *walk_next(PyObject *self);

/* Raises an error if keys have come or gone, which stays so; goes on to the next part; or ends. */
static __attribute__((noinline)) PyObject *walk_on(Walk *walk) {
    PyObject *table = walk->view.table;
    const Tree *tree = table ? tree_of(table) : NULL;
    if (tree && tree->version != walk->version) {
        OWNED *name = PyType_GetName(Py_TYPE(table));
        return name ? PyErr_Format(PyExc_RuntimeError, "%U changed during iteration", name) : NULL;
    }
    if (!walk->left) {
        walk->view.table = NULL;
        Py_DecRef(table);
        return NULL;
    }
    walk->part += walk->step;
    const Part *part = &tree->parts[walk->part];
    walk->indices = part->indices;
    walk->at = walk->step > 0 ? 0 : (ptrdiff_t)part->count - 1;
    walk->end = walk->step > 0 ? (ptrdiff_t)part->count : -1;
    walk->left -= part->count;
    int are_far = walk->view.kind != VALUES && tree->part_count > PART; /* keys, which no cache has */
    for (uint32_t at = 0; are_far && at < part->count; at++)
        __builtin_prefetch(tree->entries[part->indices[at]].key);
    return walk_next((PyObject *)walk);
}

static PyObject *walk_next(PyObject *self) {
    Walk *walk = (Walk *)self;
    if (walk->at == walk->end)
        return walk_on(walk);
    const Tree *tree = tree_of(walk->view.table);
    if (tree->version != walk->version)
        return walk_on(walk);
    const Entry *entry = &tree->entries[walk->indices[walk->at]];
    walk->at += walk->step;
    if (walk->view.kind == KEYS)
        return Py_NewRef(entry->key);
    return walk->view.kind == VALUES ? Py_NewRef(entry->value) : pair_of_entry(entry);
}

static PyObject *walk_hint(PyObject *self, PyObject *Py_UNUSED(none)) {
    const Walk *walk = (Walk *)self;
    return PyLong_FromSsize_t((walk->end - walk->at) * walk->step + walk->left);
}

static PyMethodDef walk_methods[] = {{"__length_hint__", walk_hint, METH_NOARGS, NULL}, {0}};

static PyType_Slot walk_slots[] = {
    {Py_tp_dealloc, (void *)view_dealloc},
    {Py_tp_traverse, (void *)view_traverse},
    {Py_tp_iter, (void *)PyObject_SelfIter},
    {Py_tp_iternext, (void *)walk_next},
    {Py_tp_methods, walk_methods},
    {0},
};

static PyType_Spec walk_spec = {
    "const_oid.sorted_map.SortedMap_iterator",
    sizeof(Walk),
    0,
    Py_TPFLAGS_DEFAULT | Py_TPFLAGS_HAVE_GC | Py_TPFLAGS_IMMUTABLETYPE | Py_TPFLAGS_DISALLOW_INSTANTIATION,
    walk_slots,
};

static PyObject *walk_over(PyObject *self, unsigned char kind, ptrdiff_t step) {
    PyTypeObject **type = PyType_GetModuleState(base_by(Py_TYPE(self), table_dealloc));
    Walk *walk = type && *type ? (Walk *)PyType_GenericAlloc(*type, 0) : NULL;
    if (!walk)
        return NULL;
    const Tree *tree = tree_of(self); /* after the allocation, which may run code that changes the table */
    walk->view.table = Py_NewRef(self);
    walk->view.kind = kind;
    walk->version = tree->version;
    walk->left = tree->size;
    walk->step = step;
    walk->part = step > 0 ? -1 : (ptrdiff_t)tree->part_count;
    return (PyObject *)walk;
}

static PyObject *table_iter(PyObject *self) {
    return walk_over(self, KEYS, 1);
}

static PyObject *table_reversed(PyObject *self, PyObject *Py_UNUSED(none)) {
    return walk_over(self, KEYS, -1);
}

static PyObject *view_new(PyTypeObject *type, PyObject *arguments, PyObject *Py_UNUSED(keywords)) {
    PyObject *table;
    unsigned char kind;
    if (!PyArg_ParseTuple(arguments, "Ob", &table, &kind))
        return NULL;
    if (!base_by(Py_TYPE(table), table_dealloc))
        return PyErr_Format(PyExc_TypeError, "%R is no SortedMap", table);
    View *view = (View *)PyType_GenericAlloc(type, 0);
    if (!view)
        return NULL;
    view->table = Py_NewRef(table);
    view->kind = kind;
    return (PyObject *)view;
}

static PyObject *view_iter(PyObject *self) {
    return walk_over(((View *)self)->table, ((View *)self)->kind, 1);
}

static PyObject *view_reversed(PyObject *self, PyObject *Py_UNUSED(none)) {
    return walk_over(((View *)self)->table, ((View *)self)->kind, -1);
}

static Py_ssize_t view_len(PyObject *self) {
    return table_len(((View *)self)->table);
}

/* The names of their class, which sorted_map.py has subclasses of. */
static const char *view_names[] = {"Keys", "Values", "Items", NULL};

static PyMethodDef view_methods[] = {
    {"__class_getitem__", Py_GenericAlias, METH_O | METH_CLASS, "For types."},
    {"__reversed__", view_reversed, METH_NOARGS, NULL},
    {0},
};

static PyMemberDef view_members[] = {{"_mapping", T_OBJECT, offsetof(View, table), READONLY, NULL}, {0}};

static PyType_Slot view_slots[] = {
    {Py_tp_new, (void *)view_new},
    {Py_tp_dealloc, (void *)view_dealloc},
    {Py_tp_traverse, (void *)view_traverse},
    {Py_tp_iter, (void *)view_iter},
    {Py_sq_length, (void *)view_len},
    {Py_tp_methods, view_methods},
    {Py_tp_members, view_members},
    {0},
};

static PyType_Spec view_spec = {
    "const_oid.sorted_map.SortedMap_view",
    sizeof(View),
    0,
    Py_TPFLAGS_DEFAULT | Py_TPFLAGS_BASETYPE | Py_TPFLAGS_HAVE_GC | Py_TPFLAGS_IMMUTABLETYPE,
    view_slots,
};

/* ---- The module ---- */

#define NAMED(function) (PyCFunction)(void (*)(void)) function, METH_FASTCALL | METH_KEYWORDS

static PyMethodDef table_methods[] = {
    {"get", NAMED(table_get),
        "get($self, /, key, default=None)\n--\n\nThe value of a key, or else a default.\n\n"
        ">>> SortedMap().get(ObjectIdentifier('2.5'), 0)\n0"},
    {"pop", NAMED(table_pop),
        "pop($self, /, key, default=...)\n--\n\n"
        "Removes a key and returns its value, or else a default, or raises a KeyError.\n\n"
        ">>> SortedMap().pop(ObjectIdentifier('2.5'), 0)\n0"},
    {"setdefault", NAMED(table_setdefault),
        "setdefault($self, /, key, default=None)\n--\n\n"
        "The value of a key, which is set to a default if it has none.\n\n"
        ">>> SortedMap().setdefault(ObjectIdentifier('2.5'), 0)\n0"},
    {"popitem", table_popitem, METH_NOARGS,
        "popitem($self, /)\n--\n\n"
        "Removes the last entry and returns it, or raises a KeyError if there is none.\n\n"
        ">>> SortedMap({ObjectIdentifier('2.6'): 2, ObjectIdentifier('2.5'): 1}).popitem()\n"
        "(ObjectIdentifier('2.6'), 2)"},
    {"clear", table_clear, METH_NOARGS,
        "clear($self, /)\n--\n\nRemoves all entries.\n\n"
        ">>> table = SortedMap({ObjectIdentifier('2.5'): 'directory'})\n"
        ">>> table.clear(), table\n(None, SortedMap({}))"},
    {"update", table_update, METH_VARARGS,
        "update($self, entries=(), /)\n--\n\n"
        "Sets all entries of a mapping or an iterable, or none if a key is no identifier.\n\n"
        ">>> table = SortedMap({ObjectIdentifier('2.5'): 1})\n"
        ">>> table.update({ObjectIdentifier('2.5'): 2, ObjectIdentifier('2.4'): 3})\n"
        ">>> table\nSortedMap({ObjectIdentifier('2.4'): 3, ObjectIdentifier('2.5'): 2})"},
    {"nearest", NAMED(table_nearest),
        "nearest($self, /, oid)\n--\n\n"
        "The entry whose key is the longest prefix of an identifier, or None. A slice gives the arcs after the key.\n\n"
        ">>> keys = ObjectIdentifier('2.5'), ObjectIdentifier('2.5.4')\n"
        ">>> names = SortedMap(zip(keys, ['directory', 'attributes']))\n"
        ">>> names.nearest(oid := ObjectIdentifier('2.5.4.3'))\n(ObjectIdentifier('2.5.4'), 'attributes')\n"
        ">>> oid[len(names.nearest(oid)[0]) :]\n(3,)"},
    {"next_after", NAMED(table_next_after),
        "next_after($self, /, oid)\n--\n\n"
        "The first entry after an identifier, as GetNext of SNMP returns it, or None.\n\n"
        ">>> names = SortedMap({ObjectIdentifier('2.5.4'): 1, ObjectIdentifier('2.5.10'): 2})\n"
        ">>> names.next_after(ObjectIdentifier('2.5.4'))\n(ObjectIdentifier('2.5.10'), 2)"},
    {"subtree", NAMED(table_subtree),
        "subtree($self, /, oid)\n--\n\n"
        "All entries whose keys begin with an identifier, which may be a key itself.\n\n"
        ">>> arcs = [(2, 5, 4), (2, 5, 4, 3), (2, 6)]\n"
        ">>> names = SortedMap(zip(map(ObjectIdentifier.from_arcs, arcs), [1, 2, 3]))\n"
        ">>> names.subtree(ObjectIdentifier('2.5'))\n"
        "[(ObjectIdentifier('2.5.4'), 1), (ObjectIdentifier('2.5.4.3'), 2)]"},
    {"_equals", table_equals, METH_O, "_equals($self, other, /)\n--\n\nWhether a map or a dict has the same entries."},
    {"_is_whole", table_is_whole, METH_NOARGS, "For tests."},
    {"__class_getitem__", Py_GenericAlias, METH_O | METH_CLASS, "For types."},
    {"__reversed__", table_reversed, METH_NOARGS, "__reversed__($self, /)\n--\n\nAn iterator of keys, back."},
    {"__sizeof__", table_sizeof, METH_NOARGS, "__sizeof__($self, /)\n--\n\nThe octets of the map and its parts."},
    {0},
};

static PyType_Slot table_slots[] = {
    {Py_tp_doc, "SortedMap(entries=())\n--\n\nEntries in the order of arcs: see SortedMap."},
    {Py_tp_init, (void *)table_init},
    {Py_tp_dealloc, (void *)table_dealloc},
    {Py_tp_traverse, (void *)table_traverse},
    {Py_tp_clear, (void *)table_clear_all},
    {Py_tp_iter, (void *)table_iter},
    {Py_sq_contains, (void *)table_contains},
    {Py_mp_length, (void *)table_len},
    {Py_mp_subscript, (void *)table_subscript},
    {Py_mp_ass_subscript, (void *)table_set},
    {Py_tp_methods, table_methods},
    {0},
};

/* Its module is the one that doctest looks for examples in. */
static PyType_Spec table_spec = {
    "const_oid.sorted_map.SortedMap",
    sizeof(Table),
    0,
    Py_TPFLAGS_DEFAULT | Py_TPFLAGS_BASETYPE | Py_TPFLAGS_HAVE_GC | Py_TPFLAGS_IMMUTABLETYPE,
    table_slots,
};

int add_tables(PyObject *module) {
    hash_bytes = (hashfunc)PyType_GetSlot(&PyBytes_Type, Py_tp_hash);
    OWNED *table = PyType_FromModuleAndSpec(module, &table_spec, NULL);
    OWNED *view = PyType_FromModuleAndSpec(module, &view_spec, NULL);
    PyObject **walk = PyModule_GetState(module);
    *walk = PyType_FromModuleAndSpec(module, &walk_spec, NULL);
    if (!table || !view || !*walk || PyModule_AddObjectRef(module, "Table", table))
        return -1;
    for (const char **name = view_names; *name; name++)
        if (PyModule_AddObjectRef(module, *name, view))
            return -1;
    return 0;
}
