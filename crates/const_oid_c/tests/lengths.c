#define _GNU_SOURCE
/* Each function of const_oid.h, in which each array in turn has a length that fewer bits would cut, or is null with a
 * length, which ends the process. Pages that are mapped and never written take no memory, so lengths pass 2^32 where
 * pointers have 64 bits. */
#include "see.h"

#include <const_oid_names.h>
#include <string.h>
#include <sys/mman.h>
#include <sys/resource.h>
#include <sys/wait.h>
#include <unistd.h>

enum kind { NOTHING, OCTETS, DER, TEXT, BELOW, ARCS, LIST, OUTPUT };

typedef struct {
    const void *items;
    size_t len;
} array;

/* Arrays that are right. */
#define OID (const uint8_t *)"\x2A\3\4", 3
static const uint32_t right_arcs[] = {1, 2}, wrong_arcs[] = {1, 40};
static const const_oid_octets right_list[] = {{OID}}, null_list[] = {{NULL, 3}};
static uint32_t output[64];
static const array right[] = {[OCTETS] = {OID},
    [DER] = {"\6\3\x2A\3\4", 5},
    [TEXT] = {"1.2", 3},
    [BELOW] = {".1.2", 4},
    [ARCS] = {right_arcs, 2},
    [LIST] = {right_list, 1},
    [OUTPUT] = {output, 64}};

/* How many items are right in an array with a wrong one, these, and the code for it. Of DER they are contents octets. An
 * output is right. */
static const struct {
    size_t count, size;
    const void *items;
    uint32_t code;
} wrong[] = {[OCTETS] = {3, 1, "\x2A\3\4\x80", CONST_OID_BASE128},
    [DER] = {3, 1, "\x2A\3\4\x80", CONST_OID_BASE128},
    [TEXT] = {3, 1, "1.2\xFF", CONST_OID_NOT_UTF8},
    [BELOW] = {4, 1, ".1.2\xFF", CONST_OID_NOT_UTF8},
    [ARCS] = {1, 4, wrong_arcs, CONST_OID_ARC_INVALID},
    [OUTPUT] = {0, 0, NULL, CONST_OID_OK}};

/* The function that is called, the index of the argument that varies, and its kind, if there is one. */
static const char *called;
static int varied_at;
static enum kind varied;

/* Whether arrays are null, or the octets of an item. If not, a length of fewer bits than `cut` is a few items, and the
 * memory has more. */
static int is_null, is_null_item;
static size_t cut;
static uint8_t *memory;

static void must(int fact) {
    if (!fact) {
        fprintf(stderr, "tests: %s: argument %d, length %zu\n", called, varied_at, cut);
        exit(1);
    }
}

/* Writes the tag and the length of an element of DER. How many octets they are. */
static size_t write_head(uint64_t len) {
    int count = 1;
    while (len >> 8 * count > 0)
        count++;
    memory[0] = 6;
    memory[1] = (uint8_t)(0x80 + count);
    for (int i = 0; i < count; i++)
        memory[2 + i] = (uint8_t)(len >> 8 * (count - 1 - i));
    return 2 + (size_t)count;
}

/* Writes an array with a wrong item, and items past it. */
static array wrong_array(enum kind kind) {
    const size_t len = cut + wrong[kind].count;
    const size_t head = kind == DER ? write_head(len) : 0;
    memcpy(memory + head, wrong[kind].items, (wrong[kind].count + 1) * wrong[kind].size);
    return (array){memory, head + len};
}

/* An argument. A second identifier has an arc less. Long lists are apart. */
static array given(enum kind kind, int index) {
    array of = right[kind];
    if (kind == OCTETS)
        of.len -= (size_t)index;
    if (index != varied_at || (kind == LIST && !is_null))
        return of;
    varied = kind;
    if (is_null)
        return is_null_item && kind == LIST ? (array){null_list, 1} : (array){NULL, of.len};
    return kind == OUTPUT ? (array){memory, cut} : wrong_array(kind);
}

/* Whether a call is made here. With null it is made in another process, which it ends. */
static int begins(const char *name) {
    int ended = 0;
    called = name;
    varied = NOTHING;
    if (!is_null)
        return 1;
    const pid_t child = fork();
    if (child == 0) {
        setrlimit(RLIMIT_CORE, &(struct rlimit){0, 0});
        return 1;
    }
    must(child > 0 && waitpid(child, &ended, 0) == child && ended != 1 << 8);
    return 0;
}

/* A wrong item is found past the length of fewer bits, a long output is long enough, and no null is accepted. */
static void see_status(const_oid_status status) {
    if (is_null)
        _exit(varied != NOTHING);
    const int is_bare = status.code == CONST_OID_OK && status.len == cut + wrong[TEXT].count;
    must(varied == NOTHING || status.code == wrong[varied].code || (varied == TEXT && is_bare));
}

static void call(void) {
    const_oid_range range;
    const_oid_octets item;
#define IN(kind, i) given(kind, i).items, given(kind, i).len
#define OUT(kind, i) (void *)given(OUTPUT, i).items, given(OUTPUT, i).len
#define VALUE(kind, i) VALUE_##kind
#define VALUE_INDEX 1
#define VALUE_NUMBER 1
#define VALUE_RANGE_OUT &range
#define VALUE_ITEM_OUT &item
#define CALL(result, name, ...) CALL_##result(name, __VA_ARGS__)
#define CALL_const_oid_status(name, ...) \
    if (begins(#name)) \
        see_status(name(__VA_ARGS__));
#define CALL_int(name, ...)
#define CALL_uint32_t(name, ...)
#include "calls.h"
}

/* What has no status, or takes an item: octets that are longer than others, and begin with them. */
static void see_long_octets(void) {
    const const_oid_octets item = {memory, cut + 3},
                           list[] = {{(const uint8_t *)"", 1}, item, {(const uint8_t *)"U", 1}};
    memcpy(memory, "\x2A\3\4\x80", 4);
    SEE(!const_oid_is_equal(memory, cut + 3, OID) && !const_oid_is_equal(OID, memory, cut + 3), cut);
    SEE(!const_oid_is_under(memory, cut + 3, OID) && !const_oid_is_under(OID, memory, cut + 3), cut);
    SEE(!CONST_OID_IS(memory, cut + 3, "\x2A\3\4"), cut);
    SEE(const_oid_by_arcs(&item, right_list) == 1 && const_oid_by_arcs(right_list, &item) == -1, cut);
    const const_oid_status checked = const_oid_check_sorted(list, 3);
    SEE(checked.code == CONST_OID_BASE128 && checked.len == 1, cut);
    memory[3] = 0;
    if (cut < 1 << 24)
        SEE(const_oid_len(memory, cut + 3).len == cut + 4, cut);
    SEE(const_oid_find(OID, list, 3).code == CONST_OID_NONE && const_oid_next(OID, list, 3).len == 1, cut);
    SEE(const_oid_nearest(OID, list, 3).code == CONST_OID_NONE, cut);
    SEE(const_oid_arcs_from(OID, 0, (void *)memory, cut + 1).len == 4, cut);
}

static void see_indices(void) {
    for (size_t index = 1 << 8; index > 0; index <<= 1) {
        for (size_t low = 0; low < 4; low++) {
            SEE(const_oid_arc(OID, index + low).code == CONST_OID_NONE, index);
            SEE(const_oid_arcs_from(OID, index + low, output, 64).len == 0, index);
        }
    }
}

/* Memory that is mapped and not written. Null if there is none. */
static void *map(uint64_t bytes) {
    if (bytes > SIZE_MAX / 2)
        return NULL;
    void *start = mmap(NULL, (size_t)bytes, PROT_READ | PROT_WRITE, MAP_PRIVATE | MAP_ANONYMOUS | MAP_NORESERVE, -1, 0);
    return start == MAP_FAILED ? NULL : start;
}

/* A list in which the second item is wrong, and the third may not be read. */
static void see_long_list(void) {
    const_oid_octets *items = (void *)memory;
    items[0] = right_list[0];
    items[1] = (const_oid_octets){NULL, 0};
    items[2] = null_list[0];
    const const_oid_status checked = const_oid_check_sorted(items, cut + 1);
    SEE(checked.code == CONST_OID_EMPTY && checked.len == 1, cut);
}

/* A list of equal items and then another one: some pages of a file again and again. */
static const_oid_octets *map_equal_items(uint64_t count) {
    enum { CHUNK = 1 << 24, ITEMS = CHUNK / sizeof(const_oid_octets) };
    const int file = memfd_create("items", 0);
    uint8_t *start = map((count + 1) * sizeof(const_oid_octets));
    SEE(start != NULL && file >= 0 && ftruncate(file, CHUNK) == 0, 0);
    for (uint64_t at = 0; at < count; at += ITEMS) {
        void *to = start + at * sizeof(const_oid_octets);
        SEE(mmap(to, CHUNK, PROT_READ | PROT_WRITE, MAP_SHARED | MAP_FIXED, file, 0) == to, (size_t)at);
    }
    const_oid_octets *items = (void *)start;
    for (size_t i = 0; i < ITEMS; i++)
        items[i] = (const_oid_octets){(const uint8_t *)"\x2A", 1};
    items[count] = right_list[0];
    return items;
}

static void see_searches(void) {
    const size_t count = cut + 1;
    const const_oid_octets *items = map_equal_items(cut);
    const uint8_t *const equal = items->octets;
    const_oid_range range;
    SEE(const_oid_find(OID, items, count).len == cut && const_oid_next(equal, 1, items, count).len == cut, cut);
    SEE(const_oid_nearest(OID, items, count).len == cut && const_oid_find(NULL, 0, items, count).len == count, cut);
    SEE(const_oid_subtree_range(OID, items, count, &range).code == CONST_OID_OK, cut);
    SEE(range.start == cut && range.end == count, cut);
}

static int see_lengths(int bits) {
    const uint64_t bytes = (UINT64_C(1) << bits) * sizeof(const_oid_octets) + 64;
    memory = map(bytes);
    if (memory == NULL)
        return 0;
    cut = (size_t)1 << bits;
    for (varied_at = 0; varied_at < 3; varied_at++)
        call();
    see_long_octets();
    see_long_list();
    munmap(memory, (size_t)bytes);
    if (bits == 32)
        see_searches();
    return 1;
}

int main(void) {
    static const int bits[] = {8, 16, 20, 24, 31, 32};
    SEE(const_oid_version() == CONST_OID_VERSION, const_oid_version());
    for (is_null_item = 0; is_null_item < 2; is_null_item++) {
        is_null = 1;
        for (varied_at = 0; varied_at < 3; varied_at++)
            call();
    }
    is_null = 0;
    see_indices();
    for (size_t i = 0; i < sizeof bits / sizeof *bits; i++) {
        if (!see_lengths(bits[i]))
            fprintf(stderr, "tests: no length past 2^%d, since no more is mapped\n", bits[i]);
    }
    return 0;
}
