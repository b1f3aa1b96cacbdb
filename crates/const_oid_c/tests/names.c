/* Compares const_oid_names.h with rust/names.tsv, of which rows.inc has a ROW(constant, arcs, name, place) for each row,
 * by arcs: the octets of each constant, the entries row by row and past the last, what is found by name and by octets,
 * and what they are. With COMMON, const_oid_common_names.h with rust/common_names.tsv. */
#include "const_oid_common_names.h"
#include "see.h"

#include <ctype.h>
#include <string.h>
#include <strings.h>

#ifdef COMMON
#define ROWS "common.inc" /* Its constants are invalid octets, which nothing equals. */
#define HAS_CONSTANTS 0
#define COUNT CONST_OID_COMMON_NAMES_COUNT
#define BY_NAME const_oid_common_by_name
#define NAME_OF const_oid_common_name_of
#define NAME const_oid_common_name
#define OCTETS const_oid_common_octets
#else
#define ROWS "rows.inc"
#define HAS_CONSTANTS 1
#define COUNT CONST_OID_NAMES_COUNT
#define BY_NAME const_oid_by_name
#define NAME_OF const_oid_name_of
#define NAME(index) const_oid_names[index]
#define OCTETS(index) const_oid_name_octets[index]
#endif

/* Both tables together find what the first has, or else the second. */
static void find_in_both(const char *text) {
    const_oid_octets found = const_oid_from_name(text), wanted = {NULL, 0};
    size_t first = const_oid_by_name(text), second = const_oid_common_by_name(text);
    if (second < CONST_OID_COMMON_NAMES_COUNT)
        wanted = const_oid_common_octets(second);
    if (first < CONST_OID_NAMES_COUNT)
        wanted = const_oid_name_octets[first];
    SEE(found.octets == wanted.octets && found.len == wanted.len, first);
}

static void find_octets_in_both(const uint8_t *octets, size_t len) {
    size_t first = const_oid_name_of(octets, len), second = const_oid_common_name_of(octets, len);
    const char *wanted = second < CONST_OID_COMMON_NAMES_COUNT ? const_oid_common_name(second) : NULL;
    SEE(const_oid_to_name(octets, len) == (first < CONST_OID_NAMES_COUNT ? const_oid_names[first] : wanted), first);
}

typedef struct {
    const_oid_octets octets; /* comes first, so const_oid_by_arcs compares rows */
    const char *arcs, *name;
    size_t place;
} row;

#define ROW(constant, arcs, name, place) {{CONST_OID_OCTETS(constant)}, arcs, name, place},
static row rows[] = {
#include ROWS
};
static const size_t count = sizeof rows / sizeof *rows;
static const_oid_octets items[COUNT];

/* How many constants are these octets. */
#undef ROW
#define ROW(constant, arcs, name, place) found += CONST_OID_IS(octets, len, constant) == 1;
static size_t constants_of(const uint8_t *octets, size_t len) {
    size_t found = 0;
#include ROWS
    return found;
}

/* The first row of the table with a name. */
static size_t named(const char *name) {
    size_t first = count;
    for (size_t i = 0; i < count; i++) {
        if (strcasecmp(rows[i].name, name) == 0 && (first == count || rows[i].place < rows[first].place))
            first = i;
    }
    return first;
}

static void find(const char *text, size_t index) {
    SEE(BY_NAME(text) == named(text), index);
    find_in_both(text);
}

/* Finds a name: as it is, with other characters that are no letters, with letters of the other case, with a letter more
 * and with one less. */
static void find_like(size_t index) {
    char text[128] = "";
    size_t len = strlen(rows[index].name);
    memcpy(text, rows[index].name, len);
    find(text, index);
    for (size_t i = 0; i < len; i++)
        text[i] ^= isalpha((unsigned char)text[i]) ? 0 : 32;
    find(text, index);
    for (size_t i = 0; i < len; i++)
        text[i] ^= 32;
    find(text, index);
    text[len] = 'x';
    find(text, index);
    text[len - 1] = 0;
    find(text, index);
}

/* Finds the first row of octets by name_of and by a search, and counts all rows of them. */
static void find_octets(const uint8_t *octets, size_t len) {
    const const_oid_octets item = {octets, len};
    const size_t first = const_oid_find(octets, len, items, count).len;
    size_t end = first;
    while (end < count && const_oid_by_arcs(&rows[end], &item) == 0)
        end++;
    SEE(constants_of(octets, len) == (HAS_CONSTANTS ? end - first : 0), first);
    SEE(NAME_OF(octets, len) == first, first);
    find_octets_in_both(octets, len);
}

/* Finds octets: each prefix of them, with the zero that ends their constant, with another octet at each place, and from
 * below. */
static void find_octets_like(const_oid_octets of) {
    uint8_t octets[32];
    memcpy(octets, of.octets, of.len + 1);
    for (size_t i = 0; i <= of.len; i++) {
        find_octets(of.octets, i + 1);
        octets[i] ^= 1;
        find_octets(octets, of.len);
        octets[i] ^= 1;
    }
    size_t len = const_oid_push_arc(of.octets, of.len, UINT32_MAX, octets, sizeof octets).len;
    size_t nearest = const_oid_nearest(octets, len, items, count).len;
    SEE(nearest == NAME_OF(of.octets, of.len), nearest);
}

static size_t slot_of(const uint8_t *octets, size_t len) {
    return const_oid_internal_slot(const_oid_internal_hash(octets, len, 0), COUNT * 11 / 8);
}

/* Octets that are longer than a name's by so many, and begin with them, are none, even in the name's slot. */
static void find_longer(const_oid_octets of, size_t more) {
    static uint8_t octets[32 + 65536];
    const size_t len = of.len + more, slot = slot_of(of.octets, of.len);
    memset(octets, 1, len);
    memcpy(octets, of.octets, of.len);
    for (unsigned end = 0; slot_of(octets, len) != slot; end++) {
        for (size_t i = 1; i < 4; i++)
            octets[len - i] = end >> 7 * (i - 1) & 0x7F;
    }
    SEE(NAME_OF(octets, len) == count, more);
}

int main(void) {
    static uint8_t made[sizeof rows / sizeof *rows][128];
    SEE(count == COUNT, count);
    for (size_t i = 0; i < count; i++)
        items[i] = OCTETS(i);
    SEE(const_oid_check_sorted(items, count).code == CONST_OID_OK, count);
    for (size_t i = 0; i < count; i++) {
        const const_oid_octets constant = rows[i].octets;
        rows[i].octets.len = const_oid_from_text(rows[i].arcs, strlen(rows[i].arcs), made[i], sizeof made[i]).len;
        rows[i].octets.octets = made[i];
        SEE(!HAS_CONSTANTS || const_oid_is_equal(constant.octets, constant.len, made[i], rows[i].octets.len), i);
    }
    for (size_t i = 0; i < count; i++)
        SEE(const_oid_by_arcs(&items[i], &rows[i]) == 0, i);
    for (size_t i = 0; i < count; i++) {
        SEE(strcmp(NAME(i), rows[i].name) == 0, i);
        find_like(i);
        find_octets_like(rows[i].octets);
        if (i % 99 == 0)
            find_longer(rows[i].octets, 256);
        if (i % 990 == 0)
            find_longer(rows[i].octets, 65536);
    }
    SEE(NAME(count)[0] == 0 && OCTETS(count).len == 0, count);
    SEE(NAME_OF(NULL, 0) == count && NAME_OF((const uint8_t *)"\x80", 1) == count, 0);
    SEE(BY_NAME("") == count && BY_NAME("zz") == count && BY_NAME("\xC3") == count, 0);
    return 0;
}
