/* Names of object identifiers that people type and const_oid_names.h lacks, from OpenSSL, MIBs, Microsoft and others.
 * const_oid_parse and const_oid_display, const_oid_from_name and const_oid_to_name ask that header and then this. The
 * case of ASCII letters does not matter, and blanks in a name do. So some names, such as DSA and host, lead elsewhere
 * than in OpenSSL or a MIB: const_oid_common_by_name leads there, and docs/NAMES.md lists them. The entries are in the
 * order of arcs, as there. Their tables hold no pointers. The arrays are static, some 30 octets for each entry more.
 * What is here is tested, not proved. */
#ifndef CONST_OID_COMMON_NAMES_H
#define CONST_OID_COMMON_NAMES_H

#include "const_oid_names.h"

/* Null without a warning. */
#if defined(__cplusplus) && __cplusplus >= 201103L
#define CONST_OID_NULL nullptr
#else
#define CONST_OID_NULL NULL
#endif

#define CONST_OID_COMMON_NAMES_COUNT @COUNT@

/* The octets of the entries, and their null-terminated names, in literals of at most 509. */
CONST_OID_TABLE const uint8_t const_oid_common_bytes[][512] = {@BYTES@};

CONST_OID_TABLE const char const_oid_common_texts[][512] = {@TEXTS@};

/* An entry: where its name and its octets are, at 512 times the index of their literal, and their lengths. */
typedef struct const_oid_common_entry {
    uint32_t name;
    uint16_t octets;
    uint8_t name_len, len;
} const_oid_common_entry;

CONST_OID_TABLE const const_oid_common_entry const_oid_common_entries[CONST_OID_COMMON_NAMES_COUNT + 1] = {@ENTRIES@};

/* The name of the entry at an index, and its octets. An index must be below CONST_OID_COMMON_NAMES_COUNT, at which
 * are an empty name and no octets. */
CONST_OID_NODISCARD CONST_OID_INLINE const char *const_oid_common_name(size_t index) {
    const uint32_t at = const_oid_common_entries[index].name;
    return const_oid_common_texts[at / 512] + at % 512;
}

CONST_OID_NODISCARD CONST_OID_INLINE const_oid_octets const_oid_common_octets(size_t index) {
    const unsigned at = const_oid_common_entries[index].octets;
    const_oid_octets found;
    found.octets = const_oid_common_bytes[at / 512] + at % 512;
    found.len = const_oid_common_entries[index].len;
    return found;
}

@COMMON_SEARCHES@

/* The octets of the first entry with a name of this length, by const_oid_by_name or else here. Null with length 0 if
 * none. */
CONST_OID_NODISCARD CONST_OID_READS(1, 2) CONST_OID_INLINE const_oid_octets const_oid_from_part(
    const char *name, size_t len) {
    const const_oid_octets none = {CONST_OID_NULL, 0};
    const uint32_t hash = const_oid_internal_name_hash(name, len);
    size_t index = const_oid_internal_find_name(name, len, hash);
    if (index < CONST_OID_NAMES_COUNT)
        return const_oid_name_octets[index];
    index = const_oid_internal_common_find_name(name, len, hash);
    return index < CONST_OID_COMMON_NAMES_COUNT ? const_oid_common_octets(index) : none;
}

/* The same of a null-terminated name. */
CONST_OID_NODISCARD CONST_OID_NONNULL(1) CONST_OID_INLINE const_oid_octets const_oid_from_name(const char *name) {
    return const_oid_from_part(name, const_oid_internal_name_len(name));
}

/* The first name of contents octets, by const_oid_name_of or else here. Null if none, as for invalid octets. */
CONST_OID_NODISCARD CONST_OID_READS(1, 2) CONST_OID_INLINE const char *const_oid_to_name(
    const uint8_t *octets, size_t len) {
    const uint32_t hash = const_oid_internal_hash(octets, len, 0);
    size_t index = const_oid_internal_find_octets(octets, len, hash);
    if (index < CONST_OID_NAMES_COUNT)
        return const_oid_names[index];
    index = const_oid_internal_common_find_octets(octets, len, hash);
    return index < CONST_OID_COMMON_NAMES_COUNT ? const_oid_common_name(index) : CONST_OID_NULL;
}

/* The octets of the longest name that a text begins with, at most 255 bytes, and where it ends: with the text, or
 * before a dot. Null with length 0 if none, as in text that begins with a digit. */
CONST_OID_INLINE const_oid_octets const_oid_internal_longest_name(const char *text, size_t len, size_t *end) {
    const_oid_octets name = {CONST_OID_NULL, 0};
    *end = len < 256 ? len + 1 : 256;
    if (len > 0 && text[0] >= '0' && text[0] <= '9')
        return name;
    while (name.len == 0 && *end > 0) {
        --*end;
        if (*end == len || text[*end] == '.')
            name = const_oid_from_part(text, *end);
    }
    return name;
}

/* Writes the contents octets of what people type and paste: dotted text, a name, or a name and arcs, as in sysUpTime.0.
 * Around it may be ASCII whitespace: space, \t, \n, \f and \r, but not \v. Before it may be a prefix: OID. or
 * urn:oid:, in any case, a dot, as of `snmpwalk -On`, or a module and ::, which is a letter, and then letters, digits
 * and hyphens, and is not looked up. What begins with a digit is dotted text. Else it begins with a name that
 * const_oid_from_name finds: all of the text is tried, and then what is before each dot, from the last one on.
 *
 * Errors are those of const_oid_from_text, of the text after the prefix, with the arcs of a name in its place: of one
 * that is not there, DIGIT_EXPECTED. `len` is the index of the wrong component of the text after the prefix, of which a
 * name, with its dots, is the first. */
CONST_OID_NODISCARD CONST_OID_READS(1, 2) CONST_OID_WRITES(3, 4) CONST_OID_INLINE const_oid_status const_oid_parse(
    const char *text, size_t text_len, uint8_t *CONST_OID_RESTRICT out, size_t out_len) {
    const_oid_range range;
    const size_t len = const_oid_bare_text(text, text_len, &range).len;
    const char *const bare = range.start > 0 ? text + range.start : text; /* null has no offset */
    size_t end;
    const const_oid_octets name = const_oid_internal_longest_name(bare, len, &end);
    if (name.len == 0)
        return const_oid_from_text(bare, len, out, out_len);
    return const_oid_from_text_below(name.octets, name.len, bare + end, len - end, out, out_len);
}

/* The first name of octets if it leads back to them, or null. */
CONST_OID_INLINE const char *const_oid_internal_name_back(const uint8_t *octets, size_t len) {
    const char *name = const_oid_to_name(octets, len);
    const const_oid_octets found = const_oid_from_name(name ? name : "");
    return found.len == len && !CONST_OID_DIFFER(found.octets, octets, len) ? name : CONST_OID_NULL;
}

/* Writes the name of the longest prefix of contents octets that has three arcs or more and a first name, and the arcs
 * after it, or else dotted text. A name that leads elsewhere, such as a second hashAlgs, is none, so const_oid_parse
 * reads what is written as the same octets. A zero follows, for which there must be room too, and which `len` does not
 * count. Four bytes for each octet, 255 for a name and one are enough. */
CONST_OID_NODISCARD CONST_OID_READS(1, 2) CONST_OID_WRITES(3, 4) CONST_OID_INLINE const_oid_status const_oid_display(
    const uint8_t *octets, size_t len, char *CONST_OID_RESTRICT out, size_t out_len) {
    size_t at = len < CONST_OID_USUAL_OCTETS ? len : CONST_OID_USUAL_OCTETS, root = 0, used, room, i;
    const char *name = CONST_OID_NULL;
    char *rest;
    const_oid_status status = const_oid_check(octets, len);
    if (status.code != CONST_OID_OK)
        return status;
    while (octets[root] >= 128)
        root++;
    for (; at > root + 1; at--) {
        name = const_oid_internal_name_back(octets, at);
        if (name)
            break;
    }
    used = const_oid_internal_name_len(name ? name : "");
    room = used < out_len ? out_len - used - 1 : 0;
    rest = used < out_len ? out + used : out;
    status = name ? const_oid_to_text_below(octets, len, octets, at, rest, room)
                  : const_oid_to_text(octets, len, rest, room);
    status.len = status.len + used;
    if (used >= out_len)
        status.code = CONST_OID_OUTPUT_TOO_SHORT;
    if (status.code != CONST_OID_OK)
        return status;
    for (i = 0; i < used; i++)
        out[i] = name[i];
    out[status.len] = 0;
    return status;
}

#endif
