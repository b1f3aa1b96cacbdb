/* Names of object identifiers, from RFCs and other documents.
 *
 * - A constant for each entry of the table, such as CONST_OID_RFC5912_ID_EC_PUBLIC_KEY, which in Rust is
 *   rfc5912::ID_EC_PUBLIC_KEY: a macro with its contents octets as a string literal. It costs nothing where it
 *   is not used. CONST_OID_OCTETS gives its pointer and its length: two arguments of a call, or the initializer
 *   of a const_oid_octets. It takes a string literal alone: for an array of your own, use CONST_OID_ARRAY.
 *   A constant is no text: strlen and std::string stop at an octet that is zero. And sizeof counts one octet too
 *   many, the zero that ends the literal, which is another identifier.
 * - The entries in the order of arcs: const_oid_name_octets is a list of CONST_OID_NAMES_COUNT items that
 *   const_oid_check_sorted accepts, and const_oid_names has the null-terminated name of each, at the same index.
 *   An identifier may have several names. They are adjacent, in the order of the table, and const_oid_find and
 *   const_oid_nearest return the first.
 * - const_oid_by_name and const_oid_name_of, which return the index of the entry with a name or with octets. id-mod,
 *   id-alg and hashAlgs have two identifiers, of which const_oid_by_name returns the first in const-oid's order.
 *
 * An index must be below CONST_OID_NAMES_COUNT, at which are an empty name and no octets. Functions whose names begin
 * with const_oid_internal_ are not for you: they may go.
 *
 * The arrays are static, but inline from C++17 on: each file in C that uses them has a copy of some 80 KB, or 150 if
 * its code is position-independent, so let one file use them. What is here is tested, not proved. */
#ifndef CONST_OID_NAMES_H
#define CONST_OID_NAMES_H

#include "const_oid.h"

/* CONST_OID_ARRAY: an array of uint8_t and its length. C++, gcc and clang reject a pointer, and any other array. All
 * octets count. So initialize the array by numbers, since a string literal adds a zero at its end. Of a buffer that is
 * filled in part, give the pointer, and the `len` of the status. */
#ifdef __cplusplus
#define CONST_OID_BYTES(text) reinterpret_cast<const uint8_t *>(text)
#define CONST_OID_ARRAY(array) (array), sizeof(const_oid_array(array))
extern "C++" template <size_t N> char (&const_oid_array(const uint8_t (&array)[N]))[N];
#else
#define CONST_OID_BYTES(text) (const uint8_t *)(text)
#ifdef __GNUC__
#define CONST_OID_ARRAY(array) (array), sizeof(char[__builtin_types_compatible_p( \
    __typeof__(array), uint8_t[]) ? (ptrdiff_t)sizeof(array) : -1])
#else
#define CONST_OID_ARRAY(array) (array), sizeof(array)
#endif
#endif
#define CONST_OID_OCTETS(constant) CONST_OID_BYTES("" constant ""), (sizeof("" constant "") - 1) * sizeof( \
    char[sizeof *("" constant "") == 1 && sizeof("" constant "") > 1 ? 1 : -1]) /* neither wide nor empty */

/* CONST_OID_IS(octets, len, constant): 1 if the octets of an identifier are those of a constant, and otherwise 0, as
 * for invalid octets. It takes three arguments, so no CONST_OID_ARRAY. The last is a string literal of valid
 * octets: a text such as "2.5.4.3" gives 0. For two inputs, use const_oid_is_equal. Each argument is evaluated once. */
#define CONST_OID_IS(octets, len, constant) const_oid_is_constant(octets, len, CONST_OID_OCTETS(constant))
CONST_OID_NODISCARD CONST_OID_READS(1, 2) CONST_OID_READS(3, 4) CONST_OID_INLINE int const_oid_is_constant(
    const uint8_t *octets, size_t len, const uint8_t *constant, size_t constant_len) {
    return len > 0 && len == constant_len && octets[len - 1] == constant[len - 1]
        && !CONST_OID_DIFFER(octets, constant, len);
}

@CONSTANTS@
#define CONST_OID_NAMES_COUNT @COUNT@

/* The octets of the entries, in literals of at most 509. */
CONST_OID_TABLE const uint8_t const_oid_name_bytes[][512] = {@BYTES@};

CONST_OID_TABLE const const_oid_octets const_oid_name_octets[CONST_OID_NAMES_COUNT + 1] = {@OCTETS@};

CONST_OID_TABLE const char *const const_oid_names[CONST_OID_NAMES_COUNT + 1] = {@NAMES@};

/* The lengths of the names. */
CONST_OID_TABLE const uint8_t const_oid_name_lens[CONST_OID_NAMES_COUNT + 1] = {@NAME_LENS@};

/* Four bytes as a number. */
CONST_OID_INLINE uint32_t const_oid_internal_word(const uint8_t *bytes) {
    const uint32_t last = bytes[3];
    return ((last << 8 | bytes[2]) << 8 | bytes[1]) << 8 | bytes[0];
}

/* A hash by words, of which the last four bytes are one, or all of fewer. In each byte `bits` are set. */
CONST_OID_INLINE uint32_t const_oid_internal_hash(const uint8_t *bytes, size_t len, uint32_t bits) {
    const uint64_t factor = 2654435769u; /* so that no product overflows */
    uint32_t hash = 0, word = 0;
    size_t i;
    for (i = 0; i + 4 < len; i += 4)
        hash = (hash ^ (const_oid_internal_word(bytes + i) | bits)) * factor & 0xFFFFFFFFu;
    if (len >= 4) {
        word = const_oid_internal_word(bytes + len - 4);
    } else {
        for (i = len; i > 0; i--)
            word = word << 8 | bytes[i - 1];
    }
    return (hash ^ (word | bits)) * factor & 0xFFFFFFFFu;
}

/* The slot of a hash among so many. */
CONST_OID_INLINE size_t const_oid_internal_slot(uint32_t hash, uint32_t slots) {
    return (hash >> 16) * slots >> 16;
}

/* The length of a name, and its hash in any case of its letters. */
CONST_OID_INLINE size_t const_oid_internal_name_len(const char *name) {
    size_t len = 0;
#ifdef __GNUC__ /* Of a literal the compiler knows it. */
    if (__builtin_constant_p(__builtin_strlen(name)))
        return __builtin_strlen(name);
#endif
    while (name[len] != 0 && name[len + 1] != 0)
        len += 2;
    return len + (name[len] != 0);
}

CONST_OID_INLINE uint32_t const_oid_internal_name_hash(const char *name, size_t len) {
    return const_oid_internal_hash(CONST_OID_BYTES(name), len, 0x20202020u);
}

/* Whether two characters are one letter in both cases. */
CONST_OID_INLINE int const_oid_internal_are_cases(char left, char right) {
    return (left ^ right) == ('a' ^ 'A') && (left | right) >= 'a' && (left | right) <= 'z';
}

/* Whether two names of this length are the same, without the case of their letters. */
CONST_OID_INLINE int const_oid_internal_is_same_name(const char *left, const char *right, size_t len) {
    const uint8_t *a = CONST_OID_BYTES(left), *b = CONST_OID_BYTES(right);
    size_t i = 0;
    while (i + 4 <= len && const_oid_internal_word(a + i) == const_oid_internal_word(b + i))
        i += 4;
    while (i < len && (left[i] == right[i] || const_oid_internal_are_cases(left[i], right[i])))
        i++;
    return i == len;
}

@SEARCHES@
#endif
