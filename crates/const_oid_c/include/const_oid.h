/* Object identifiers (ITU-T X.660) for C99 and C++: dotted-decimal text, arcs, elements of DER, and the contents octets
 * of BER and DER (ITU-T X.690 section 8.19), without tag and length. The source is in Rattle, where each function is
 * proved to return what its comment says, but for what section 14 of the repository's docs/RULES.md lists as only
 * tested. The Rattle toolchain builds it from this source. cargo builds it from Rust that is generated from the source,
 * and from code for pointers that is written by hand. That build is tested, not proved.
 *
 * What the caller must guarantee, for all functions:
 *
 * - Arrays. An input is a pointer and a number of items. An output is a pointer and the number of items that fit there.
 *   Both arrays belong to the caller. A function reads the input and writes within the output. It keeps no pointer,
 *   does not allocate and has no state.
 * - Null. A pointer may be null if its length is 0. So may the octets of an item in a list. `range`, `contents`, a name
 *   and the arguments of const_oid_by_arcs must not be null. To learn how long a result is, pass a null output with
 *   length 0: the code is OUTPUT_TOO_SHORT, and `len` is the length.
 * - Overlap. An output must not overlap an input, whatever the lengths. gcc -Wall (-Wrestrict) warns about some calls
 *   that break this.
 * - Lengths. A length is that of its array, which has at most 2^63 - 1 bytes, or 2^30 - 1 if size_t has 32 bits. Texts
 *   have a length and no zero byte at the end: print one with `%.*s`.
 * - Arcs. C cuts a wider number to the 32 bits of an arc, without an error: 4294967299 is given as 3, and -1 as
 *   4294967295. gcc and clang warn of it by -Wconversion, and not by -Wall -Wextra. So of an unsigned long, as in
 *   net-snmp, test `arc <= UINT32_MAX` first, or give its text to const_oid_from_text.
 * - Threads. Every function is thread-safe. While a call runs, nothing else, such as another thread or process, may
 *   write its inputs or touch its output. If others may write octets between the call that checks them and a later one
 *   that reads them, both must be given a copy of the caller's own.
 * - Machines. The tests run on Linux with glibc on x86-64. The repository's rust/README.md says what passed on other
 *   machines, by qemu and wine, and when. The proofs are for 64 bits. What Rattle builds needs x86-64-v2 (POPCNT,
 *   SSE4.1). The library needs no system: of the C library it calls memory functions, and cargo's build also abort.
 * - Octets. These are contents octets alone. A complete element 06 09 2A 86 .. and the bytes of the text "1.2" are no
 *   errors, but 0.6.9.42... and 1.9.46.50. Give an element to const_oid_from_der, and a text to const_oid_from_text.
 *
 * What a function returns: const_oid_version, const_oid_by_arcs and the inline functions return a number, all others a
 * status, by value. Code 0 is success. With any other code the function wrote nothing, and the output is unchanged, bit
 * for bit. Items of the output after the first `len` are always unchanged.
 *
 * A function that is given invalid octets returns the first of these codes that applies, and of two identifiers the
 * code of the first invalid one:
 *
 * - EMPTY: there is no octet.
 * - The code for the first wrong subidentifier, which ends with its first octet below 0x80: BASE128 if it begins with
 *   0x80; else ARC_TOO_BIG if its number is above 4294967295, or above 4294967375 if it is the first one; else BASE128
 *   if the octets end before it does.
 * - LENGTH, from const_oid_cmp_owned alone: there are more than 255 octets. */
#ifndef CONST_OID_H
#define CONST_OID_H

#include <stddef.h> /* size_t, NULL */
#include <stdint.h> /* uint8_t, uint32_t */

#ifdef __cplusplus
extern "C" {
#endif

/* The version of these declarations. const_oid_version() returns the version of the library. */
#define CONST_OID_VERSION_MAJOR 1
#define CONST_OID_VERSION_MINOR 8
#define CONST_OID_VERSION_PATCH 0
#define CONST_OID_VERSION (65536 * CONST_OID_VERSION_MAJOR + 256 * CONST_OID_VERSION_MINOR + CONST_OID_VERSION_PATCH)

/* No other array overlaps this output. */
#if defined(__GNUC__) || defined(_MSC_VER)
#define CONST_OID_RESTRICT __restrict
#elif defined(__cplusplus)
#define CONST_OID_RESTRICT
#else
#define CONST_OID_RESTRICT restrict
#endif

/* A compiler warns where a result is not used: gcc in C even after a cast to void. */
#if defined(__clang__)
#define CONST_OID_NODISCARD __attribute__((__warn_unused_result__))
#elif (defined(__cplusplus) && __cplusplus >= 201703L) || (defined(_MSVC_LANG) && _MSVC_LANG >= 201703L) \
    || (defined(__STDC_VERSION__) && __STDC_VERSION__ >= 202311L)
#define CONST_OID_NODISCARD [[nodiscard]]
#elif defined(__GNUC__)
#define CONST_OID_NODISCARD __attribute__((__warn_unused_result__))
#else
#define CONST_OID_NODISCARD
#endif

/* A function and an array of the headers. From C++17 on they are inline, so a module can export them, and hidden, since
 * another shared library may have another version. Arrays are constexpr, since g++ 14 exports others as zeros. */
#ifndef __cpp_inline_variables
#define CONST_OID_INLINE static __inline
#define CONST_OID_TABLE static
#else
#if defined(__GNUC__) && !defined(_WIN32) && !defined(__CYGWIN__)
#define CONST_OID_INLINE inline __attribute__((__visibility__("hidden")))
#else
#define CONST_OID_INLINE inline
#endif
#define CONST_OID_TABLE CONST_OID_INLINE constexpr
#endif

/* The arguments, counted from 1, that are an array that the function reads, or writes, and how many items it has. gcc,
 * from 10 on, warns of a number that is greater than the array has, and of a null pointer with a number other than 0.
 * It does not warn of a smaller number. It also warns of two calls that are right: at -O0, of an array on the stack
 * with no items; with -fanalyzer, from 14 on, of an output of length 0 at the end of an array. Give null in both. */
#if defined(__GNUC__) && !defined(__clang__) && __GNUC__ >= 10
#define CONST_OID_READS(items, len) __attribute__((__access__(__read_only__, items, len)))
#define CONST_OID_WRITES(items, len) __attribute__((__access__(__write_only__, items, len)))
#else
#define CONST_OID_READS(items, len)
#define CONST_OID_WRITES(items, len)
#endif

/* An argument that must not be null: compilers warn. */
#if defined(__GNUC__) || defined(__clang__)
#define CONST_OID_NONNULL(argument) __attribute__((__nonnull__(argument)))
#else
#define CONST_OID_NONNULL(argument)
#endif

/* The most octets that const_oid_cmp_owned reads. The other functions read and write octets of any length. */
#define CONST_OID_MAX_OCTETS 255

/* The most bytes of text for CONST_OID_MAX_OCTETS octets. For any number of octets, four bytes for each are enough. */
#define CONST_OID_MAX_TEXT 1020

/* The most arcs that CONST_OID_MAX_OCTETS octets have. */
#define CONST_OID_MAX_ARCS 256

/* The usual capacity in octets, which is the default in the Rust crate const-oid. If an identifier does not fit an
 * output of this length, the code is OUTPUT_TOO_SHORT. */
#define CONST_OID_USUAL_OCTETS 39

/* The length in bytes of the longest error text. */
#define CONST_OID_MAX_ERROR_TEXT 47

/* How a call ended. */
enum const_oid_code {
    CONST_OID_OK = 0,                /* success */
    CONST_OID_ARC_INVALID = 1,       /* the first or second arc is out of range */
    CONST_OID_ARC_TOO_BIG = 2,       /* an arc is above 4294967295 */
    CONST_OID_BASE128 = 3,           /* a subidentifier begins with 0x80 or does not end */
    CONST_OID_DIGIT_EXPECTED = 4,    /* a byte is not a digit */
    CONST_OID_EMPTY = 5,             /* there is nothing, or only one arc */
    CONST_OID_LENGTH = 6,            /* const_oid_cmp_owned: more than 255 octets */
    CONST_OID_OVERFLOW = 7,          /* never returned: no sum overflows */
    CONST_OID_REPEATED_DOT = 8,      /* a dot follows another dot */
    CONST_OID_TRAILING_DOT = 9,      /* the text ends with a dot */
    CONST_OID_OUTPUT_TOO_SHORT = 10, /* the output is too short for the result */
    CONST_OID_NOT_UTF8 = 11,         /* the text is not UTF-8 */
    CONST_OID_NONE = 12,             /* the arc, parent, item or text does not exist */
    CONST_OID_UNSORTED = 13,         /* an item of the list comes before the previous one */
    CONST_OID_NO_ELEMENT = 14        /* the bytes do not begin with an element of DER with tag 6 */
};

/* What a comparison returns in `detail`, which is 0 after an error. */
enum const_oid_order {
    CONST_OID_LESS = 1,   /* the first comes before the second */
    CONST_OID_EQUAL = 2,  /* they are equal */
    CONST_OID_GREATER = 3 /* the first comes after the second */
};

/* How a call ended, and two numbers.
 *
 * - `code` is one of const_oid_code.
 * - `detail` is, on success, the arc from const_oid_arc, 1 for true and 0 for false from const_oid_starts_with and
 *   const_oid_eq, and a const_oid_order from a comparison. With ARC_INVALID it is the arc, with DIGIT_EXPECTED the
 *   byte. Otherwise it is 0.
 * - `len` is, on success, how many items the function wrote, read or counted, or the index that it found. With
 *   OUTPUT_TOO_SHORT it is how many items the result has. If const_oid_check_sorted finds a wrong item, or
 *   const_oid_from_text a wrong component, it is the index of the first one. With any code but OK from a search in a
 *   list, it is how many items the list has, and so the index of none of them. Otherwise it is 0, and no index. */
typedef struct const_oid_status {
    uint32_t code;
    uint32_t detail;
    size_t len;
} const_oid_status;

/* The contents octets of one identifier, in a list or an element. */
typedef struct const_oid_octets {
    const uint8_t *octets; /* the first octet */
    size_t len;            /* how many there are */
} const_oid_octets;

/* Indices in a list or a text, counted from 0: from `start` up to, but not including, `end`. */
typedef struct const_oid_range {
    size_t start;
    size_t end;
} const_oid_range;

/* The library keeps lengths in 64 bits, or in 32. */
typedef char const_oid_size_t_has_64_or_32_bits[sizeof(size_t) == 8 ? 1 : sizeof(size_t) == 4 ? 1 : -1];

/* The version of the library: CONST_OID_VERSION in its header. */
CONST_OID_NODISCARD uint32_t const_oid_version(void);

/* Reads the element of DER that bytes begin with (X.690, 8.1 and 10.1): the tag 6, the length, and contents octets.
 * Stores in `contents` where these are in the input, and returns in `len` how many bytes the element has. Others may
 * follow: there is one whole element, and no more, if `element.code == CONST_OID_OK && element.len == len`. The code is
 * NO_ELEMENT if there are no bytes, the tag is not 6, the length is indefinite or could be in fewer bytes, or not all
 * contents octets are there; or else that of the octets if they are invalid. So a loop over elements runs `while (len >
 * 0)`, and any code but OK is an error: one that runs while the code is OK takes a malformed element for the end. */
CONST_OID_NODISCARD CONST_OID_READS(1, 2) CONST_OID_NONNULL(3) const_oid_status
    const_oid_from_der(const uint8_t *der, size_t len, const_oid_octets *CONST_OID_RESTRICT contents);

/* Writes the element of DER for octets of any length: the tag 6, the length and the octets. An output that is ten
 * bytes longer than the octets is long enough. */
CONST_OID_NODISCARD CONST_OID_READS(1, 2) CONST_OID_WRITES(3, 4) const_oid_status
    const_oid_to_der(const uint8_t *octets, size_t len, uint8_t *CONST_OID_RESTRICT out, size_t out_len);

/* Writes the contents octets of the identifier that dotted text denotes, such as "1.2.840". Arcs may have leading
 * zeros. The text may have any length. If it is invalid, returns NOT_UTF8 if it is not UTF-8, or else the code for the
 * first wrong component, whose index from 0 is in `len`, by the first of these that applies:
 *
 * - ARC_TOO_BIG: its leading digits are a number above 4294967295.
 * - DIGIT_EXPECTED: it has a byte that is not a digit, or it is empty and the first of several.
 * - REPEATED_DOT: it is empty, and not the first one.
 * - TRAILING_DOT: an empty last component follows it, as in "3." and "1.40.".
 * - ARC_INVALID: it is the first one and above 2, or the second one, above 39 and after 0 or 1.
 * - EMPTY: it is the only one.
 *
 * There are no more octets than the text has bytes, so an output of as many is long enough. */
CONST_OID_NODISCARD CONST_OID_READS(1, 2) CONST_OID_WRITES(3, 4) const_oid_status
    const_oid_from_text(const char *text, size_t text_len, uint8_t *CONST_OID_RESTRICT out, size_t out_len);

/* Writes the contents octets for the arcs in octets and then those in a text, each after a dot: for 1.3.6 and ".1.4",
 * those of 1.3.6.1.4. For an empty text they are those that were given. Both may have any length. If the octets are
 * invalid, returns their code. If the text is, returns what const_oid_from_text does for the whole dotted text, but
 * counts components of this text from the one before its first dot, which is empty: it is the last arc of the octets.
 * So of ".3.x" the component 2 is wrong, and of "." it is 0, by TRAILING_DOT. A first byte that is not a dot is wrong
 * at 0, by DIGIT_EXPECTED.
 *
 * There are no more octets than those given and the bytes of the text, so an output of as many is long enough. */
CONST_OID_NODISCARD CONST_OID_READS(1, 2) CONST_OID_READS(3, 4) CONST_OID_WRITES(5, 6) const_oid_status
    const_oid_from_text_below(const uint8_t *octets, size_t len, const char *text, size_t text_len,
        uint8_t *CONST_OID_RESTRICT out, size_t out_len);

/* Writes dotted text for octets of any length: the arcs in decimal, joined by dots. */
CONST_OID_NODISCARD CONST_OID_READS(1, 2) CONST_OID_WRITES(3, 4) const_oid_status
    const_oid_to_text(const uint8_t *octets, size_t len, char *CONST_OID_RESTRICT out, size_t out_len);

/* Writes a dot and the decimal of each arc of an identifier after those of a prefix, such as ".3.0". Both may have any
 * length. The code is NONE if the identifier does not begin with the prefix. */
CONST_OID_NODISCARD CONST_OID_READS(1, 2) CONST_OID_READS(3, 4) CONST_OID_WRITES(5, 6) const_oid_status
    const_oid_to_text_below(const uint8_t *octets, size_t len, const uint8_t *prefix, size_t prefix_len,
        char *CONST_OID_RESTRICT out, size_t out_len);

/* Finds what people type without the ASCII whitespace around it, and then without a prefix: a dot, OID. or urn:oid:, in
 * any case, or a module and ::, which is a letter, and then letters, digits and hyphens. Stores where it is in the
 * text, of any bytes, and returns its length. */
CONST_OID_NODISCARD CONST_OID_READS(1, 2) CONST_OID_NONNULL(3) const_oid_status
    const_oid_bare_text(const char *text, size_t text_len, const_oid_range *CONST_OID_RESTRICT range);

/* Checks octets of any length. The code is 0 exactly if they encode an identifier. */
CONST_OID_NODISCARD CONST_OID_READS(1, 2) const_oid_status const_oid_check(const uint8_t *octets, size_t len);

/* Counts the arcs in octets of any length. */
CONST_OID_NODISCARD CONST_OID_READS(1, 2) const_oid_status const_oid_len(const uint8_t *octets, size_t len);

/* Finds the arc at an index, counted from 0, in octets of any length. The code is NONE if there is no such arc. */
CONST_OID_NODISCARD CONST_OID_READS(1, 2) const_oid_status
    const_oid_arc(const uint8_t *octets, size_t len, size_t index);

/* Writes all arcs in octets of any length, in order. `out_len` counts arcs. */
CONST_OID_NODISCARD CONST_OID_READS(1, 2) CONST_OID_WRITES(3, 4) const_oid_status
    const_oid_arcs(const uint8_t *octets, size_t len, uint32_t *CONST_OID_RESTRICT out, size_t out_len);

/* Writes as many arcs as fit, in order, from the index `first` on. The octets may have any length. `len` is 0 past the
 * last arc; OUTPUT_TOO_SHORT is never the code. A loop over all arcs adds `len` to `first` until `len` is 0. */
CONST_OID_NODISCARD CONST_OID_READS(1, 2) CONST_OID_WRITES(4, 5) const_oid_status const_oid_arcs_from(
    const uint8_t *octets, size_t len, size_t first, uint32_t *CONST_OID_RESTRICT out, size_t out_len);

/* Writes the contents octets for any number of arcs, at most five for each, so an output of as many is long enough. If
 * the arcs are invalid, returns ARC_INVALID with the first wrong one, or else EMPTY if there are fewer than two. */
CONST_OID_NODISCARD CONST_OID_READS(1, 2) CONST_OID_WRITES(3, 4) const_oid_status
    const_oid_from_arcs(const uint32_t *arcs, size_t len, uint8_t *CONST_OID_RESTRICT out, size_t out_len);

/* Writes the contents octets of the parent: all arcs except the last. They are a prefix of the octets, which may have
 * any length. The code is NONE if there are only two arcs. */
CONST_OID_NODISCARD CONST_OID_READS(1, 2) CONST_OID_WRITES(3, 4) const_oid_status
    const_oid_parent(const uint8_t *octets, size_t len, uint8_t *CONST_OID_RESTRICT out, size_t out_len);

/* Writes the contents octets of a child: all arcs, and one more. They are the octets, which may have any length, and
 * then at most five for the arc. */
CONST_OID_NODISCARD CONST_OID_READS(1, 2) CONST_OID_WRITES(4, 5) const_oid_status const_oid_push_arc(
    const uint8_t *octets, size_t len, uint32_t arc, uint8_t *CONST_OID_RESTRICT out, size_t out_len);

/* Whether octets differ, for the inline functions: by the compiler's own memcmp, or a loop. Most differ at the end. */
#if defined(__GNUC__) || defined(__clang__)
#define CONST_OID_DIFFER __builtin_memcmp
#else
CONST_OID_INLINE int CONST_OID_DIFFER(const uint8_t *left, const uint8_t *right, size_t len) {
    while (len > 0 && left[len - 1] == right[len - 1])
        len--;
    return len > 0;
}
#endif

/* Whether an identifier begins with all arcs of a prefix. Both may have any length. Code 0 says only that both are
 * valid: the answer is in `detail`. */
CONST_OID_NODISCARD CONST_OID_READS(1, 2) CONST_OID_READS(3, 4) const_oid_status
    const_oid_starts_with(const uint8_t *octets, size_t len, const uint8_t *prefix, size_t prefix_len);

/* Returns 1 if both are valid and the identifier begins with all arcs of the prefix, which may be all that it has, and
 * otherwise 0, also for invalid octets. It is no code: CONST_OID_OK is 0. */
CONST_OID_NODISCARD CONST_OID_READS(1, 2) CONST_OID_READS(3, 4) CONST_OID_INLINE
    int const_oid_is_under(const uint8_t *octets, size_t len, const uint8_t *prefix, size_t prefix_len) {
    /* The first octets of valid ones are valid if a subidentifier ends there. */
    return len > 0 && prefix_len > 0 && prefix_len <= len && octets[prefix_len - 1] == prefix[prefix_len - 1]
        && prefix[prefix_len - 1] < 0x80 && !CONST_OID_DIFFER(octets, prefix, prefix_len)
        && const_oid_check(octets, len).code == CONST_OID_OK;
}

/* Whether two identifiers of any length are equal. Code 0 says only that both are valid: the answer is in `detail`. */
CONST_OID_NODISCARD CONST_OID_READS(1, 2) CONST_OID_READS(3, 4) const_oid_status
    const_oid_eq(const uint8_t *left, size_t left_len, const uint8_t *right, size_t right_len);

/* Returns 1 if both are valid and equal, and otherwise 0, also for invalid octets. It is no code: CONST_OID_OK is 0. */
CONST_OID_NODISCARD CONST_OID_READS(1, 2) CONST_OID_READS(3, 4) CONST_OID_INLINE
    int const_oid_is_equal(const uint8_t *left, size_t left_len, const uint8_t *right, size_t right_len) {
    return left_len > 0 && left_len == right_len && left[left_len - 1] == right[left_len - 1]
        && !CONST_OID_DIFFER(left, right, left_len) && const_oid_check(left, left_len).code == CONST_OID_OK;
}

/* Compares two identifiers of any length by their octets, as memcmp does. A prefix comes first. An identifier's
 * descendants follow it without a gap. This is not the order in SNMP. */
CONST_OID_NODISCARD CONST_OID_READS(1, 2) CONST_OID_READS(3, 4) const_oid_status
    const_oid_cmp(const uint8_t *left, size_t left_len, const uint8_t *right, size_t right_len);

/* Compares two identifiers of any length by their arcs, in lexicographic order. A prefix comes first. This is the order
 * in SNMP (RFC 3416) and in the sorted lists below. */
CONST_OID_NODISCARD CONST_OID_READS(1, 2) CONST_OID_READS(3, 4) const_oid_status
    const_oid_cmp_arcs(const uint8_t *left, size_t left_len, const uint8_t *right, size_t right_len);

/* Compares two identifiers of at most 255 octets by length, and then by their octets. This is the order in the Rust
 * crate const-oid, and not in SNMP. */
CONST_OID_NODISCARD CONST_OID_READS(1, 2) CONST_OID_READS(3, 4) const_oid_status
    const_oid_cmp_owned(const uint8_t *left, size_t left_len, const uint8_t *right, size_t right_len);

/* Compares two items of a list, for qsort and bsearch. Each pointer is to a const_oid_octets. Returns -1 if the first
 * comes before the second, 0 if they are equal, and 1 if it comes after. For std::sort and std::map, compare by
 * `const_oid_by_arcs(&left, &right) < 0`: by itself, a std::map of octets has the order of const_oid_cmp.
 *
 * The order of valid items is that of const_oid_cmp_arcs. Items are not checked, and the order is total for any items:
 * subidentifiers, each of which ends with its first octet below 0x80, are compared in turn. A longer one is greater,
 * and those of one length are compared by their octets. Only equal octets are equal. After sorting by this order,
 * const_oid_check_sorted accepts the list exactly if all items are valid. */
CONST_OID_NODISCARD CONST_OID_NONNULL(1) CONST_OID_NONNULL(2) int const_oid_by_arcs(const void *one, const void *other);

/* Checks a list, which is an array of identifiers, for the functions below. Each item must be valid, of any length, and
 * none may come before the previous one, in the order of const_oid_cmp_arcs. Items may be repeated. The code is 0
 * exactly if this holds. Otherwise it is that of the first wrong item, or UNSORTED if that comes before the previous
 * one, and `len` is its index: the items before it are such a list. The list is read up to that item. */
CONST_OID_NODISCARD CONST_OID_READS(1, 2) const_oid_status
    const_oid_check_sorted(const const_oid_octets *items, size_t count);

/* The functions below do a binary search in a list that const_oid_check_sorted accepts. They check the identifier,
 * which may have any length, and return its code if it is invalid. They do not check the list. In another list, what
 * they find is unspecified, but it is within the list, and they read nothing else: indices are below `count`, and the
 * ends of a range at most `count`. `len` is the index of the item found, or with any code but OK `count`, which is the
 * index of no item. The code is NONE if there is no such item. */

/* Finds the first item that is equal to an identifier. */
CONST_OID_NODISCARD CONST_OID_READS(1, 2) CONST_OID_READS(3, 4) const_oid_status
    const_oid_find(const uint8_t *octets, size_t len, const const_oid_octets *sorted, size_t count);

/* Finds the first item that comes after an identifier, which need not be an item: what SNMP's GetNext returns. */
CONST_OID_NODISCARD CONST_OID_READS(1, 2) CONST_OID_READS(3, 4) const_oid_status
    const_oid_next(const uint8_t *octets, size_t len, const const_oid_octets *sorted, size_t count);

/* Finds the nearest item to an identifier: the first item that is equal to it, or else to its longest prefix in the
 * list. If the item has `k` arcs, as const_oid_len says, const_oid_arcs_from(octets, len, k, ..) writes the arcs after
 * them. */
CONST_OID_NODISCARD CONST_OID_READS(1, 2) CONST_OID_READS(3, 4) const_oid_status
    const_oid_nearest(const uint8_t *octets, size_t len, const const_oid_octets *sorted, size_t count);

/* Finds the items that begin with all arcs of an identifier, itself included, and stores where they are in `range`.
 * `start` is where it would be inserted, also if there are none: then `end` is the same. With OK, `len` is 0. */
CONST_OID_NODISCARD CONST_OID_READS(1, 2) CONST_OID_READS(3, 4) CONST_OID_NONNULL(5) const_oid_status
    const_oid_subtree_range(const uint8_t *octets, size_t len, const const_oid_octets *sorted, size_t count,
        const_oid_range *CONST_OID_RESTRICT range);

/* Writes the text for a code and its detail, in UTF-8. With DIGIT_EXPECTED, the byte stands in it as the character with
 * that number, even if this is a zero byte, a newline or another control character. All other characters are printable
 * ASCII. The text for EMPTY, "OID value is empty", is also that for one arc alone. The code is NONE if there is no such
 * text: for OK, for an unknown code, and for DIGIT_EXPECTED with a detail above 255. */
CONST_OID_NODISCARD CONST_OID_WRITES(3, 4) const_oid_status
    const_oid_error_text(uint32_t code, uint32_t detail, char *CONST_OID_RESTRICT out, size_t out_len);

#ifdef __cplusplus
}
#endif

#endif
