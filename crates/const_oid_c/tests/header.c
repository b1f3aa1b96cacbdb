/* The header in C and C++: its layouts, its constants, also where the preprocessor reads them, and functions. */
#include "const_oid.h"

#ifdef __cplusplus
#include <type_traits>
#pragma GCC diagnostic ignored "-Wold-style-cast"
#define _Static_assert static_assert
#define _Alignof alignof
#define EXTERN extern "C"
#define IS_OF(expression, type) std::is_same<decltype(expression), type>::value
#else
#define EXTERN extern
#define IS_OF(expression, type) __builtin_types_compatible_p(__typeof__(expression), type)
#endif

#define BYTES sizeof(size_t)
#define HAS_FIELD(type, field, wanted, at) \
    _Static_assert(offsetof(type, field) == at && IS_OF(((type *)0)->field, wanted), #field " in " #type)
HAS_FIELD(const_oid_status, code, uint32_t, 0);
HAS_FIELD(const_oid_status, detail, uint32_t, 4);
HAS_FIELD(const_oid_status, len, size_t, 8);
HAS_FIELD(const_oid_octets, octets, const uint8_t *, 0);
HAS_FIELD(const_oid_octets, len, size_t, BYTES);
HAS_FIELD(const_oid_range, start, size_t, 0);
HAS_FIELD(const_oid_range, end, size_t, BYTES);

#define HAS_SIZE(type, wanted) \
    _Static_assert(sizeof(type) == wanted && _Alignof(type) == _Alignof(size_t), "the size and alignment of " #type)
HAS_SIZE(const_oid_status, 8 + BYTES);
HAS_SIZE(const_oid_octets, 2 * BYTES);
HAS_SIZE(const_oid_range, 2 * BYTES);
extern enum const_oid_code code;
extern enum const_oid_order order;

#if !(CONST_OID_VERSION && CONST_OID_MAX_OCTETS && CONST_OID_MAX_TEXT && CONST_OID_MAX_ARCS && CONST_OID_USUAL_OCTETS \
    && CONST_OID_MAX_ERROR_TEXT)
#error "a constant is no number of the preprocessor"
#endif

#define HAS_VALUE(name, wanted) \
    _Static_assert(CONST_OID_##name == wanted && IS_OF(CONST_OID_##name, int), "the value of " #name)
HAS_VALUE(MAX_OCTETS, 255);
HAS_VALUE(MAX_TEXT, 1020);
HAS_VALUE(MAX_ARCS, 256);
HAS_VALUE(USUAL_OCTETS, 39);
HAS_VALUE(MAX_ERROR_TEXT, 47);

/* The functions again, by the types of the source: a compiler rejects a header that has others. */
#define TYPE_OCTETS uint8_t
#define TYPE_DER uint8_t
#define TYPE_TEXT char
#define TYPE_BELOW char
#define TYPE_ARCS uint32_t
#define TYPE_LIST const_oid_octets
#define TYPE_ITEM const void *
#define TYPE_INDEX size_t
#define TYPE_NUMBER uint32_t
#define TYPE_RANGE_OUT const_oid_range *
#define TYPE_ITEM_OUT const_oid_octets *
#define NOTHING void
#define IN(kind, i) const TYPE_##kind *, size_t
#define OUT(kind, i) TYPE_##kind *, size_t
#define VALUE(kind, i) TYPE_##kind
#define CALL(result, name, ...) EXTERN result name(__VA_ARGS__);
#include "calls.h"

/* The version of each triple, also within an expression. */
#undef CONST_OID_VERSION_MAJOR
#undef CONST_OID_VERSION_MINOR
#undef CONST_OID_VERSION_PATCH
#define CONST_OID_VERSION_MAJOR 2
#define CONST_OID_VERSION_MINOR 3
#define CONST_OID_VERSION_PATCH 4
HAS_VALUE(VERSION, 0x020304);
_Static_assert(3 * CONST_OID_VERSION == 3 * 0x020304, "the version in a product");
