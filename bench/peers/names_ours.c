#include <const_oid_common_names.h>

#ifdef BOTH
#define BY_NAME(name) (const_oid_from_name(name).len > 0)
#define BY_OCTETS(octets, len) (const_oid_to_name(octets, len) != NULL)
#else
#define BY_NAME(name) (const_oid_by_name(name) < CONST_OID_NAMES_COUNT)
#define BY_OCTETS(octets, len) (const_oid_name_of(octets, len) < CONST_OID_NAMES_COUNT)
#endif

__attribute__((noinline)) int lookup_name(const char *name) {
    return BY_NAME(name);
}

__attribute__((noinline)) int lookup_octets(const uint8_t *octets, size_t len) {
    return BY_OCTETS(octets, len);
}

int text_to_octets(const char *text, size_t len, uint8_t *out) {
    return lookup_name(text) ? 0 : REJECTED;
}

int octets_to_text(const uint8_t *der, size_t len, char *out) {
    return lookup_octets(der + 2, len - 2) ? 0 : REJECTED;
}
