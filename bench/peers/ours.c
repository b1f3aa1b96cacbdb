#include <const_oid.h> /* const_oid_from_text; const_oid_to_text, after const_oid_from_der if built for elements */

int text_to_octets(const char *text, size_t len, uint8_t *out) {
    const_oid_status status = const_oid_from_text(text, len, out, CONST_OID_MAX_OCTETS);
    return status.code ? REJECTED : (int)status.len;
}

int octets_to_text(const uint8_t *der, size_t len, char *out) {
    const_oid_octets contents = {der + 2, len - 2};
#ifdef ELEMENTS
    const_oid_status read = const_oid_from_der(der, len, &contents);
    if (read.code || read.len < len)
        return REJECTED;
#endif
    const_oid_status status = const_oid_to_text(contents.octets, contents.len, out, CONST_OID_MAX_TEXT);
    return status.code ? REJECTED : (int)status.len;
}
