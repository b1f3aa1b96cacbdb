#include <mbedtls/oid.h> /* mbedtls_oid_get_numeric_string. Version 2 reads no text */

int text_to_octets(const char *text, size_t len, uint8_t *out) {
    return NO_CALL;
}

int octets_to_text(const uint8_t *der, size_t len, char *out) {
    mbedtls_asn1_buf octets = {MBEDTLS_ASN1_OID, len - 2, (unsigned char *)der + 2};
    return mbedtls_oid_get_numeric_string(out, ROOM - 2, &octets);
}
