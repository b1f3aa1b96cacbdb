#include <libtasn1.h> /* asn1_object_id_der; asn1_get_object_id_der, which takes no tag */

int text_to_octets(const char *text, size_t len, uint8_t *out) {
    int size = ROOM;
    return asn1_object_id_der(text, out - 2, &size, 0) == ASN1_SUCCESS ? size - 2 : REJECTED;
}

int octets_to_text(const uint8_t *der, size_t len, char *out) {
    int read, fault = asn1_get_object_id_der(der + 1, (int)len - 1, &read, out, ROOM - 2);
    return fault == ASN1_SUCCESS && read == (int)len - 1 ? (int)strlen(out) : REJECTED;
}
