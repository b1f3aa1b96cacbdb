#include <openssl/objects.h> /* OBJ_txt2obj, OBJ_obj2txt: numbers only; OBJ_get0_data, OBJ_length; d2i_ASN1_OBJECT */

#ifdef NAMES
__attribute__((noinline)) int lookup_name(const char *name) {
    return OBJ_sn2nid(name);
}
__attribute__((noinline)) int lookup_octets(const ASN1_OBJECT *object) {
    return OBJ_obj2nid(object);
}
#define PRINT(object, out) (lookup_octets(object) > 0)
int text_to_octets(const char *text, size_t len, uint8_t *out) {
    return lookup_name(text) > 0 ? 0 : REJECTED;
}
#else
#define PRINT(object, out) OBJ_obj2txt(out, ROOM - 2, object, 1)
int text_to_octets(const char *text, size_t len, uint8_t *out) {
    ASN1_OBJECT *object = OBJ_txt2obj(text, 1);
    int size = object ? (int)OBJ_length(object) : REJECTED;
    if (size > 0)
        memcpy(out, OBJ_get0_data(object), (size_t)size);
    ASN1_OBJECT_free(object);
    return size;
}
#endif

int octets_to_text(const uint8_t *der, size_t len, char *out) {
    const uint8_t *end = der;
    ASN1_OBJECT *object = d2i_ASN1_OBJECT(NULL, &end, (long)len);
    int size = object && end == der + len ? PRINT(object, out) : 0;
    ASN1_OBJECT_free(object);
    return size > 0 ? size : REJECTED;
}
