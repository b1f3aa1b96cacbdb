/* Calls of this library, OpenSSL, net-snmp and C by hand, each in a function call_NAME, whose instructions are counted.
 * They take an element, its octets, which CONSTANT has, too, a sibling's, and the arcs and objects of both. */
#include <const_oid_names.h>
#include <net-snmp/net-snmp-config.h>
#include <net-snmp/net-snmp-includes.h>
#include <openssl/objects.h>
#define octets_to_text print_by_hand
#include "limit.c"
#undef octets_to_text

static inline void *put_number(void *to, uint64_t number) {
    *(uint32_t *)to = (uint32_t)number;
    return to + 4;
}

static inline void *put_nothing(void *to, uint64_t number) {
    return to;
}

static inline int read_element(const uint8_t *der, size_t len) {
    size_t head = len < 3 || der[0] != 6 ? 0 : der[1] < 0x80 ? 2 : der[1] == 0x81 ? 3 : der[1] == 0x82 ? 4 : 0;
    size_t size = head == 2 ? der[1] : head == 3 ? der[2] : head == 4 ? (size_t)(der[2] << 8 | der[3]) : 0;
    if (head == 0 || len < head + size || (head == 3 && size < 0x80) || (head == 4 && size < 0x100))
        return 0;
    return put_arcs((void *)der, der + head, size, put_nothing) != NULL;
}

static inline size_t write_element(const uint8_t *octets, size_t len, uint8_t *out) {
    size_t head = len < 0x80 ? 2 : len < 0x100 ? 3 : 4;
    out[0] = 6;
    out[1] = (uint8_t)(head == 2 ? len : 0x7E + head);
    if (head > 3)
        out[2] = (uint8_t)(len >> 8);
    if (head > 2)
        out[head - 1] = (uint8_t)len;
    memcpy(out + head, octets, len);
    return head + len;
}

/* The order of arcs: where octets differ, the longer subidentifier is greater. */
static inline int by_arcs(const uint8_t *a, size_t a_len, const uint8_t *b, size_t b_len) {
    size_t i = 0, j;
    while (i < a_len && i < b_len && a[i] == b[i])
        i++;
    if (i == a_len || i == b_len)
        return i < a_len ? 1 : i < b_len ? -1 : 0;
    j = i;
    while (a[j] >= 0x80 && b[j] >= 0x80)
        j++;
    return (a[j] ^ b[j]) >= 0x80 ? (a[j] >= 0x80 ? 1 : -1) : a[i] < b[i] ? -1 : 1;
}

static inline int by_octets(const uint8_t *a, size_t a_len, const uint8_t *b, size_t b_len) {
    int order = memcmp(a, b, a_len < b_len ? a_len : b_len);
    return order ? order : a_len < b_len ? -1 : a_len > b_len;
}

/* Identifiers as their octets, arcs and objects. */
static struct known {
    uint8_t der[ROOM];
    const_oid_octets octets;
    oid arcs[MAX_OID_LEN];
    size_t count;
    ASN1_OBJECT *object;
} one, same, other, freed;
static const uint8_t *der, *at;
static uint8_t out[ROOM];
static size_t der_len;
static uint32_t arcs[ROOM];

static inline int read_object(struct known *known) {
    at = der;
    known->object = d2i_ASN1_OBJECT(NULL, &at, (long)der_len);
    return known->object != NULL;
}

static inline int read_and_free_object(void) {
    if (!read_object(&freed))
        return 0;
    ASN1_OBJECT_free(freed.object);
    return 1;
}

static inline int write_object(void) {
    uint8_t *to = out;
    return i2d_ASN1_OBJECT(one.object, &to) > 0;
}

static inline int parse_arcs(struct known *known) {
    size_t left = der_len;
    known->count = MAX_OID_LEN;
    return asn_parse_objid((void *)der, &left, out, known->arcs, &known->count) != NULL;
}

#define O(known) known.octets.octets, known.octets.len
#define KNOWN CONST_OID_OCTETS(CONSTANT)
#define IS(known) CONST_OID_IS(known.octets.octets, known.octets.len, CONSTANT)
#define IS_KNOWN(known) (known.octets.len == sizeof CONSTANT - 1 && !memcmp(CONSTANT, O(known)))
#define IS_SAME(known) (one.octets.len == known.octets.len && !memcmp(one.octets.octets, O(known)))
#define A(known) known.arcs, known.count
/* clang-format off */
/* A name, a call that is true, and then what it does, by whom, and what it checks. */
#define CALLS(CALL) \
    CALL(from_der, !const_oid_from_der(der, der_len, &freed.octets).code) /* read DER, `const_oid_from_der`: element */ \
    CALL(d2i, read_and_free_object()) /* read DER, OpenSSL: form */ \
    CALL(read, read_element(der, der_len)) /* read DER, by hand: element */ \
    CALL(to_der, !const_oid_to_der(O(one), out, ROOM).code) /* write DER, `const_oid_to_der`: octets */ \
    CALL(i2d, write_object()) /* write DER, OpenSSL: – */ \
    CALL(write, write_element(O(one), out)) /* write DER, by hand: – */ \
    CALL(equal, const_oid_is_equal(O(one), O(same))) /* equal, `const_oid_is_equal`: octets */ \
    CALL(objects, !OBJ_cmp(one.object, same.object)) /* equal, OpenSSL: – */ \
    CALL(oids, !netsnmp_oid_equals(A(one), A(same))) /* equal, net-snmp: – */ \
    CALL(same, IS_SAME(same)) /* equal, by hand: – */ \
    CALL(known, const_oid_is_equal(O(one), KNOWN)) /* a constant, `const_oid_is_equal`: octets */ \
    CALL(is, IS(one)) /* a constant, `CONST_OID_IS`: – */ \
    CALL(same_known, IS_KNOWN(one)) /* a constant, by hand: – */ \
    CALL(unequal, !const_oid_is_equal(O(one), O(other))) /* a sibling, `const_oid_is_equal`: – */ \
    CALL(other_objects, OBJ_cmp(one.object, other.object)) /* a sibling, OpenSSL: – */ \
    CALL(other_oids, netsnmp_oid_equals(A(one), A(other))) /* a sibling, net-snmp: – */ \
    CALL(other, !IS_SAME(other)) /* a sibling, by hand: – */ \
    CALL(unknown, !const_oid_is_equal(O(other), KNOWN)) /* a constant's sibling, `const_oid_is_equal`: – */ \
    CALL(is_not, !IS(other)) /* a constant's sibling, `CONST_OID_IS`: – */ \
    CALL(not_known, !IS_KNOWN(other)) /* a constant's sibling, by hand: – */ \
    CALL(arcs, !const_oid_arcs(O(one), arcs, ROOM).code) /* arcs, `const_oid_arcs`: octets */ \
    CALL(objid, parse_arcs(&one)) /* arcs, net-snmp, of DER: end */ \
    CALL(read_arcs, put_arcs(arcs, O(one), put_number)) /* arcs, by hand: octets */ \
    CALL(cmp, const_oid_cmp(O(one), O(other)).detail) /* order of octets, `const_oid_cmp`: octets */ \
    CALL(by_octets, by_octets(O(one), O(other))) /* order of octets, by hand: – */ \
    CALL(cmp_arcs, const_oid_cmp_arcs(O(one), O(other)).detail) /* order of arcs, `const_oid_cmp_arcs`: octets */ \
    CALL(items, const_oid_by_arcs(&one.octets, &other.octets)) /* order of arcs, `const_oid_by_arcs`: – */ \
    CALL(compare, snmp_oid_compare(A(one), A(other))) /* order of arcs, net-snmp: – */ \
    CALL(by_arcs, by_arcs(O(one), O(other))) /* order of arcs, by hand: – */
/* clang-format on */

#define DEFINE(name, call) \
    __attribute__((noinline)) static int call_##name(void) { \
        return (call) != 0; \
    }
CALLS(DEFINE)

/* Whether all calls are true. The sibling differs in its last octet. */
int octets_to_text(const uint8_t *element, size_t len, char *text) {
    struct known *all[] = {&other, &same, &one};
    for (int i = 0; i < 3; i++) {
        der = memcpy(all[i]->der, element, len);
        der_len = len;
        all[i]->der[len - 1] ^= i == 0;
        if (const_oid_from_der(der, len, &all[i]->octets).code)
            return REJECTED;
        if (!read_object(all[i]) || !parse_arcs(all[i]))
            return REJECTED;
    }
#define AND(name, call) &&call_##name()
    return 1 CALLS(AND) ? 1 : REJECTED;
}
