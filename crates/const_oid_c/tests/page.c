/* The programs of the page, ../README.md, whose blocks of C are page.c.inc: an SNMP agent, rules, and names. */
#include "page.c.inc"

#include <limits.h>

static void get(const uint8_t *octets, size_t len) {
    const_oid_status found = const_oid_find(octets, len, names, count);
    if (found.code == CONST_OID_OK) {
        print_object(found.len);
    } else {
        print_error(found);
    }
}

/* Whether purposes are read, but not if one is cut, is none, or has its length in a longer form (X.690, 8.1.3.5). They
 * are in an extension of a certificate: SEQUENCE, 2.5.29.37, OCTET STRING, SEQUENCE of them (RFC 5280, 4.2.1.12). */
static int reads_purposes(void) {
    static const uint8_t der[] = {0x30, 29, 6, 3, 0x55, 29, 37, 4, 22, 0x30, 20, 6, 8, 0x2B, 6, 1, 5, 5, 7, 3, 2, 6, 8,
        0x2B, 6, 1, 5, 5, 7, 3, 1};
    static const uint8_t ber[] = {0x30, 30, 6, 3, 0x55, 29, 37, 4, 23, 0x30, 21, 6, 8, 0x2B, 6, 1, 5, 5, 7, 3, 2, 6,
        0x81, 8, 0x2B, 6, 1, 5, 5, 7, 3, 1};
    return are_key_purposes(der + 11, der[10]) && are_key_purposes(NULL, 0) && !are_key_purposes(der + 11, 19)
        && !are_key_purposes(der + 2, 5) && !are_key_purposes(ber + 11, ber[10]);
}

/* Whether rules for more arcs decide first, and nothing else is allowed. */
static int decides(void) {
    static const uint8_t server[] = {0x2B, 6, 1, 5, 5, 7, 3, 1}, client[] = {0x2B, 6, 1, 5, 5, 7, 3, 2, 5};
    return sort_rules() && is_allowed(server, 8) && is_allowed(server, 7) && !is_allowed(server, 6)
        && !is_allowed(client, 8) && !is_allowed(client, 9) && !is_allowed(NULL, 0);
}

/* Whether an arc of 32 bits is appended, and a larger one is not, which C would cut to 3. */
static int pushes(void) {
    uint8_t out[7];
    const uint32_t wanted = ULONG_MAX > UINT32_MAX ? CONST_OID_ARC_TOO_BIG : CONST_OID_OK;
    return push_long((const uint8_t *)"*", 1, ULONG_MAX - 4, out, 7).code == wanted
        && push_long((const uint8_t *)"*", 1, 3, out, 7).len == 2 && out[1] == 3;
}

int main(void) {
    static const uint8_t sys_name[] = {0x2B, 6, 1, 2, 1, 1, 5, 0}, up_time[] = {0x2B, 6, 1, 2, 1, 1, 3, 0};
    static const uint8_t invalid[] = {0x2B, 0x80, 1}, system_oid[] = {0x2B, 6, 1, 2, 1, 1},
                         long_name[MAX_NAME + 1] = {0};
    append(sys_name, sizeof sys_name, "router");
    append(invalid, sizeof invalid, "nothing");
    append(up_time, sizeof up_time, "4711");
    append(long_name, sizeof long_name, "nothing");
    sort_names();
    /* OID contains arc with invalid base 128 encoding */
    get(up_time, sizeof up_time);
    /* 1.3.6.1.2.1.1.3.0 = 4711 */
    get(system_oid, sizeof system_oid);
    /* there is no such arc, parent, item or text */
    get_bulk(long_name, 1, 1);
    /* 1.3.6.1.2.1.1.3.0 = 4711 */
    insert("1.3.6.1.2.1.1.1.0", "a router");
    insert("1.3.6.1.2.1.1.\x1B", "nothing");
    /* expected digit, got '?' */
    get_bulk(system_oid, sizeof system_oid, 1);
    /* 1.3.6.1.2.1.1.1.0 = a router */
    get_bulk(system_oid, sizeof system_oid, 2);
    /* 1.3.6.1.2.1.1.1.0 = a router */
    /* 1.3.6.1.2.1.1.3.0 = 4711 */
    get_bulk(sys_name, sizeof sys_name, 10);
    /* there is no such arc, parent, item or text */
    print_error(print_typed(" SNMPv2-MIB::sysName.0"));
    /* sysName.0 */
    print_error(print_typed("sysUpTime.x"));
    /* expected digit, got 'x' */
    const_oid_octets rsa = const_oid_from_name("RSAEncryption");
    print_name(rsa.octets, rsa.len);
    /* rsaEncryption */
    const int has_none = const_oid_from_name("no name").len == 0;
    return has_none && is_rsa(rsa.octets, rsa.len) && decides() && reads_purposes() && pushes() ? 0 : 1;
}
