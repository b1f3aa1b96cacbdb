/* snmp_parse_oid and asn_build_objid; asn_parse_objid and snprint_objid. No MIB is loaded, and numbers are printed. */
#include <net-snmp/net-snmp-config.h>
#include <net-snmp/net-snmp-includes.h>

__attribute__((constructor)) static void start(void) {
    setenv("MIBS", "", 1);
    netsnmp_ds_set_int(NETSNMP_DS_LIBRARY_ID, NETSNMP_DS_LIB_OID_OUTPUT_FORMAT, NETSNMP_OID_OUTPUT_NUMERIC);
    netsnmp_init_mib();
}

int text_to_octets(const char *text, size_t len, uint8_t *out) {
    oid arcs[MAX_OID_LEN];
    size_t count = MAX_OID_LEN, room = ROOM;
    if (!snmp_parse_oid(text, arcs, &count))
        return REJECTED;
    u_char *end = asn_build_objid(out - 2, &room, ASN_OBJECT_ID, arcs, count);
    return end ? (int)(end - out) : REJECTED;
}

int octets_to_text(const uint8_t *der, size_t len, char *out) { /* The text has a dot before the first arc. */
    oid arcs[MAX_OID_LEN];
    size_t count = MAX_OID_LEN;
    u_char tag;
    if (!asn_parse_objid((u_char *)der, &len, &tag, arcs, &count) || len > 0)
        return REJECTED;
    return snprint_objid(out - 1, ROOM - 2, arcs, count) - 1;
}
