/* The indexes of the entries by a hash of their names, each in the first slot that is free from its own on. Those with
 * one name are in the order of the table. In the slots that are free is @ALL@, as in the last. */
CONST_OID_TABLE const uint16_t const_oid_@OF@names_by_hash[] = {@BY_NAME@};

/* The same by a hash of their octets. */
CONST_OID_TABLE const uint16_t const_oid_@OF@octets_by_hash[] = {@BY_OCTETS@};

/* The index of the first entry with a name or with octets, of this hash. */
CONST_OID_INLINE size_t const_oid_internal_@OF@find_name(const char *name, size_t len, uint32_t hash) {
    size_t slot = const_oid_internal_slot(hash, @SLOTS@), index;
    do {
        index = const_oid_@OF@names_by_hash[slot++];
    } while (index < @ALL@
        && (@NAME_LEN_AT@ != len
            || !const_oid_internal_is_same_name(@NAME_AT@, name, len)));
    return index;
}

CONST_OID_INLINE size_t const_oid_internal_@OF@find_octets(const uint8_t *octets, size_t len, uint32_t hash) {
    size_t slot = const_oid_internal_slot(hash, @SLOTS@), index;
    do {
        index = const_oid_@OF@octets_by_hash[slot++];
    } while (index < @ALL@
        && (@LEN_AT@ != len || len == 0
            || CONST_OID_DIFFER(@OCTETS_AT@.octets, octets, len)));
    return index;
}

/* The index of the first entry of the table that has a name, which is null-terminated, whatever the case of its
 * ASCII letters. @ALL@ if there is none. */
CONST_OID_NODISCARD CONST_OID_NONNULL(1) CONST_OID_INLINE size_t const_oid_@OF@by_name(const char *name) {
    const size_t len = const_oid_internal_name_len(name);
    return const_oid_internal_@OF@find_name(name, len, const_oid_internal_name_hash(name, len));
}

/* The index of the first entry of an identifier, of its contents octets.
 * @ALL@ if there is none, as for invalid octets. */
CONST_OID_NODISCARD CONST_OID_READS(1, 2) CONST_OID_INLINE size_t const_oid_@OF@name_of(
    const uint8_t *octets, size_t len) {
    return const_oid_internal_@OF@find_octets(octets, len, const_oid_internal_hash(octets, len, 0));
}
