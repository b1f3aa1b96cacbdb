/* const_oid_parse and const_oid_display: rows of what people type, in room that is enough or short, and names. */
#include "rooms.h"

#include "const_oid_common_names.h"

enum { ROOM = 4096 };

/* A text that is parsed, octets that are displayed, and how many of each. */
static const char *text;
static uint8_t octets[ROOM];
static size_t text_len, len;

static const_oid_status parse(void *to, size_t room) {
    return const_oid_parse(text, text_len, to, room);
}

/* Displays octets, and counts the zero after the text. */
static const_oid_status display(void *to, size_t room) {
    const_oid_status status = const_oid_display(at_end(LEFT, octets, len), len, to, room);
    if (status.code == CONST_OID_OK || status.code == CONST_OID_OUTPUT_TOO_SHORT)
        status.len++;
    return status;
}

static void see_displayed(const char *shown) {
    const const_oid_status displayed = in_rooms(display, 1);
    SEE(displayed.code == CONST_OID_OK && displayed.len == strlen(shown) + 1 && strcmp((char *)out, shown) == 0, line);
}

static const_oid_status parsed(const char *typed, size_t typed_len) {
    text = at_end(TEXT, typed, typed_len);
    text_len = typed_len;
    return in_rooms(parse, 1);
}

/* A text is parsed as the octets. */
static void see_parsed(const char *typed, size_t typed_len) {
    const const_oid_status status = parsed(typed, typed_len);
    SEE(status.code == CONST_OID_OK && status.len == len && memcmp(out, octets, len) == 0, line);
}

/* A text has this error at a component. */
static void see_wrong(const char *typed, size_t typed_len, const char *error, size_t component) {
    char made[CONST_OID_MAX_ERROR_TEXT];
    const const_oid_status status = parsed(typed, typed_len);
    const const_oid_status told = const_oid_error_text(status.code, status.detail, made, sizeof made);
    SEE(told.code == CONST_OID_OK && told.len == strlen(error) && memcmp(made, error, told.len) == 0, line);
    SEE(status.len == component, line);
}

static void see_row(const char *typed, const char *second, const char *third) {
    static char blanks[ROOM + 8];
    const const_oid_status read = const_oid_from_text(second, strlen(second), octets, ROOM);
    const char *const given[] = {typed, blanks};
    len = read.len;
    snprintf(blanks, sizeof blanks, "\t\n\f\r %s \r", typed);
    for (int i = 0; i < 2; i++) {
        if (read.code == CONST_OID_OK)
            see_parsed(given[i], strlen(given[i]));
        else
            see_wrong(given[i], strlen(given[i]), second, strtoul(third, NULL, 10));
    }
    if (read.code == CONST_OID_OK)
        see_displayed(third);
}

static void set_octets(const_oid_octets of) {
    if (of.len > 0)
        memcpy(octets, of.octets, of.len);
    len = of.len;
}

/* Arcs below octets are displayed, and parsed again. */
static void see_below(size_t row) {
    const size_t short_end = len + 3;
    for (; len < 60; len++) {
        octets[len] = (uint8_t)(len % 7 < 4 && len != short_end ? 0x81 + row % 13 : row % 128);
        if (octets[len - 1] >= 0x80)
            continue;
        const const_oid_status displayed = in_room(display, ROOM / 4, 1);
        SEE(displayed.code == CONST_OID_OK && displayed.len == strlen((const char *)out) + 1, row);
        see_parsed((const char *)out, displayed.len - 1);
    }
}

/* A name is parsed as const_oid_from_name finds it, and what is displayed of its octets, and below, as the same. The
 * first name of three arcs or more is displayed if it leads back. */
static void see_name(const char *name, const_oid_octets of, size_t row) {
    const const_oid_octets found = const_oid_from_name(name);
    line = row;
    set_octets(found);
    see_parsed(name, strlen(name));
    set_octets(of);
    const int leads_back = found.octets == of.octets && const_oid_to_name(of.octets, of.len) == name;
    if (leads_back && const_oid_len(of.octets, of.len).len > 2)
        see_displayed(name);
    see_below(row);
}

static void see_rows(void) {
    static char read[ROOM];
    FILE *rows = fopen("../oid_rows/typed_names.tsv", "r");
    SEE(rows != NULL, 0);
    for (line = 1; fgets(read, ROOM, rows); line++) {
        char *second = strchr(read, '\t'), *third = strchr(second + 1, '\t');
        *second = *third = third[strcspn(third, "\n")] = 0;
        see_row(read, second + 1, third + 1);
    }
    SEE(fclose(rows) == 0, line);
}

static void see_not_utf8(void) {
    static const char *const texts[] = {
        "\xFF", "cn\xFF", "cn.\xFF", "OID.\xC3", "1.2.\xFF", "sysUpTime.0.\xED\xA0\x80"};
    for (line = 0; line < sizeof texts / sizeof *texts; line++) {
        const const_oid_status status = parsed(texts[line], strlen(texts[line]));
        SEE(status.code == CONST_OID_NOT_UTF8 && status.detail == 0 && status.len == 0, line);
    }
}

/* Text below an identifier begins with a dot. */
static void see_no_dot(void) {
    for (uint32_t byte = 0; byte < 256; byte++) {
        const char below[] = {(char)byte, '1'};
        const const_oid_status status = const_oid_from_text_below((const uint8_t *)"*", 1, below, 2, octets, ROOM);
        if (byte == '.')
            continue;
        SEE(status.code == (byte < 0x80 ? (uint32_t)CONST_OID_DIGIT_EXPECTED : CONST_OID_NOT_UTF8), byte);
        SEE(status.detail == (byte < 0x80 ? byte : 0) && status.len == 0, byte);
    }
}

static void see_wrong_octets(const_oid_octets of, uint32_t code) {
    set_octets(of);
    SEE(in_rooms(display, 1).code == code, code);
}

/* Octets that are longer than a name's by far. */
static void see_long(void) {
    memset(octets, 1, ROOM);
    memcpy(octets, "\x2B\6\1\4", 4);
    len = 1500;
    SEE(in_rooms(display, 1).len == 3002 && strncmp((const char *)out, "enterprises.1.1.", 16) == 0, len);
    see_parsed((const char *)out, 3001);
}

int main(void) {
    see_rows();
    for (size_t i = 0; i < CONST_OID_NAMES_COUNT; i++)
        see_name(const_oid_names[i], const_oid_name_octets[i], i);
    for (size_t i = 0; i < CONST_OID_COMMON_NAMES_COUNT; i++)
        see_name(const_oid_common_name(i), const_oid_common_octets(i), i);
    see_wrong(NULL, 0, "OID value is empty", 0);
    see_wrong("cn\0", 3, "expected digit, got 'c'", 0);
    see_not_utf8();
    see_no_dot();
    see_wrong_octets((const_oid_octets){NULL, 0}, CONST_OID_EMPTY);
    see_wrong_octets((const_oid_octets){(const uint8_t *)"\x55\4\x80", 3}, CONST_OID_BASE128);
    see_long();
    return 0;
}
