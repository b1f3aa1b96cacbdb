/* Reads rows `call input = result` from standard input. Prints each one that has another result by the library, with
 * its line, and then how many rows there are. The status is 0 if all have their results. With COMMON, rows of names are
 * asked, too: those of const_oid_common_names.h. */
#include "rooms.h"

#include <inttypes.h>
#include <stdarg.h>
#ifdef COMMON
#include "const_oid_common_names.h"
#endif

enum { LINE = 1 << 19, MOST = 1 << 17 };

/* A row, and then its result. */
static size_t said_len;
static char said[LINE];

static void say(const char *format, ...) {
    va_list args;
    va_start(args, format);
    int len = vsnprintf(said + said_len, sizeof said - said_len, format, args);
    va_end(args);
    SEE(len >= 0 && (size_t)len < sizeof said - said_len, line);
    said_len += (size_t)len;
}

/* Says a row with COUNT units for each {UNIT*COUNT}. */
static void expand(const char *row) {
    for (;;) {
        size_t len = strcspn(row, "{");
        say("%.*s", (int)len, row);
        if (row[len] == 0)
            return;
        const char *unit = row + len + 1;
        char *end = NULL;
        len = strcspn(unit, "*");
        for (size_t count = strtoul(unit + len + 1, &end, 10); count > 0; count--)
            say("%.*s", (int)len, unit);
        SEE(*end == '}', line);
        row = end + 1;
    }
}

/* The words after the call of a row: each as a number, and as the octets that hexadecimal digits denote. */
static uint32_t numbers[MOST];
static const_oid_octets items[MOST];
static size_t count;

#define OCTETS(i) items[i].octets, items[i].len

static void read_words(const char *rest) {
    static uint8_t octets[LINE];
    uint8_t *to = octets;
    items[0] = items[1] = (const_oid_octets){octets, 0};
    for (count = 0; *rest != 0; count++) {
        size_t len = strcspn(rest, " ");
        SEE(count < MOST, line);
        numbers[count] = (uint32_t)strtoul(rest, NULL, 10);
        items[count] = (const_oid_octets){to, len / 2};
        for (size_t i = 0; i + 1 < len; i += 2)
            *to++ = (uint8_t)strtoul((const char[]){rest[i], rest[i + 1], 0}, NULL, 16);
        rest += rest[len] == ' ' ? len + 1 : len;
    }
    items[0].octets = at_end(LEFT, items[0].octets, items[0].len);
    items[1].octets = at_end(RIGHT, items[1].octets, items[1].len);
}

/* A text and arcs that are read. */
static const char *text;
static const uint32_t *arcs;
static size_t text_len, arc_count;

static void set_text(const void *bytes, size_t len) {
    text = at_end(TEXT, bytes, len);
    text_len = len;
}

static void set_arcs(const void *numbers, size_t len) {
    arcs = at_end(ARCS, numbers, len * sizeof *arcs);
    arc_count = len;
}

/* The calls that write. */
static const_oid_status from_text(void *to, size_t room) {
    return const_oid_from_text(text, text_len, to, room);
}
static const_oid_status from_text_below(void *to, size_t room) {
    return const_oid_from_text_below(OCTETS(1), text, text_len, to, room);
}
static const_oid_status from_arcs(void *to, size_t room) {
    return const_oid_from_arcs(arcs, arc_count, to, room);
}
static const_oid_status from_later_arcs(void *to, size_t room) {
    return const_oid_from_arcs(arcs + 1, arc_count - 1, to, room);
}
static const_oid_status to_text(void *to, size_t room) {
    return const_oid_to_text(OCTETS(0), to, room);
}
static const_oid_status to_text_below(void *to, size_t room) {
    return const_oid_to_text_below(OCTETS(0), OCTETS(1), to, room);
}
static const_oid_status to_arcs(void *to, size_t room) {
    return const_oid_arcs(OCTETS(0), to, room);
}
static const_oid_status to_arcs_from(void *to, size_t room) {
    return const_oid_arcs_from(OCTETS(0), numbers[1], to, room);
}
static const_oid_status to_element(void *to, size_t room) {
    return const_oid_to_der(OCTETS(1), to, room);
}
static const_oid_status to_parent(void *to, size_t room) {
    return const_oid_parent(OCTETS(0), to, room);
}
static const_oid_status to_child(void *to, size_t room) {
    return const_oid_push_arc(OCTETS(0), numbers[1], to, room);
}
static const_oid_status to_error(void *to, size_t room) {
    return const_oid_error_text(numbers[0], numbers[1], to, room);
}

/* Whether there is a result. If not, says why. */
static int is_ok(const_oid_status status) {
    static const char *const others[] = {[CONST_OID_NOT_UTF8] = "no text",
        [CONST_OID_NONE] = "none",
        [CONST_OID_UNSORTED] = "unsorted",
        [CONST_OID_NO_ELEMENT] = "no element"};
    if (status.code == CONST_OID_OK)
        return 1;
    /* The crate has one error for an output that is too short and for too many octets. */
    if (status.code == CONST_OID_OUTPUT_TOO_SHORT)
        status.code = CONST_OID_LENGTH;
    char error[CONST_OID_MAX_ERROR_TEXT];
    const_oid_status made = const_oid_error_text(status.code, status.detail, error, sizeof error);
    SEE(made.code == CONST_OID_OK, line);
    if (status.code >= CONST_OID_NOT_UTF8)
        say("%s", others[status.code]);
    else
        say("error: %.*s", (int)made.len, error);
    return 0;
}

static void say_hex(const_oid_octets of) {
    for (size_t i = 0; i < of.len; i++)
        say("%02X", of.octets[i]);
}

static void say_octets(const_oid_status status) {
    if (is_ok(status))
        say_hex((const_oid_octets){out, status.len});
}

static void say_text(const_oid_status status) {
    if (is_ok(status))
        say("%.*s", (int)status.len, (const char *)out);
}

static void say_arcs(const_oid_status status) {
    const uint32_t *written = (void *)out;
    if (!is_ok(status))
        return;
    say("%zu arcs", status.len);
    for (size_t i = 0; i < status.len; i++)
        say(" %" PRIu32, written[i]);
}

/* The call wrote the first octets of the row again. */
static void see_again(const_oid_status made, size_t len) {
    SEE(made.code == CONST_OID_OK && made.len == len && memcmp(out, items[0].octets, len) == 0, line);
}

/* Each arc is found by its index, of many only some. */
static void see_arcs(void) {
    for (size_t i = 0; i < arc_count; i += 1 + i / 300) {
        const_oid_status arc = const_oid_arc(OCTETS(0), i);
        SEE(arc.code == CONST_OID_OK && arc.detail == arcs[i], line);
    }
    SEE(const_oid_arc(OCTETS(0), arc_count).code == CONST_OID_NONE, line);
}

/* Octets are compared with themselves, at one address, if they are valid. */
static void see_itself(uint32_t code) {
    const const_oid_status both[] = {const_oid_eq(OCTETS(0), OCTETS(0)), const_oid_starts_with(OCTETS(0), OCTETS(0)),
        const_oid_cmp(OCTETS(0), OCTETS(0)), const_oid_cmp_arcs(OCTETS(0), OCTETS(0))};
    for (size_t i = 0; i < 4; i++)
        SEE(both[i].code == code && both[i].detail == (code != CONST_OID_OK ? 0 : i < 2 ? 1 : CONST_OID_EQUAL), line);
    SEE(const_oid_is_equal(OCTETS(0), OCTETS(0)) == (code == CONST_OID_OK), line);
}

/* Says the text of octets, and their arcs. Both lead back. */
static void octets_row(void) {
    const const_oid_status checked = const_oid_check(OCTETS(0)), counted = const_oid_len(OCTETS(0));
    const const_oid_status printed = in_rooms(to_text, 1);
    say_text(printed);
    if (printed.code == CONST_OID_OK)
        set_text(out, printed.len);
    const const_oid_status all = in_rooms(to_arcs, sizeof *arcs);
    SEE(checked.code == printed.code && counted.code == printed.code && all.code == printed.code, line);
    SEE(checked.len == 0 && counted.len == all.len, line);
    see_itself(checked.code);
    if (printed.code != CONST_OID_OK)
        return;
    say(", ");
    say_arcs(all);
    set_arcs(out, all.len);
    see_arcs();
    see_again(in_rooms(from_text, 1), items[0].len);
    see_again(in_rooms(from_arcs, 1), items[0].len);
}

/* Says the length of the element that bytes begin with, and its octets. */
static void element_row(void) {
    const const_oid_octets none = {NULL, 1};
    items[1] = none;
    const const_oid_status status = const_oid_from_der(OCTETS(0), &items[1]);
    if (is_ok(status)) {
        see_again(in_rooms(to_element, 1), status.len);
        say("%zu bytes, ", status.len);
        say_hex(items[1]);
    } else {
        SEE(items[1].octets == NULL && items[1].len == 1 && status.len == 0, line);
    }
}

/* Says the octets of a text. After 1.2 it is read as one that is below it. */
static void text_row(const void *bytes, size_t len) {
    static char whole[4 + LINE] = "1.2.";
    set_text(bytes, len);
    const const_oid_status status = in_rooms(from_text, 1);
    say_octets(status);
    memcpy(whole + 4, bytes, len);
    set_text(whole, 4 + len);
    const const_oid_status all = in_rooms(from_text, 1);
    items[1] = (const_oid_octets){(const uint8_t *)"*", 1};
    set_text(whole + 3, 1 + len);
    const const_oid_status below = in_rooms(from_text_below, 1);
    const size_t above = all.code != CONST_OID_OK && all.code != CONST_OID_NOT_UTF8;
    SEE(below.code == all.code && below.detail == all.detail && below.len + above == all.len, line);
}

/* Says the index of the first wrong component. */
static void component_row(const char *rest) {
    set_text(rest, strlen(rest));
    const const_oid_status status = in_rooms(from_text, 1);
    say(status.code == CONST_OID_OK ? "none" : "%zu", status.len);
}

static void sorted_row(void) {
    const const_oid_status status = const_oid_check_sorted(at_end(LIST, items, count * sizeof *items), count);
    if (is_ok(status))
        say("sorted");
    else
        say(" at %zu", status.len);
}

/* Says what each search finds for an identifier, or its error. */
static void list_row(void) {
    static const char *const names[] = {"find", "next", "nearest"};
    const_oid_range range = {count, count};
    const const_oid_octets *list = at_end(LIST, items + 1, (count - 1) * sizeof *items);
    const const_oid_status found[] = {const_oid_find(OCTETS(0), list, count - 1),
        const_oid_next(OCTETS(0), list, count - 1), const_oid_nearest(OCTETS(0), list, count - 1)};
    const_oid_status last = const_oid_subtree_range(OCTETS(0), list, count - 1, &range);
    SEE(last.len == (last.code == CONST_OID_OK ? 0 : count - 1), line);
    SEE(last.code == CONST_OID_OK || (range.start == count && range.end == count), line);
    for (size_t i = 0; i < 3; i++) {
        SEE(found[i].code == CONST_OID_OK || found[i].len == count - 1, line);
        if (last.code != CONST_OID_OK && found[i].code == last.code && found[i].detail == last.detail)
            continue;
        say("%s ", names[i]);
        if (!is_ok(found[i]))
            say(" of ");
        say("%zu, ", found[i].len);
    }
    if (is_ok(last))
        say("range %zu %zu", range.start, range.end);
}

typedef const_oid_status comparison(const uint8_t *, size_t, const uint8_t *, size_t);

static const_oid_status by_arcs(const uint8_t *left, size_t left_len, const uint8_t *right, size_t right_len) {
    const const_oid_octets a = {left, left_len}, b = {right, right_len};
    return (const_oid_status){CONST_OID_OK, (uint32_t)(CONST_OID_EQUAL + const_oid_by_arcs(&a, &b)), 0};
}

static const char *const whether[] = {"no", "yes"};
static const char *const orders[] = {"no order", "less", "equal", "greater"};

/* Says how two identifiers compare, in one of these words. */
static void pair_row(comparison *compared_by, const char *const *words) {
    const const_oid_status status = compared_by(OCTETS(0), OCTETS(1));
    SEE(status.len == 0, line);
    if (is_ok(status))
        say("%s", words[status.detail]);
}

static void equal_row(void) {
    pair_row(const_oid_eq, whether);
    SEE(const_oid_is_equal(OCTETS(0), OCTETS(1)) == (int)const_oid_eq(OCTETS(0), OCTETS(1)).detail, line);
}

/* The text of the arcs after those of a prefix leads back. */
static void begins_row(void) {
    const const_oid_status status = const_oid_starts_with(OCTETS(0), OCTETS(1)), below = in_rooms(to_text_below, 1);
    pair_row(const_oid_starts_with, whether);
    SEE(const_oid_is_under(OCTETS(0), OCTETS(1)) == (int)status.detail, line);
    if (status.detail == 1) {
        SEE(below.code == CONST_OID_OK, line);
        set_text(out, below.len);
        see_again(in_rooms(from_text_below, 1), items[0].len);
    } else {
        SEE(below.code == (status.code == CONST_OID_OK ? (uint32_t)CONST_OID_NONE : status.code), line);
    }
}

/* Says whether each identifier is equal to itself, less than all after it and greater than those before. */
static void order_row(comparison *compared_by) {
    for (size_t i = 0; i < count; i++) {
        for (size_t j = 0; j < count; j++) {
            const_oid_status status = compared_by(OCTETS(i), OCTETS(j));
            if (status.code != CONST_OID_OK || status.detail != (uint32_t)(CONST_OID_EQUAL + (i > j) - (i < j)))
                say("%zu and %zu are not ", i, j);
        }
    }
    say("in order");
}

#define IS(name) (strcmp(call, name) == 0)

/* Whether a row asks tables of names that are not here. */
static int is_left(const char *call) {
    if (IS("names"))
        return 1;
#ifdef COMMON
    return 0;
#else
    return IS("entry") || IS("parse") || IS("parse_bytes") || IS("display") || IS("nearest");
#endif
}

/* Whether a text is wrong in any room. In a short output too, the library looks for an error in the whole text. */
static int is_wrong;

/* Says the octets of a text, in this room. */
static void read_row(writer *read, const void *bytes, size_t len, size_t room) {
    set_text(bytes, len);
    is_wrong = in_rooms(read, 1).code != CONST_OID_OK;
    say_octets(in_room(read, room, 1));
}

#ifdef COMMON
static const_oid_octets common[CONST_OID_COMMON_NAMES_COUNT];

static const_oid_status parse(void *to, size_t room) {
    return const_oid_parse(text, text_len, to, room);
}

static void display_row(void) {
    static char shown[4 * MOST];
    const const_oid_status status = const_oid_display(OCTETS(0), shown, sizeof shown);
    if (is_ok(status))
        say("%s", shown);
}

/* Says the octets of a name and the name of octets. */
static void entry_row(const char *name) {
    say_hex(const_oid_from_name(name));
    say(" %s", const_oid_to_name(OCTETS(1)));
}

/* Says the octets and the name of the nearest entry, by a search in each table. Past a table's end are no octets. */
static void nearest_row(void) {
    const const_oid_status first = const_oid_nearest(OCTETS(0), const_oid_name_octets, CONST_OID_NAMES_COUNT);
    const const_oid_status second = const_oid_nearest(OCTETS(0), common, CONST_OID_COMMON_NAMES_COUNT);
    const const_oid_octets a = const_oid_name_octets[first.len], b = const_oid_common_octets(second.len);
    const int is_second = a.len < b.len;
    if (!is_ok(is_second ? second : first))
        return;
    say_hex(is_second ? b : a);
    say(" %s", is_second ? const_oid_common_name(second.len) : const_oid_names[first.len]);
}
#endif

static void answer(const char *call, const char *rest) {
    set_arcs(numbers, count);
    const char *second = rest + strcspn(rest, " ");
    second += *second == ' ';
    if (IS("text"))
        text_row(rest, strlen(rest));
    else if (IS("text_in"))
        read_row(from_text, second, strlen(second), numbers[0]);
    else if (IS("component"))
        component_row(rest);
    else if (IS("bytes"))
        text_row(OCTETS(0));
    else if (IS("octets"))
        octets_row();
    else if (IS("element"))
        element_row();
    else if (IS("arcs"))
        say_octets(in_rooms(from_arcs, 1));
    else if (IS("arcs_in"))
        say_octets(in_room(from_later_arcs, numbers[0], 1));
    else if (IS("arcs_from"))
        say_arcs(in_room(to_arcs_from, numbers[2], sizeof *arcs));
    else if (IS("parent"))
        say_octets(in_rooms(to_parent, 1));
    else if (IS("child"))
        say_octets(in_rooms(to_child, 1));
    else if (IS("sorted"))
        sorted_row();
    else if (IS("list"))
        list_row();
    else if (IS("error"))
        say_text(in_rooms(to_error, 1));
    else if (IS("begins"))
        begins_row();
    else if (IS("equal"))
        equal_row();
    else if (IS("owned"))
        pair_row(const_oid_cmp_owned, orders);
    else if (IS("borrowed"))
        pair_row(const_oid_cmp, orders);
    else if (IS("by_arcs"))
        pair_row(const_oid_cmp_arcs, orders);
    else if (IS("items_order"))
        order_row(by_arcs);
    else if (IS("owned_order"))
        order_row(const_oid_cmp_owned);
    else if (IS("borrowed_order"))
        order_row(const_oid_cmp);
    else if (IS("by_arcs_order"))
        order_row(const_oid_cmp_arcs);
#ifdef COMMON
    else if (IS("parse"))
        read_row(parse, second, strlen(second), numbers[0]);
    else if (IS("parse_bytes"))
        read_row(parse, OCTETS(1), numbers[0]);
    else if (IS("display"))
        display_row();
    else if (IS("nearest"))
        nearest_row();
    else if (IS("entry"))
        entry_row(strchr(second, ' ') + 1);
#endif
    else
        say("no such call");
}

int main(void) {
    static char read[LINE], row[LINE];
    size_t rows = 0, wrong = 0;
#ifdef COMMON
    for (size_t i = 0; i < CONST_OID_COMMON_NAMES_COUNT; i++)
        common[i] = const_oid_common_octets(i);
#endif
    while (fgets(read, sizeof read, stdin) != NULL) {
        line++;
        read[strcspn(read, "\r\n")] = 0;
        said_len = 0;
        expand(read);
        memcpy(row, said, said_len + 1);
        char *wanted = strstr(row, " = ");
        if (row[0] == '#' || wanted == NULL)
            continue;
        rows++;
        *wanted = 0;
        wanted += 3;
        /* The library does not say how long an element of wrong octets is. */
        if (strstr(wanted, " bytes, error") != NULL)
            wanted = strstr(wanted, "error");
        char *rest = row + strcspn(row, " ");
        if (*rest == ' ')
            *rest++ = 0;
        if (is_left(row))
            continue;
        said_len = 0;
        is_wrong = 0;
        read_words(rest);
        answer(row, rest);
        if (said_len == strlen(wanted) && memcmp(said, wanted, said_len) == 0)
            continue;
        if (is_wrong && strcmp(wanted, "error: OID length invalid") == 0 && strncmp(said, "error", 5) == 0)
            continue;
        wrong++;
        printf("line %zu: %s, and not %.*s\n", line, read, (int)said_len, said);
    }
    printf("%zu rows\n", rows);
    return wrong != 0;
}
