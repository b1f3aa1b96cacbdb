/* No library: written by hand for speed. Every result is right, but no error has a name, and no zero may lead. */
enum { DIGITS = 10, GROUPS = 5 }; /* of an arc at most */

static inline uint64_t read_number(const char **text) {
    const char *start = *text, *at = start;
    uint64_t number = (uint8_t)(*at - '0'), digit;
    if (number > 9)
        return UINT64_MAX;
    while ((digit = (uint8_t)(*++at - '0')) < 10)
        number = number * 10 + digit;
    if (at - start > 1 && (*start == '0' || at - start > DIGITS))
        return UINT64_MAX;
    *text = at;
    return number;
}

static inline uint8_t *put_groups(uint8_t *to, uint64_t number) {
    if (number < 1 << 7) {
        *to = (uint8_t)number;
        return to + 1;
    }
    if (number >> 28)
        *to++ = (uint8_t)(number >> 28 | 0x80);
    if (number >> 21)
        *to++ = (uint8_t)(number >> 21 | 0x80);
    if (number >> 14)
        *to++ = (uint8_t)(number >> 14 | 0x80);
    *to++ = (uint8_t)(number >> 7 | 0x80);
    *to = number & 0x7F;
    return to + 1;
}

int text_to_octets(const char *text, size_t len, uint8_t *out) {
    const char *end = text + len;
    uint64_t root = read_number(&text), arc;
    if (len > ROOM || root > 2 || *text++ != '.')
        return REJECTED;
    if ((arc = read_number(&text)) > (root < 2 ? 39 : UINT32_MAX))
        return REJECTED;
    uint8_t *to = put_groups(out, root * 40 + arc);
    while (*text++ == '.') {
        if ((arc = read_number(&text)) > UINT32_MAX)
            return REJECTED;
        to = put_groups(to, arc);
    }
    return text == end + 1 ? (int)(to - out) : REJECTED;
}

static inline uint64_t read_groups(const uint8_t **octets) {
    const uint8_t *start = *octets, *at = start;
    uint64_t number = *at & 0x7F;
    if (*at == 0x80)
        return UINT64_MAX;
    while (*at++ >= 0x80)
        number = number << 7 | (*at & 0x7F);
    *octets = at;
    return at - start > GROUPS ? UINT64_MAX : number;
}

static const char PAIRS[] = /* the digits of 0 to 99 */
    "0001020304050607080910111213141516171819202122232425262728293031323334353637383940414243444546474849"
    "5051525354555657585960616263646566676869707172737475767778798081828384858687888990919293949596979899";

static inline void *put_arc(void *text, uint64_t number) {
    char room[2 * DIGITS], *at = room + DIGITS, *to = text;
    *to++ = '.';
    if (number < 10) {
        *to = (char)('0' + number);
        return to + 1;
    }
    if (number < 100) {
        memcpy(to, PAIRS + number * 2, 2);
        return to + 2;
    }
    for (; number >= 10; number /= 100)
        memcpy(at -= 2, PAIRS + number % 100 * 2, 2);
    if (number)
        *--at = (char)('0' + number);
    memcpy(to, at, DIGITS);
    return to + (room + DIGITS - at);
}

/* Puts each arc of octets at the place after those before it, and returns the last one's, or NULL. */
static inline __attribute__((always_inline)) void *put_arcs(
    void *to, const uint8_t *at, size_t size, void *(*put)(void *to, uint64_t number)) {
    const uint8_t *end = at + size;
    if (size == 0 || end[-1] >= 0x80)
        return NULL;
    uint64_t number = read_groups(&at), root = number < 40 ? 0 : number < 80 ? 1 : 2;
    to = put(to, root);
    for (number -= root * 40; number <= UINT32_MAX; number = read_groups(&at)) {
        to = put(to, number);
        if (at == end)
            return to;
    }
    return NULL;
}

int octets_to_text(const uint8_t *der, size_t len, char *out) { /* The text has a dot before the first arc. */
    char *end = len < 3 || len > ROOM / 4 - DIGITS ? NULL : put_arcs(out - 1, der + 2, len - 2, put_arc);
    return end ? (int)(end - out) : REJECTED;
}
