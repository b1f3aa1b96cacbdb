#define _GNU_SOURCE
/* Arrays that end where a page begins that no one may touch, and calls with an output in each room near its result. */
#include "see.h"

#include <string.h>
#ifndef _WIN32
#include <sys/mman.h>
#include <unistd.h>
#endif

enum slot { OUTPUT, LEFT, RIGHT, LIST, TEXT, ARCS, SLOTS };
enum { SLOT = 1 << 21, AROUND = 64, KEPT = 0xEE };

/* The line that is asked. */
static size_t line;

/* Where the memory of an array ends. Windows has no page there. */
static uint8_t *end_of(enum slot slot) {
#ifdef _WIN32
    static uint8_t memory[SLOTS][SLOT];
    return memory[slot] + SLOT;
#else
    static uint8_t *ends[SLOTS];
    if (ends[slot] == NULL) {
        const size_t page = (size_t)sysconf(_SC_PAGESIZE);
        uint8_t *start = mmap(NULL, SLOT + page, PROT_READ | PROT_WRITE, MAP_PRIVATE | MAP_ANONYMOUS, -1, 0);
        SEE(start != MAP_FAILED && mprotect(start + SLOT, page, PROT_NONE) == 0, slot);
        ends[slot] = start + SLOT;
    }
    return ends[slot];
#endif
}

/* A copy of an array at the end of its memory. */
static void *at_end(enum slot slot, const void *items, size_t bytes) {
    SEE(bytes <= SLOT - AROUND, line);
    if (bytes > 0)
        memcpy(end_of(slot) - bytes, items, bytes);
    return end_of(slot) - bytes;
}

static int is_kept(const uint8_t *bytes, size_t len) {
    while (len > 0 && bytes[len - 1] == KEPT)
        len--;
    return len == 0;
}

/* A call that writes to an output with room for so many items. */
typedef const_oid_status writer(void *out, size_t room);

/* The output of the last call. */
static uint8_t *out;

/* Calls with an output of this room. What it does not write is kept. */
static const_oid_status in_room(writer *write, size_t room, size_t size) {
    SEE(room <= (SLOT - AROUND) / size, line);
    out = end_of(OUTPUT) - room * size;
    memset(out - AROUND, KEPT, room * size + AROUND);
    const const_oid_status status = write(out, room);
    const size_t count = status.code == CONST_OID_OK ? status.len : 0;
    SEE(count <= room, line);
    SEE(is_kept(out - AROUND, AROUND) && is_kept(out + count * size, (room - count) * size), line);
    return status;
}

/* Calls with null, and in each room near that of the result, which is the last one. */
static const_oid_status in_rooms(writer *write, size_t size) {
    const const_oid_status asked = write(NULL, 0);
    const size_t len = asked.code == CONST_OID_OUTPUT_TOO_SHORT ? asked.len : 0;
    const size_t rooms[] = {0, len > 0 ? len - 1 : 0, len + 1, len + 20, CONST_OID_MAX_OCTETS, len};
    const_oid_status status = asked;
    for (size_t i = 0; i < sizeof rooms / sizeof *rooms; i++) {
        const int fits = asked.code == CONST_OID_OUTPUT_TOO_SHORT && rooms[i] >= len;
        status = in_room(write, rooms[i], size);
        SEE(status.code == (fits ? (uint32_t)CONST_OID_OK : asked.code), line);
        SEE(status.len == asked.len && status.detail == asked.detail, line);
    }
    return status;
}
