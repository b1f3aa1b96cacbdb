#define _POSIX_C_SOURCE 200809L
/* Threads that make calls at once, each with an identifier and an error of its own, get what one thread alone got. */
#include "see.h"

#include <pthread.h>
#include <string.h>

enum { THREADS = 8, TURNS = 2000, MOST = 300, COUNTS = 8 };

static const size_t counts[COUNTS] = {2, 5, 9, 14, 30, 65, 255, MOST};

/* What calls write and return. */
typedef struct {
    char text[3 * MOST], error[CONST_OID_MAX_ERROR_TEXT];
    uint8_t from_text[MOST], from_arcs[MOST], child[MOST + 1];
    uint32_t arcs[MOST + 1];
    const_oid_status statuses[6];
} results;

static results alone[THREADS][COUNTS];
static pthread_barrier_t start;

/* Makes calls for an identifier of `count` octets: 1.2, and then one arc again and again, of two digits. */
static void call(unsigned arc, size_t count, results *to) {
    uint8_t octets[MOST];
    memset(octets, (int)arc, count);
    octets[0] = 42;
    memset(to, 0, sizeof *to);
    to->statuses[0] = const_oid_to_text(octets, count, to->text, sizeof to->text);
    to->statuses[1] = const_oid_from_text(to->text, to->statuses[0].len, to->from_text, MOST);
    to->statuses[2] = const_oid_arcs(octets, count, to->arcs, MOST + 1);
    to->statuses[3] = const_oid_from_arcs(to->arcs, to->statuses[2].len, to->from_arcs, MOST);
    to->statuses[4] = const_oid_push_arc(octets, count, arc, to->child, MOST + 1);
    to->statuses[5] = const_oid_error_text(CONST_OID_ARC_INVALID, arc, to->error, sizeof to->error);
    for (int i = 0; i < 6; i++)
        SEE(to->statuses[i].code == CONST_OID_OK, count);
}

static void *run(void *of_thread) {
    const results *wanted = of_thread; /* for each number of octets */
    results got;
    pthread_barrier_wait(&start);
    for (int turn = 0; turn < TURNS * COUNTS; turn++) {
        call(wanted->arcs[2], counts[turn % COUNTS], &got);
        SEE(memcmp(&got, &wanted[turn % COUNTS], sizeof got) == 0, counts[turn % COUNTS]);
    }
    return NULL;
}

int main(void) {
    pthread_t threads[THREADS];
    SEE(pthread_barrier_init(&start, NULL, THREADS) == 0, 0);
    for (unsigned i = 0; i < THREADS; i++)
        for (int k = 0; k < COUNTS; k++)
            call(11 * (i + 1), counts[k], &alone[i][k]);
    for (int i = 0; i < THREADS; i++)
        SEE(pthread_create(&threads[i], NULL, run, alone[i]) == 0, (size_t)i);
    for (int i = 0; i < THREADS; i++)
        SEE(pthread_join(threads[i], NULL) == 0, (size_t)i);
    return 0;
}
