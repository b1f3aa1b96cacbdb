/* What the programs of this folder share: SEE(fact, number) ends the process where a fact is not true, and names it. */
#include "const_oid.h"

#include <stdio.h>
#include <stdlib.h>

static void see(int fact, const char *file, int line, const char *words, size_t number) {
    if (!fact) {
        fprintf(stderr, "tests: %s:%d: not true at %zu: %s\n", file, line, number, words);
        exit(1);
    }
}

#define SEE(fact, number) see(fact, __FILE__, __LINE__, #fact, number)
