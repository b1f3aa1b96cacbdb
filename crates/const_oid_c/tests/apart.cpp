// Closes two shared libraries, and says so. With LIBRARY, one that prints a name as it is unloaded.
#include <cstdio>
#ifdef LIBRARY
#include "const_oid_common_names.h"

__attribute__((destructor)) static void print_name() {
    std::puts(const_oid_to_name(CONST_OID_OCTETS("\x2B\6\1\2\1\1\3")));
}
#else
#include <dlfcn.h>

int main(int, char **paths) {
    void *first = dlopen(paths[1], RTLD_NOW | RTLD_GLOBAL);
    void *second = dlopen(paths[2], RTLD_NOW | RTLD_GLOBAL);
    dlclose(first);
    dlclose(second);
    std::puts("closed");
}
#endif
