/* Memory from malloc, for a processor that the toolchain's own lines (liblibc_c.a) aren't for. No pointer that is returned is null. */
#include <stdbool.h>
#include <stdlib.h>

typedef struct Tried {
    bool ok;
    void *at;
} Tried;

Tried rattle_alloc(size_t size, size_t align);
Tried rattle_realloc(void *at, size_t kept, size_t size, size_t align);
void rattle_dealloc(void *at);

static char nothing;

static Tried tried(void *at) {
    Tried it = {at != NULL, at ? at : &nothing};
    return it;
}

Tried rattle_alloc(size_t size, size_t align) { return tried(malloc(size ? size : align)); }

Tried rattle_realloc(void *at, size_t kept, size_t size, size_t align) {
    (void)kept;
    return tried(realloc(at, size ? size : align));
}

void rattle_dealloc(void *at) { free(at); }
