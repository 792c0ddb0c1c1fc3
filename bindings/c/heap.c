/* What the library asks of C's heap on a processor for which the kit has no C files (aarch64). It does what the kit's
 * `liblibc_c.a` does for x86-64. No proof covers it: it is trusted, as the C library's malloc is. */
#include <stdbool.h>
#include <stddef.h>
#include <stdlib.h>

/* Whether there was memory, and where. Where there was none the place isn't read, but it must be aligned and not null. */
struct tried {
    bool ok;
    void *at;
};

static _Alignas(16) char nowhere[16];

static struct tried tried(void *at)
{
    return (struct tried){ at != NULL, at != NULL ? at : nowhere };
}

struct tried rattle_alloc(size_t size, size_t align)
{
    return tried(malloc(size != 0 ? size : align));
}

struct tried rattle_realloc(void *at, size_t kept, size_t size, size_t align)
{
    (void)kept;
    return tried(realloc(at, size != 0 ? size : align));
}

void rattle_dealloc(void *at)
{
    free(at);
}
