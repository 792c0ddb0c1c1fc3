/* heap.c, which takes the place of the kit's C files on another processor: what it requests of malloc, realloc and free, and what it
 * returns, also where a request is refused. */
#include "heap.c"

#include <stdint.h>

#include "counted.h"

_Static_assert(__alignof__(nowhere) >= 16, "the place for no memory is aligned for any item");

/* A block of `size` bytes; or, refused, a place that isn't null and is aligned for any item. */
static void check_block(struct tried it, size_t size, int is_refused, const char *what)
{
    check(it.ok == !is_refused && it.at != NULL && (uintptr_t)it.at % 16 == 0, what, "heap");
    check(is_refused || entry(it.at)->size == size, "its size", what);
}

int main(void)
{
    for (int is_refused = 0; is_refused < 2; is_refused++) {
        struct tried it = rattle_alloc(24, 8), none = rattle_alloc(0, 4), other;
        check_block(it, 24, 0, "24 bytes");
        /* (malloc may answer null for no bytes) */
        check_block(none, 4, 0, "no bytes");
        memset(it.at, 77, 24);
        refused = is_refused ? requests + 1 : 0;
        check_block(rattle_alloc(24, 8), 24, is_refused, "24 more bytes");
        refused = is_refused ? requests + 1 : 0;
        check_block(rattle_alloc(0, 16), 16, is_refused, "no more bytes");
        refused = is_refused ? requests + 1 : 0;
        other = rattle_realloc(it.at, 24, 4800, 8);
        check_block(other, 4800, is_refused, "a larger block");
        it = is_refused ? it : other;
        for (int i = 0; i < 24; i++)
            check(((const unsigned char *)it.at)[i] == 77, "what was there stays", "heap");
        refused = 0;
        it = rattle_realloc(it.at, 24, 16, 8);
        check_block(it, 16, 0, "a smaller block");
        none = rattle_realloc(none.at, 0, 0, 2);
        check_block(none, 2, 0, "no bytes again");
        long before = held;
        rattle_dealloc(it.at);
        rattle_dealloc(none.at);
        check(held == before - 2, "both are given back", "heap");
    }
    printf("heap: %zu checks, %zu failed\n", checks, failures);
    return failures != 0;
}
