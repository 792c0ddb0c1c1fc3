/* Checks, and memory that is counted and refused, for one test program: the linker's --wrap puts it in the place of malloc.
 * With SUBSETTER_SHARED the program uses a shared library, whose memory can't be counted; then no request is refused. */
#include <stdio.h>
#include <stdlib.h>
#include <string.h>

static size_t checks, failures;

static void check(int holds, const char *what, const char *row)
{
    checks++;
    if (!holds && failures++ < 100)
        printf("FAILED: %s: %s\n", row, what);
}

/* The request that is refused, from 1 on (0: none), and the requests since `requests` was set to 0. */
static unsigned long refused, requests;
/* The blocks in use. */
static long held;
/* Whether the refused request wanted a smaller block. */
static int gave_back;
/* Whether requests are counted. */
static int is_counted = 1;

#ifdef SUBSETTER_SHARED
enum { CAN_REFUSE = 0 };
#define __real_malloc malloc
#define __real_free free
#else
enum { CAN_REFUSE = 1, MOST_BLOCKS = 1024 };

void *__real_malloc(size_t size);
void *__real_calloc(size_t count, size_t size);
void *__real_realloc(void *block, size_t size);
void __real_free(void *block);

static struct block {
    void *at;
    size_t size;
} blocks[MOST_BLOCKS];

/* The entry of a block; for null a free entry. */
static struct block *entry(const void *block)
{
    for (int i = 0; i < MOST_BLOCKS; i++)
        if (blocks[i].at == block)
            return &blocks[i];
    printf("FAILED: a block that isn't in use is given back, or too many are in use\n");
    exit(3);
}

static void *counted(void *block, size_t size)
{
    *entry(NULL) = (struct block){block, size};
    held++;
    return block;
}

void *__wrap_malloc(size_t size)
{
    if (!is_counted)
        return __real_malloc(size);
    return ++requests == refused ? NULL : counted(__real_malloc(size), size);
}

/* (compilers make it of malloc and memset) */
void *__wrap_calloc(size_t count, size_t size)
{
    if (!is_counted)
        return __real_calloc(count, size);
    return ++requests == refused ? NULL : counted(__real_calloc(count, size), count * size);
}

void *__wrap_realloc(void *block, size_t size)
{
    if (!is_counted)
        return __real_realloc(block, size);
    if (block == NULL)
        return __wrap_malloc(size);
    struct block *known = entry(block);
    if (++requests == refused) {
        gave_back = size < known->size;
        return NULL;
    }
    *known = (struct block){__real_realloc(block, size), size};
    return known->at;
}

void __wrap_free(void *block)
{
    if (block != NULL && is_counted) {
        *entry(block) = (struct block){NULL, 0};
        held--;
    }
    __real_free(block);
}
#endif

/* Room for `size` bytes that isn't counted. (No more, so that AddressSanitizer and Valgrind see a byte beside them.) */
static inline void *room(size_t size)
{
    void *block = __real_malloc(size);
    if (block == NULL && size != 0)
        exit(3);
    return block;
}

/* The bytes of a file with a zero after them, which stay. */
static inline uint8_t *content(const char *path, size_t *size)
{
    FILE *file = fopen(path, "rb");
    if (file == NULL || fseek(file, 0, SEEK_END) != 0) {
        printf("FAILED: %s can't be read\n", path);
        exit(3);
    }
    *size = (size_t)ftell(file);
    uint8_t *bytes = room(*size + 1);
    rewind(file);
    bytes[fread(bytes, 1, *size, file)] = 0;
    fclose(file);
    return bytes;
}

static inline int is_same(const void *a, size_t a_size, const void *b, size_t b_size)
{
    return a_size == b_size && (a_size == 0 || memcmp(a, b, a_size) == 0);
}

/* Whether two structs `a` and `b` have the same list. */
#define SAME(LIST, COUNT) is_same(a->LIST, a->COUNT * sizeof *a->LIST, b->LIST, b->COUNT * sizeof *b->LIST)

/* What is in room that nothing was written to. */
enum { FILLED = 0xA5 };

/* Bits of a number that a narrower type loses. */
static const uint32_t HIGH[] = {1u << 8, 1u << 16, 1u << 24, 1u << 31};
enum { HIGHS = sizeof HIGH / sizeof *HIGH };
