/* Refuses requests for memory one at a time, and counts them. Loaded before the C library, for programs of one thread:
 * LD_PRELOAD=refuse.so TOLD=FILE [REFUSE=N] [ROOM=BYTES] [SPARE=BYTES] [FAIL=WHAT:N] [INODE=N] PROGRAM WORDS.
 *
 *     REFUSE=N       the Nth request for memory is refused
 *     ROOM=BYTES     a request is refused where more than BYTES bytes would be held
 *     SPARE=BYTES    the same from when a file is made on, with BYTES bytes above what is held then
 *     FAIL=WHAT:N    the Nth call of WHAT fails: write, and write1 and write2 for the standard streams
 *     INODE=N        each file has the inode number N
 *     WATCH=1        requests and blocks count that come from a part of the program's memory, which it names by `watch`
 *     TOLD=FILE      gets at the end the numbers of requests, of refused ones, and of the blocks and bytes that are held */
#define _GNU_SOURCE
#include <errno.h>
#include <fcntl.h>
#include <stdarg.h>
#include <stdint.h>
#include <stdio.h>
#include <stdlib.h>
#include <string.h>
#include <sys/stat.h>
#include <sys/syscall.h>
#include <unistd.h>

extern void *__libc_malloc(size_t);
extern void __libc_free(void *);

/* In the 16 bytes before each block: what was asked for, and twice how far before the block its memory begins, one more where it counts. */
struct head {
    size_t asked, before;
};

static size_t held, peak, blocks, requests, refused, writes[3], wanted_request, wanted_write, room = SIZE_MAX, spare = SIZE_MAX;
static int is_ready, is_ended, wanted_stream = -1;
static unsigned long inode;
static uintptr_t watched, watched_end = UINTPTR_MAX;

/* Where a call comes from. (Not for `free`: the last call of a function may be a jump.) */
#define HERE ((uintptr_t)__builtin_return_address(0))

static size_t number_of(const char *name, size_t otherwise) { return getenv(name) ? strtoul(getenv(name), NULL, 10) : otherwise; }

/* The C library's own start isn't the program's: what it asks for before this is given. */
__attribute__((constructor)) static void start(void) {
    const char *fail = getenv("FAIL");
    wanted_request = number_of("REFUSE", 0);
    room = number_of("ROOM", SIZE_MAX);
    spare = number_of("SPARE", SIZE_MAX);
    inode = number_of("INODE", 0);
    if (getenv("WATCH")) watched_end = 0;
    if (fail) wanted_stream = fail[5] == ':' ? 0 : fail[5] - '0', wanted_write = strtoul(strchr(fail, ':') + 1, NULL, 10);
    is_ready = 1;
}

static int is_watched(uintptr_t at) { return is_ready && watched <= at && at < watched_end; }

/* Whether a request for `asked` bytes is to be refused. */
static int is_refused(size_t asked, uintptr_t at) {
    if (!is_watched(at) || is_ended) return 0;
    requests++;
    if (requests != wanted_request && (asked <= room && held <= room - asked)) return 0;
    refused++;
    errno = ENOMEM;
    return 1;
}

static struct head *head_of(void *block) { return (struct head *)block - 1; }

static void *given(size_t align, size_t asked, uintptr_t at) {
    if (is_refused(asked, at)) return NULL;
    align = align < 16 ? 16 : align;
    char *memory = asked + align + 16 < asked ? NULL : __libc_malloc(asked + align + 16);
    if (!memory) return NULL;
    char *block = (char *)(((uintptr_t)memory + 16 + align - 1) / align * align);
    *head_of(block) = (struct head){asked, (size_t)(block - memory) << 1 | is_watched(at)};
    held += asked;
    if (held > peak) peak = held;
    blocks += is_watched(at);
    return block;
}

void free(void *block) {
    if (!block) return;
    held -= head_of(block)->asked;
    blocks -= head_of(block)->before & 1;
    __libc_free((char *)block - (head_of(block)->before >> 1));
}

void *aligned_alloc(size_t align, size_t asked) { return given(align, asked, HERE); }

void *memalign(size_t align, size_t asked) { return given(align, asked, HERE); }

void *malloc(size_t asked) { return given(16, asked, HERE); }

int posix_memalign(void **block, size_t align, size_t asked) { return (*block = given(align, asked, HERE)) ? 0 : ENOMEM; }

void *calloc(size_t count, size_t size) {
    size_t asked;
    void *block = __builtin_mul_overflow(count, size, &asked) ? NULL : given(16, asked, HERE);
    return block ? memset(block, 0, asked) : NULL;
}

void *realloc(void *block, size_t asked) {
    void *fresh = given(16, asked, HERE);
    if (!block || !fresh) return fresh;
    memcpy(fresh, block, head_of(block)->asked < asked ? head_of(block)->asked : asked);
    free(block);
    return fresh;
}

int openat(int folder, const char *name, int how, ...) {
    va_list more;
    va_start(more, how);
    mode_t rights = va_arg(more, mode_t);
    va_end(more);
    if ((how & O_CREAT) && spare != SIZE_MAX) room = held + spare;
    return syscall(SYS_openat, folder, name, how, rights);
}

/* (where no rights are passed they aren't used) */
#define OPEN(NAME)                                            \
    int NAME(const char *name, int how, ...) {                \
        va_list more;                                         \
        va_start(more, how);                                  \
        mode_t rights = va_arg(more, mode_t);                 \
        va_end(more);                                         \
        return openat(AT_FDCWD, name, how, rights);           \
    }
OPEN(open)
OPEN(open64)

int statx(int folder, const char *restrict name, int how, unsigned wanted_parts, struct statx *restrict about) {
    int found = syscall(SYS_statx, folder, name, how, wanted_parts, about);
    if (found == 0 && inode) about->stx_ino = inode;
    return found;
}

ssize_t write(int file, const void *bytes, size_t count) {
    int stream = file == 1 || file == 2 ? file : 0;
    if (!is_ready || is_ended || ++writes[stream] != wanted_write || stream != wanted_stream) return syscall(SYS_write, file, bytes, count);
    errno = EIO;
    return -1;
}

ssize_t __write(int file, const void *bytes, size_t count) { return write(file, bytes, count); }

/* For tests/python/test_memory.py: whose requests and blocks count, which request from now on is refused, and how many there were. */
void watch(uintptr_t from, uintptr_t end) { watched = from, watched_end = end; }
void refuse(size_t number) { wanted_request = number, requests = 0; }
size_t met(void) { return requests; }
size_t watched_blocks(void) { return blocks; }

/* For lib/cost.py: the most bytes that were held since this was last asked. */
size_t most_held(void) {
    size_t most = peak;
    peak = held;
    return most;
}

__attribute__((destructor)) static void tell(void) {
    char text[200];
    is_ended = 1;
    int length = snprintf(text, sizeof text, "%zu %zu %zu %zu", requests, refused, blocks, held);
    int file = getenv("TOLD") ? syscall(SYS_openat, AT_FDCWD, getenv("TOLD"), O_WRONLY | O_CREAT | O_TRUNC, 0644) : -1;
    if (file < 0) return;
    syscall(SYS_write, file, text, length);
    syscall(SYS_close, file);
}
