/* The few C functions of the kit's libraries `os` and `libc` that the program calls, for processors
 * that the kit's own archives of them are not for. Used for timing alone. */
#include <errno.h>
#include <stdbool.h>
#include <stddef.h>
#include <stdlib.h>
#include <string.h>

static int count;
static char **words;

__attribute__((constructor)) static void keep(int argc, char **argv) {
    count = argc;
    words = argv;
}

size_t rattle_arg_count(void) { return (size_t)count; }

/* The length of the argument, -1 where it is missing, -2 where it is longer than the place. */
ptrdiff_t rattle_arg(size_t i, unsigned char *to, size_t room) {
    if (i >= (size_t)count) return -1;
    size_t len = strlen(words[i]);
    memcpy(to, words[i], len < room ? len : room);
    return len <= room ? (ptrdiff_t)len : -2;
}

int rattle_errno(void) { return errno; }
void rattle_set_errno(int to) { errno = to; }

/* Whether there is memory, and where; where there is none, a byte that nobody owns. */
struct tried {
    bool ok;
    void *at;
};
static char nothing;

static struct tried tried(void *at) { return (struct tried){at != NULL, at ? at : &nothing}; }

struct tried rattle_alloc(size_t size, size_t align) { return tried(malloc(size ? size : align)); }

struct tried rattle_realloc(void *at, size_t kept, size_t size, size_t align) {
    (void)kept;
    return tried(realloc(at, size ? size : align));
}

void rattle_dealloc(void *at) { free(at); }
