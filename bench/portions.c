/* What a portion costs besides its cells, and how much stack the library takes, against the targets.
 *
 *   portions WHOLE ONES MESH...
 *
 * A portion from a mark after the last cell has nothing to find, so its time is the fixed cost: the
 * checks and the tables. On the mesh WHOLE that is held to the whole list in one portion. On ONES the
 * list is taken in portions of one record, each beside a portion with nothing to find, and now and
 * then the list in one portion, so that all meet the same disturbances; each counts as the shortest
 * of three. Processor time is taken.
 *
 * The stack is painted before and looked at after every mesh was checked and listed. It is larger
 * than its limit, so that what goes beyond is measured too.
 */
#include "opalcrumb.h"

#include <pthread.h>
#include <stdio.h>
#include <stdlib.h>
#include <string.h>
#include <time.h>

enum { STACK = 8 << 20, LIMIT = 1 << 20, PAINT = 0xa5, CELLS = 200000 };

static uint8_t file[OPALCRUMB_LONGEST_FILE];
static size_t len;
static uint16_t table[OPALCRUMB_TABLE], records[CELLS * OPALCRUMB_RECORD];
static uint32_t cells, end;
static int missed;

static void stop(const char *why, const char *what) {
    fprintf(stderr, "portions: %s %s\n", why, what);
    exit(2);
}

static void take(const char *name) {
    FILE *in = fopen(name, "rb");
    if (!in) stop("cannot read", name);
    len = fread(file, 1, sizeof file, in);
    fclose(in);
}

static double now(void) {
    struct timespec t;
    clock_gettime(CLOCK_THREAD_CPUTIME_ID, &t);
    return (double)t.tv_sec * 1e3 + (double)t.tv_nsec / 1e6;
}

/* The milliseconds of a portion. */
static double ask(uint16_t *after, size_t room) {
    double from = now();
    if (opalcrumb_portion(file, len, after, table, OPALCRUMB_TABLE, records, room * OPALCRUMB_RECORD, &cells, &end))
        stop("refused", "a mesh");
    return now() - from;
}

static double ask_none(void) {
    uint16_t from[9] = {0};
    return ask(from, 1);
}

static double ask_all(void) {
    uint16_t from[9] = {65535};
    double took = ask(from, CELLS);
    if (!end) stop("too many cells in", "a mesh");
    return took;
}

/* One record after `mark`; `next` is the mark after it. */
static uint16_t mark[9] = {65535}, next[9];

static double ask_next(void) {
    memcpy(next, mark, sizeof next);
    return ask(next, 1);
}

static double shortest(double (*asked)(void), int runs) {
    double best = 1e99;
    while (runs--) {
        double took = asked();
        if (took < best) best = took;
    }
    return best;
}

static const char *verdict(int ok) {
    if (!ok) missed = 1;
    return ok ? "ok" : "MISSED";
}

static void *costs(void *names) {
    char **name = names;
    take(name[0]);
    double fixed = shortest(ask_none, 50), all = shortest(ask_all, 5);
    printf("fixed cost of a portion over the whole list, %.3f ms / %.1f ms: 1/%.0f (1/50) %s\n", fixed, all, all / fixed,
           verdict(fixed * 50 <= all));

    take(name[1]);
    double ones = 0, none = 0, lists = 0;
    uint32_t calls = 0, times = 0, found = 0, count = 0;
    for (end = 0; !end; calls++) {
        if (calls % 1000 == 0) {
            lists += shortest(ask_all, 3);
            times++;
            count = cells;
        }
        none += shortest(ask_none, 3);
        ones += shortest(ask_next, 3);
        memcpy(mark, next, sizeof mark);
        found += cells;
    }
    if (found != count) stop("portions of one record list other cells on", name[1]);
    all = lists / times;
    double ratio = ones / (2 * all + none);
    printf("list in portions of one record, %.0f ms, over 2 lists in one portion of %.1f ms "
           "and %u fixed costs of %.4f ms: %.4f (1) %s\n",
           ones, all, (unsigned)calls, none / calls, ratio, verdict(ratio <= 1));
    return NULL;
}

/* Answers where the stack of the calls begins. */
static void *every(void *names) {
    void *top = __builtin_frame_address(0);
    int32_t p[4][3] = {{0, 0, 0}, {1, 0, 0}, {0, 1, 0}, {0, 0, 1}};
    int64_t box;
    uint16_t corners[8] = {7, 6, 5, 4, 3, 2, 1, 0}, least[8];
    for (char **name = names; *name; name++) {
        take(*name);
        if (opalcrumb_check(file, len)) stop("refused", *name);
        ask_all();
        ask_none();
    }
    if (opalcrumb_box(p[0], p[1], p[2], p[3], &box) || box != 1 || opalcrumb_least_form(8, corners, least))
        stop("refused", "four points or eight corners");
    return top;
}

int main(int argc, char **argv) {
    unsigned char *stack = aligned_alloc(1 << 16, STACK);
    pthread_attr_t how;
    pthread_t thread;
    void *top = NULL;
    if (argc < 4) stop("usage:", "portions WHOLE ONES MESH...");
    if (!stack || pthread_attr_init(&how) || pthread_attr_setstack(&how, stack, STACK)) stop("no", "stack");
    if (pthread_create(&thread, &how, costs, argv + 1) || pthread_join(thread, NULL)) stop("no", "thread");
    memset(stack, PAINT, STACK);
    if (pthread_create(&thread, &how, every, argv + 3) || pthread_join(thread, &top)) stop("no", "thread");
    size_t untouched = 0;
    while (untouched < STACK && stack[untouched] == PAINT) untouched++;
    size_t used = (size_t)((unsigned char *)top - (stack + untouched));
    printf("stack of the library, the most over %d meshes, bytes: %zu (%d) %s\n", argc - 3, used, LIMIT, verdict(used <= LIMIT));
    return missed;
}
