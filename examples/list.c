/* Lists the cells of the mesh on standard input through the library's C functions.
 *
 * It asks for a few cells at a time, as a program with little room would, and goes on from the mark
 * that each call hands back. It prints what the program `combine` prints, and ends with 0 after
 * `end`, 1 after `refused`, 2 if something was lost. Build it with examples/build-list.
 */
#include "opalcrumb.h"

long read(int fd, void *buf, size_t len);
long write(int fd, const void *buf, size_t len);

enum { CELLS_AT_ONCE = 7 };

static uint8_t file[OPALCRUMB_LONGEST_FILE + 1]; /* one more, so that a longer input is seen */
static uint16_t table[OPALCRUMB_TABLE], records[CELLS_AT_ONCE * OPALCRUMB_RECORD];

static char line[512];
static size_t used;

static void text(const char *s) {
    while (*s) line[used++] = *s++;
}

static void number(uint32_t x) {
    char digits[10];
    int n = 0;
    do {
        digits[n++] = (char)('0' + x % 10);
        x /= 10;
    } while (x > 0);
    while (n > 0) line[used++] = digits[--n];
}

/* Writes the line, and answers 0 if some of it was lost. */
static int flush(void) {
    size_t done = 0;
    line[used++] = '\n';
    while (done < used) {
        long put = write(1, line + done, used - done);
        if (put <= 0) return 0;
        done += (size_t)put;
    }
    used = 0;
    return 1;
}

static int print_record(const uint16_t *r) {
    number(r[0]);
    for (int i = 0; i < r[0]; i++) {
        text(" ");
        number(r[1 + i]);
    }
    text(" :");
    for (int i = 0; i < r[9]; i++) {
        text(" ");
        number(r[10 + i]);
    }
    return flush();
}

static uint32_t word(size_t at) {
    return file[at] | (uint32_t)file[at + 1] << 8 | (uint32_t)file[at + 2] << 16 | (uint32_t)file[at + 3] << 24;
}

int main(void) {
    size_t len = 0;
    long got;
    while (len < sizeof file && (got = read(0, file + len, sizeof file - len)) > 0) len += (size_t)got;

    uint16_t mark[9] = {65535};
    uint32_t count = 0, end = 0, cells = 0;
    int begun = 0;
    while (!end) {
        uint32_t refused = opalcrumb_portion(file, len, mark, table, OPALCRUMB_TABLE, records,
                                             CELLS_AT_ONCE * OPALCRUMB_RECORD, &count, &end);
        if (!begun && (refused == 0 || refused == 12)) {
            begun = 1;
            text("mesh ");
            number(word(0));
            text(" ");
            number(word(8));
            if (!flush()) return 2;
        }
        if (refused == 0 || refused == 12)
            for (uint32_t i = 0; i < count; i++)
                if (!print_record(records + i * OPALCRUMB_RECORD)) return 2;
        if (refused) {
            text("refused ");
            number(refused);
            return flush() ? 1 : 2;
        }
        cells += count;
    }
    text("end ");
    number(cells);
    return flush() ? 0 : 2;
}
