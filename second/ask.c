/* Puts questions to the library and passes its answers on, for the comparison.
 *
 * A question comes on standard input, the answer goes to standard output, both as plain numbers,
 * lowest byte first. It is a program of its own so that it can be built and run with the kit alone, and
 * so that a library that fails is seen as one. No system header is used.
 */
#include "opalcrumb.h"

long read(int fd, void *buf, size_t len);
long write(int fd, const void *buf, size_t len);
_Noreturn void _exit(int status);

enum { GUARD = 64, MOST_TABLE = 60000, MOST_RECORDS = OPALCRUMB_RECORD * 200000, MOST_FILE = 70000 };

enum { MOST_ENTRIES = 200000, MOST_ROOM = 70000 };

static uint8_t file[MOST_FILE + 2 * GUARD], copy[MOST_FILE + 2 * GUARD];
static uint16_t table[MOST_TABLE + 2 * GUARD], records[MOST_RECORDS + 2 * GUARD];
static uint32_t file_len;
static int32_t coordinates[2][MOST_ENTRIES + 2 * GUARD];
static uint16_t numbers[2][MOST_ENTRIES + 2 * GUARD], parts[2][MOST_ENTRIES + 2 * GUARD];
static uint8_t room[MOST_ROOM + 2 * GUARD];

static void get(void *to, size_t len) {
    char *at = to;
    while (len > 0) {
        long got = read(0, at, len);
        if (got <= 0) _exit(got == 0 ? 0 : 3);
        at += got;
        len -= (size_t)got;
    }
}

static void put(const void *from, size_t len) {
    const char *at = from;
    while (len > 0) {
        long gone = write(1, at, len);
        if (gone <= 0) _exit(3);
        at += gone;
        len -= (size_t)gone;
    }
}

static uint32_t get32(void) {
    uint32_t x;
    get(&x, sizeof x);
    return x;
}

/* A lent place that is empty has no address. */
#define LENT(place, len) ((len) ? (place) + GUARD : 0)

/* Fills a lent place and what lies around it with numbers that tell one entry from the next. */
static void lay(uint16_t *place, uint32_t len, uint32_t seed) {
    for (uint32_t i = 0; i < len + 2 * GUARD; i++) place[i] = (uint16_t)(seed + i * 40503u);
}

static uint32_t file_kept(void) {
    for (uint32_t i = 0; i < file_len + 2 * GUARD; i++)
        if (file[i] != copy[i]) return 0;
    return 1;
}

static void take_file(void) {
    file_len = get32();
    if (file_len > MOST_FILE) _exit(4);
    for (uint32_t i = 0; i < GUARD; i++) {
        file[i] = copy[i] = (uint8_t)(i * 37 + 1);
        file[GUARD + file_len + i] = copy[GUARD + file_len + i] = (uint8_t)(i * 53 + 2);
    }
    get(file + GUARD, file_len);
    for (uint32_t i = 0; i < file_len; i++) copy[GUARD + i] = file[GUARD + i];
}

static void ask_check(void) {
    uint32_t answer = opalcrumb_check(LENT(file, file_len), file_len), kept = file_kept();
    put(&answer, 4);
    put(&kept, 4);
}

static void ask_box(void) {
    int32_t points[4][3];
    int64_t box[3];
    get(points, sizeof points);
    get(box, sizeof box);
    uint32_t answer = opalcrumb_box(points[0], points[1], points[2], points[3], &box[1]);
    put(&answer, 4);
    put(box, sizeof box);
}

static void ask_least(void) {
    uint16_t kind, corners[8], least[24];
    get(&kind, sizeof kind);
    get(corners, sizeof corners);
    get(least, sizeof least);
    uint32_t answer = opalcrumb_least_form(kind, corners, least + 8);
    put(&answer, 4);
    put(corners, sizeof corners);
    put(least, sizeof least);
}

static void ask_portion(void) {
    uint16_t mark[9];
    uint32_t count[3], end[3], seed, table_len, records_len, answer, kept;
    get(mark, sizeof mark);
    get(count, sizeof count);
    get(end, sizeof end);
    seed = get32();
    table_len = get32();
    records_len = get32();
    if (table_len > MOST_TABLE || records_len > MOST_RECORDS) _exit(4);
    lay(table, table_len, seed);
    lay(records, records_len, seed + 7);
    answer = opalcrumb_portion(LENT(file, file_len), file_len, mark, LENT(table, table_len), table_len,
                               LENT(records, records_len), records_len, &count[1], &end[1]);
    kept = file_kept();
    put(&answer, 4);
    put(&kept, 4);
    put(mark, sizeof mark);
    put(count, sizeof count);
    put(end, sizeof end);
    put(table, 2 * (table_len + 2 * GUARD));
    put(records, 2 * (records_len + 2 * GUARD));
}

/* Takes a list of entries of some size between guards into a place, and once more beside it. */
static void take_list(void *place, void *beside, size_t size, uint32_t len) {
    uint8_t *at = place, *again = beside;
    size_t before = GUARD * size, behind = before + len * size;
    for (size_t i = 0; i < before; i++) {
        at[i] = (uint8_t)(i * 37 + 1);
        at[behind + i] = (uint8_t)(i * 53 + 2);
    }
    get(at + before, len * size);
    for (size_t i = 0; i < behind + before; i++) again[i] = at[i];
}

static uint32_t list_kept(const void *place, const void *beside, size_t size, uint32_t len) {
    const uint8_t *at = place, *again = beside;
    for (size_t i = 0; i < (len + 2 * GUARD) * size; i++)
        if (at[i] != again[i]) return 0;
    return 1;
}

/* The lengths of the three lists, the lists, *written between two guards, the seed and the length of the room. */
static void ask_write(void) {
    uint32_t lens[3], seed, room_len, answer, kept;
    size_t written[3];
    get(lens, sizeof lens);
    for (int i = 0; i < 3; i++)
        if (lens[i] > MOST_ENTRIES) _exit(4);
    take_list(coordinates[0], coordinates[1], 4, lens[0]);
    take_list(numbers[0], numbers[1], 2, lens[1]);
    take_list(parts[0], parts[1], 2, lens[2]);
    get(written, sizeof written);
    seed = get32();
    room_len = get32();
    if (room_len > MOST_ROOM) _exit(4);
    for (uint32_t i = 0; i < room_len + 2 * GUARD; i++) room[i] = (uint8_t)((seed + i * 40503u) >> 8);
    answer = opalcrumb_write(LENT(coordinates[0], lens[0]), lens[0], LENT(numbers[0], lens[1]), lens[1],
                             LENT(parts[0], lens[2]), lens[2], LENT(room, room_len), room_len, &written[1]);
    kept = list_kept(coordinates[0], coordinates[1], 4, lens[0]) && list_kept(numbers[0], numbers[1], 2, lens[1]) &&
           list_kept(parts[0], parts[1], 2, lens[2]);
    put(&answer, 4);
    put(&kept, 4);
    put(written, sizeof written);
    put(room, room_len + 2 * GUARD);
}

/* The kind, the corners, and the answer between eight entries on either side. */
static void ask_why(void) {
    uint16_t kind, corners[8], answer[26];
    get(&kind, sizeof kind);
    get(corners, sizeof corners);
    get(answer, sizeof answer);
    uint32_t refused = opalcrumb_why(LENT(file, file_len), file_len, kind, corners, answer + 8), kept = file_kept();
    put(&refused, 4);
    put(&kept, 4);
    put(corners, sizeof corners);
    put(answer, sizeof answer);
}

int main(void) {
    for (;;) {
        switch (get32()) {
        case 0: take_file(); break;
        case 1: ask_check(); break;
        case 2: ask_box(); break;
        case 3: ask_least(); break;
        case 4: ask_portion(); break;
        case 5: ask_write(); break;
        case 6: ask_why(); break;
        default: return 4;
        }
    }
}
