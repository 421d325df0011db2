/* Times each job of this library beside the same job of an earlier one, whose names begin with
   before_. The two are called in turn on the same labels, and the medians of the rounds are
   compared: a ratio above 1 is slower than before. Longer labels, which the earlier library may
   refuse, are timed with this library alone. */
#define _POSIX_C_SOURCE 199309L
#include "slatmonief.h"
#include <stdio.h>
#include <stdlib.h>
#include <string.h>
#include <time.h>

slatmonief_answer before_slatmonief_encode(const uint32_t *, size_t, uint8_t *, size_t);
slatmonief_answer before_slatmonief_draw(const uint8_t *, size_t, uint8_t *, size_t);
slatmonief_answer before_slatmonief_read(const uint8_t *, size_t, uint8_t *, size_t);
slatmonief_answer before_slatmonief_spell(const uint8_t *, size_t, uint32_t *, size_t);
slatmonief_answer before_slatmonief_scan(const uint8_t *, size_t, uint8_t *, size_t);
slatmonief_answer before_slatmonief_pack(const uint8_t *, size_t, uint8_t *, size_t);
slatmonief_answer before_slatmonief_unpack(const uint8_t *, size_t, uint8_t *, size_t);

enum { ROUNDS = 401, CELLS = SLATMONIEF_MOST_CELLS, POINTS = SLATMONIEF_MOST_CODE_POINTS };

/* A label in every form that a job takes. */
typedef struct {
    uint32_t *text;
    uint8_t *symbols, *row, *record;
    size_t n, text_len, row_len, record_len;
} label;

/* More short labels than long ones, so that the processor does not learn them by heart. */
static label labels[256];
static size_t count;
static uint32_t points[POINTS];
static uint8_t cells[CELLS];
static volatile size_t sink;

static double nanoseconds(void) {
    struct timespec t;
    clock_gettime(CLOCK_MONOTONIC, &t);
    return t.tv_sec * 1e9 + t.tv_nsec;
}

static int by_size(const void *a, const void *b) {
    double x = *(const double *)a, y = *(const double *)b;
    return (x > y) - (x < y);
}

/* Each job as a call of one library: WHOSE is now_ or before_. */
#define DEFINE(WHOSE, JOB, IN, LENGTH, OUT, ROOM) \
    static slatmonief_answer WHOSE##JOB(const label *l) { \
        return WHOSE##slatmonief_##JOB(l->IN, l->LENGTH, OUT, ROOM); \
    }
#define JOBS(WHOSE) \
    DEFINE(WHOSE, encode, text, text_len, cells, CELLS) \
    DEFINE(WHOSE, draw, symbols, n, cells, CELLS) \
    DEFINE(WHOSE, read, row, row_len, cells, CELLS) \
    DEFINE(WHOSE, spell, symbols, n, points, POINTS) \
    DEFINE(WHOSE, scan, symbols, n, cells, CELLS) \
    DEFINE(WHOSE, pack, row, row_len, cells, CELLS) \
    DEFINE(WHOSE, unpack, record, record_len, cells, CELLS)
#define now_slatmonief_encode slatmonief_encode
#define now_slatmonief_draw slatmonief_draw
#define now_slatmonief_read slatmonief_read
#define now_slatmonief_spell slatmonief_spell
#define now_slatmonief_scan slatmonief_scan
#define now_slatmonief_pack slatmonief_pack
#define now_slatmonief_unpack slatmonief_unpack
JOBS(now_)
JOBS(before_)

typedef slatmonief_answer call(const label *);

/* A job in both libraries and, where one is set, the limit of its ratio up to n = 14 and above. */
typedef struct {
    const char *name;
    call *now, *before;
    double most_short, most_long;
} job;
static const job jobs[] = {
    {"encode", now_encode, before_encode, 1.15, 1.05}, {"draw", now_draw, before_draw, 0, 0},
    {"read", now_read, before_read, 1.15, 1.05}, {"spell", now_spell, before_spell, 0, 0},
    {"scan", now_scan, before_scan, 0, 0}, {"pack", now_pack, before_pack, 0, 0},
    {"unpack", now_unpack, before_unpack, 0, 0},
};
enum { HOW_MANY = sizeof jobs / sizeof *jobs };

/* The sets: mixed has any START, switches and no 97, which encode refuses in sets A and B. */
static const char *const sets[] = {"A", "B", "C", "mixed"};
static const int ends[] = {96, 96, 100, 103};
enum { MIXED = 3, SETS = 4 };

/* Gives a label n random symbols of a set, and from these its other forms. */
static void fill(label *l, int set, size_t n) {
    l->n = n;
    l->row_len = 11 * n + 24;
    l->symbols = realloc(l->symbols, n);
    l->text = realloc(l->text, 2 * n * sizeof *l->text);
    l->row = realloc(l->row, l->row_len);
    l->record = realloc(l->record, l->row_len);
    if (!l->symbols || !l->text || !l->row || !l->record) abort();
    l->symbols[0] = (uint8_t)(103 + (set == MIXED ? rand() % 3 : set));
    for (size_t i = 1; i < n; i++) {
        int number = rand() % ends[set];
        l->symbols[i] = (uint8_t)(set == MIXED && number == 97 ? 96 : number);
    }
    if (slatmonief_draw(l->symbols, n, l->row, l->row_len).number != 0) abort();
    l->text_len = slatmonief_spell(l->symbols, n, l->text, 2 * n).second;
    l->record_len = slatmonief_pack(l->row, l->row_len, l->record, l->row_len).second;
}

static void make(int set, size_t n) {
    srand(7);
    count = 4096 / n < 4 ? 4 : 4096 / n > 256 ? 256 : 4096 / n;
    for (size_t i = 0; i < count; i++) fill(&labels[i], set, n);
}

/* The nanoseconds of a call, on average over all labels. Short ones are gone over several times. */
static double timed(call *of) {
    size_t turns = 1 + 8 / labels[0].n;
    double began = nanoseconds();
    for (size_t t = 0; t < turns; t++)
        for (size_t i = 0; i < count; i++) sink += of(&labels[i]).second;
    return (nanoseconds() - began) / (double)(turns * count);
}

static double median(double *times) {
    qsort(times, ROUNDS, sizeof *times, by_size);
    return times[ROUNDS / 2];
}

static double ratio(const job *j) {
    static double now[ROUNDS], before[ROUNDS];
    for (int r = 0; r < ROUNDS; r++) {
        if (r & 1) now[r] = timed(j->now);
        before[r] = timed(j->before);
        if (!(r & 1)) now[r] = timed(j->now);
    }
    return median(now) / median(before);
}

static double alone(const job *j) {
    static double times[ROUNDS];
    for (int r = 0; r < ROUNDS; r++) times[r] = timed(j->now);
    return median(times);
}

/* The ratios of all jobs, and which limits they keep: they are set at n = 2, 14, 50 and 255. */
static void compare(void) {
    static const size_t sizes[] = {1, 2, 14, 50, 64, 255};
    static char missed[HOW_MANY * SETS * 6 * 64];
    int asked = 0, reached = 0;
    printf("| job | set | n = 1 | 2 | 14 | 50 | 64 | 255 |\n|---|---|---|---|---|---|---|---|\n");
    for (const job *j = jobs; j < jobs + HOW_MANY; j++)
        for (int set = 0; set < SETS; set++) {
            printf("| %s | %s |", j->name, sets[set]);
            for (const size_t *n = sizes; n < sizes + 6; n++) {
                make(set, *n);
                double now = ratio(j), most = *n <= 14 ? j->most_short : j->most_long;
                printf(" %.2f |", now);
                fflush(stdout);
                if (most == 0 || *n == 1 || *n == 64) continue;
                asked++;
                if (now <= most) reached++;
                else sprintf(missed + strlen(missed), "- Not reached: %s, %s, %zu: %.3f, "
                             "limit %.2f\n", j->name, sets[set], *n, now, most);
            }
            printf("\n");
        }
    printf("\nLimits (encode and read at most 1.15 at n = 2 and 14, 1.05 at n = 50 and 255): "
           "%d of %d reached.\n%s", reached, asked, missed);
}

/* The time of this library alone, on longer labels too. */
static void lengthen(void) {
    static const size_t sizes[] = {255, 1000, 4000};
    printf("\nThis library alone, ns per symbol:\n\n"
           "| job | set | n = 255 | 1,000 | 4,000 |\n|---|---|---|---|---|\n");
    for (const job *j = jobs; j < jobs + HOW_MANY; j++)
        for (int set = 0; set < SETS; set++) {
            printf("| %s | %s |", j->name, sets[set]);
            for (const size_t *n = sizes; n < sizes + 3; n++) {
                make(set, *n);
                printf(" %.2f |", alone(j) / (double)*n);
            }
            printf("\n");
        }
}

int main(void) {
    compare();
    lengthen();
    return 0;
}
