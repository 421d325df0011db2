/* Calls from many threads at once: threads ROUNDS. Each of eight threads makes rounds of calls of
 * all nine jobs with buffers of its own, and the sum of the answers and of the buffers in each
 * round must be that of one thread alone. The status is 0, or tells the check that fails. It
 * declares what it calls of the C library where that has no headers, so that on Arm the program
 * also runs without the bridge. */
#include "slatmonief.h"

#if __STDC_HOSTED__
#include <pthread.h>
#include <stdlib.h>
#else
typedef unsigned long pthread_t;
int pthread_create(pthread_t *thread, const void *how, void *(*run)(void *), void *with);
int pthread_join(pthread_t thread, void **given);
int atoi(const char *digits);
#endif

enum { THREADS = 8, MOST_ROUNDS = 10000, MOST = 300, CELLS = SLATMONIEF_CELLS(MOST), RECORD = 420 };
enum { BARS = SLATMONIEF_EAN13_CELLS, DIGITS = SLATMONIEF_EAN13_DIGITS };

struct work {
    uint64_t chance, sum, sums[MOST_ROUNDS];
    uint32_t text[MOST], spelled[2 * MOST];
    uint8_t row[CELLS], symbols[MOST], sent[2 * MOST], record[RECORD];
    uint8_t digits[DIGITS], bars[BARS], number[DIGITS];
};
static struct work alone[THREADS], together[THREADS];
static int rounds;

/* A number below a bound, by chance that is the same in every run. */
static uint32_t below(struct work *w, uint32_t bound)
{
    w->chance = w->chance * 6364136223846793005u + 1442695040888963407u;
    return (uint32_t)(w->chance >> 33) % bound;
}

/* Takes an answer and the whole buffer beside it into the sum. Returns the second number. */
static size_t add(struct work *w, slatmonief_answer a, const void *buffer, size_t size)
{
    w->sum = (w->sum ^ a.number) * 1099511628211u;
    w->sum = (w->sum ^ a.second) * 1099511628211u;
    const uint8_t *bytes = buffer;
    for (size_t i = 0; i < size; i++) w->sum = (w->sum ^ bytes[i]) * 1099511628211u;
    return a.second;
}

/* A label in set B of up to 20 symbols, or now and then of up to 300, with FNC2 in one of 16. */
static size_t label(struct work *w)
{
    size_t n = 1 + below(w, below(w, 8) == 0 ? MOST : 20);
    w->text[0] = 0x181;
    for (size_t i = 1; i < n; i++) w->text[i] = 32 + below(w, 95);
    if (n > 1 && below(w, 16) == 0) w->text[n - 1] = 0x17A;
    return n;
}

/* The seven jobs of Code 128, there and back, and then with a damaged row and a damaged record. */
static void code128(struct work *w)
{
    size_t points = label(w);
    size_t n = add(w, slatmonief_encode(w->text, points, w->row, CELLS), w->row, CELLS);
    size_t cells = SLATMONIEF_CELLS(points);
    add(w, slatmonief_read(w->row, cells, w->symbols, MOST), w->symbols, MOST);
    add(w, slatmonief_spell(w->symbols, n, w->spelled, 2 * MOST), w->spelled, sizeof w->spelled);
    add(w, slatmonief_scan(w->symbols, n, w->sent, 2 * MOST), w->sent, 2 * MOST);
    add(w, slatmonief_draw(w->symbols, n, w->row, CELLS), w->row, CELLS);
    size_t bytes = add(w, slatmonief_pack(w->row, cells, w->record, RECORD), w->record, RECORD);
    w->row[below(w, (uint32_t)cells)] ^= 1;
    add(w, slatmonief_read(w->row, cells, w->symbols, MOST), w->symbols, MOST);
    add(w, slatmonief_unpack(w->record, bytes, w->row, CELLS), w->row, CELLS);
    w->record[below(w, 3)] ^= 1 + below(w, 255);
    add(w, slatmonief_unpack(w->record, bytes, w->row, CELLS), w->row, CELLS);
}

/* The two jobs of EAN-13, there and back, and then with a damaged number and a damaged row. */
static void ean13(struct work *w)
{
    for (int i = 0; i < DIGITS; i++) w->digits[i] = (uint8_t)('0' + below(w, 10));
    add(w, slatmonief_ean13_write(w->digits, DIGITS - 1, w->bars, BARS), w->bars, BARS);
    add(w, slatmonief_ean13_read(w->bars, BARS, w->number, DIGITS), w->number, DIGITS);
    add(w, slatmonief_ean13_write(w->digits, DIGITS, w->bars, BARS), w->bars, BARS);
    w->digits[below(w, DIGITS)] ^= 1 + below(w, 255);
    add(w, slatmonief_ean13_write(w->digits, DIGITS, w->bars, BARS), w->bars, BARS);
    w->bars[below(w, BARS)] ^= 1;
    add(w, slatmonief_ean13_read(w->bars, BARS, w->number, DIGITS), w->number, DIGITS);
}

static void *all_rounds(void *with)
{
    struct work *w = with;
    for (int i = 0; i < rounds; i++) {
        code128(w);
        ean13(w);
        w->sums[i] = w->sum;
    }
    return with;
}

int main(int count, char **words)
{
    pthread_t threads[THREADS];
    rounds = count == 2 ? atoi(words[1]) : 0;
    if (rounds < 1 || rounds > MOST_ROUNDS) return 5;
    for (uint64_t i = 0; i < THREADS; i++) alone[i].chance = together[i].chance = i;
    for (int i = 0; i < THREADS; i++) all_rounds(&alone[i]);
    for (int i = 0; i < THREADS; i++)
        if (pthread_create(&threads[i], NULL, all_rounds, &together[i]) != 0) return 1;
    for (int i = 0; i < THREADS; i++) {
        void *given;
        if (pthread_join(threads[i], &given) != 0 || given != &together[i]) return 2;
    }
    for (int i = 0; i < THREADS; i++)
        for (int j = 0; j < rounds; j++)
            if (alone[i].sums[j] != together[i].sums[j]) return 3;
    return alone[0].sum == alone[1].sum ? 4 : 0;
}
