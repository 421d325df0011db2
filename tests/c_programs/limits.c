/* The limit, and where the record's version changes: 255, 256 and 4,000 symbols are accepted, 4,001
 * refused; each buffer also one element too short. Then records that unpack refuses. The status is
 * 0, or tells the check that fails. */
#include <string.h>

#include "slatmonief.h"

enum { CELLS = SLATMONIEF_MOST_CELLS, POINTS = SLATMONIEF_MOST_CODE_POINTS, BLANK = 200 };
static uint32_t text[POINTS + 1], spelled[POINTS + 1];
static uint8_t symbols[4001], row[CELLS + 11], record[5507], sent[POINTS], buffer[CELLS + 11];

/* Whether an answer has these numbers. */
static int is(slatmonief_answer a, uint32_t number, size_t second)
{
    return a.number == number && a.second == second;
}

/* Whether the buffer is as it was lent, from this place on. */
static int blank_from(size_t place)
{
    while (place < sizeof buffer)
        if (buffer[place++] != BLANK) return 0;
    return 1;
}

static void blank(void) { memset(buffer, BLANK, sizeof buffer); }

typedef slatmonief_answer job(const uint8_t *input, size_t input_len, uint8_t *out, size_t out_len);

/* Whether a job refuses by these numbers and writes nothing. */
static int refuses(job *call, const uint8_t *input, size_t len, size_t room, uint32_t number, size_t second)
{
    blank();
    return is(call(input, len, buffer, room), number, second) && blank_from(0);
}

/* Whether a job is accepted with this number, and writes this and no more. */
static int writes(job *call, const uint8_t *input, size_t len, size_t room, const uint8_t *out, size_t out_len, size_t second)
{
    blank();
    if (!is(call(input, len, buffer, room), 0, second)) return 0;
    return memcmp(buffer, out, out_len) == 0 && blank_from(out_len);
}

/* The same, with just the room for it and with more; and whether it refuses by 5 with less. */
static int gives(job *call, const uint8_t *input, size_t len, const uint8_t *out, size_t out_len, size_t second)
{
    if (!writes(call, input, len, out_len, out, out_len, second)) return 0;
    if (!writes(call, input, len, sizeof buffer, out, out_len, second)) return 0;
    return refuses(call, input, len, out_len - 1, 5, out_len) && refuses(call, input, len, 0, 5, out_len);
}

/* Whether the check in the row of `letters` is that of 104 and then 33 at each place. */
static int checked(size_t n)
{
    const uint8_t list[2] = {103, (104 + 33 * (n * (n - 1) / 2)) % 103};
    blank();
    if (!is(slatmonief_draw(list, 2, buffer, sizeof buffer), 0, 2)) return 0;
    return memcmp(buffer + 11, row + 11 * n, 11) == 0;
}

/* A label of n symbols in set B, all A: encode, draw, read and scan. */
static int letters(size_t n)
{
    size_t cells = 11 * (n + 1) + 13;
    text[0] = 0x181, symbols[0] = 104;
    for (size_t i = 1; i < n; i++) text[i] = 'A', symbols[i] = 33, sent[i - 1] = 'A';
    blank();
    if (!is(slatmonief_encode(text, n, buffer, cells - 1), 5, cells) || !blank_from(0)) return 0;
    if (!is(slatmonief_encode(text, n, buffer, cells), 0, n) || !blank_from(cells)) return 0;
    memcpy(row, buffer, cells);
    if (!checked(n) || !gives(slatmonief_draw, symbols, n, row, cells, n)) return 0;
    if (!gives(slatmonief_read, row, cells, symbols, n, n)) return 0;
    return gives(slatmonief_scan, symbols, n, sent, n - 1, n - 1);
}

/* A list of n symbols in set C, all 37: scan, spell, and encode of what is spelled. */
static int pairs(size_t n)
{
    size_t points = 2 * n - 1;
    text[0] = 0x106, symbols[0] = 105;
    for (size_t i = 1; i < n; i++) {
        text[2 * i - 1] = sent[2 * i - 2] = '3';
        text[2 * i] = sent[2 * i - 1] = '7';
        symbols[i] = 37;
    }
    if (!gives(slatmonief_scan, symbols, n, sent, points - 1, points - 1)) return 0;
    spelled[0] = spelled[points] = BLANK;
    if (!is(slatmonief_spell(symbols, n, spelled, points - 1), 5, points) || spelled[0] != BLANK) return 0;
    if (!is(slatmonief_spell(symbols, n, spelled, points + 1), 0, points)) return 0;
    if (memcmp(spelled, text, points * sizeof text[0]) != 0 || spelled[points] != BLANK) return 0;
    size_t cells = 11 * (n + 1) + 13;
    blank();
    if (!is(slatmonief_encode(text, points, buffer, cells - 1), 5, cells) || !blank_from(0)) return 0;
    if (!is(slatmonief_encode(text, points, buffer, cells), 0, n) || !blank_from(cells)) return 0;
    memcpy(row, buffer, cells);
    return gives(slatmonief_read, row, cells, symbols, n, n);
}

/* Pack and unpack of the row that `letters` leaves, whose record has this length. */
static int records(size_t n, size_t length)
{
    size_t cells = 11 * (n + 1) + 13, head = n <= 255 ? 2 : 3;
    memset(record, 0, sizeof record);
    record[0] = n <= 255 ? 1 : 2;
    record[1] = n <= 255 ? n : n / 256;
    if (n > 255) record[2] = n % 256;
    for (size_t i = 0; i < cells; i++) record[head + i / 8] |= row[i] << (7 - i % 8);
    if (!gives(slatmonief_pack, row, cells, record, length, length)) return 0;
    if (!gives(slatmonief_unpack, record, length, row, cells, cells)) return 0;
    if (!refuses(slatmonief_unpack, record, length - 1, CELLS, 22, length)) return 0;
    return refuses(slatmonief_unpack, record, length + 1, CELLS, 22, length);
}

/* 4,001 symbols, and rows of lengths that no list up to 4,000 has. */
static int too_long(void)
{
    text[0] = 0x181, symbols[0] = 104;
    for (size_t i = 1; i < 4001; i++) text[i] = 'A', symbols[i] = 33;
    blank();
    if (!is(slatmonief_encode(text, 4001, buffer, sizeof buffer), 4, 4001) || !blank_from(0)) return 0;
    if (!refuses(slatmonief_draw, symbols, 4001, sizeof buffer, 10, 4001)) return 0;
    if (!refuses(slatmonief_scan, symbols, 4001, sizeof buffer, 10, 4001)) return 0;
    spelled[0] = BLANK;
    if (!is(slatmonief_spell(symbols, 4001, spelled, POINTS + 1), 10, 4001) || spelled[0] != BLANK) return 0;
    for (size_t cells = CELLS - 1; cells <= CELLS + 11; cells++) {
        if (cells == CELLS) continue;
        if (!refuses(slatmonief_read, row, cells, sizeof buffer, 10, cells)) return 0;
        if (!refuses(slatmonief_pack, row, cells, sizeof buffer, 10, cells)) return 0;
    }
    return 1;
}

/* Heads that unpack refuses. */
static int heads(void)
{
    const struct { uint8_t bytes[3]; size_t len; uint32_t number; size_t second; } cases[] = {
        {{2}, 1, 20, 1}, {{0, 9}, 2, 21, 0}, {{3, 9}, 2, 21, 3}, {{1, 0}, 2, 22, 0}, {{2, 1}, 2, 22, 0},
        {{2, 0, 0}, 3, 22, 0}, {{2, 0, 255}, 3, 22, 0}, {{2, 15, 161}, 3, 22, 0}, {{2, 255, 255}, 3, 22, 0},
        {{1, 255}, 2, 22, 356}, {{2, 1, 0}, 3, 22, 358}, {{2, 15, 160}, 3, 22, 5506},
    };
    for (size_t i = 0; i < sizeof cases / sizeof cases[0]; i++)
        if (!refuses(slatmonief_unpack, cases[i].bytes, cases[i].len, CELLS, cases[i].number, cases[i].second))
            return 0;
    return 1;
}

int main(void)
{
    if (!letters(255) || !records(255, 356) || !pairs(255)) return 1;
    if (!letters(256) || !records(256, 358) || !pairs(256)) return 2;
    if (!letters(4000) || !records(4000, 5506) || !pairs(4000)) return 3;
    if (SLATMONIEF_MOST_SYMBOLS != 4000 || CELLS != 11 * 4001 + 13 || POINTS != 2 * 4000 - 1) return 4;
    if (SLATMONIEF_MOST_SCANNED != POINTS - 1 || SLATMONIEF_MOST_RECORD != 5506) return 4;
    if (!too_long()) return 5;
    return heads() ? 0 : 6;
}
