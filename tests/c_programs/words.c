/* The names and the words of the numbers, and the cells of n symbols. The library gives every
 * number that has a name where it should, each has words of its own, and no other number has words.
 * Prints each number with its words. The status is 0, or tells the check that fails. */
#include <stdio.h>
#include <string.h>

#include "slatmonief.h"

enum { PLACES = 22, CELLS = SLATMONIEF_CELLS(2), BARS = SLATMONIEF_EAN13_CELLS };
static const struct { uint32_t name, number; } named[PLACES] = {
    {SLATMONIEF_ACCEPTED, 0}, {SLATMONIEF_NO_SCALAR, 1}, {SLATMONIEF_TEXT_TOO_SHORT, 2},
    {SLATMONIEF_PARSING_STOPS, 3}, {SLATMONIEF_TOO_MANY_SYMBOLS, 4},
    {SLATMONIEF_BUFFER_TOO_SHORT, 5}, {SLATMONIEF_NO_SUCH_LENGTH, 10}, {SLATMONIEF_NO_CELL, 11},
    {SLATMONIEF_NO_PATTERN_EVEN, 12},
    {SLATMONIEF_WRONG_SYMBOL, 13}, {SLATMONIEF_WRONG_CHECK, 14}, {SLATMONIEF_WRONG_STOP, 15},
    {SLATMONIEF_NO_PATTERN_ODD, 16}, {SLATMONIEF_RETIRED, 19}, {SLATMONIEF_NO_HEAD, 20},
    {SLATMONIEF_NO_SUCH_VERSION, 21}, {SLATMONIEF_WRONG_COUNT, 22}, {SLATMONIEF_SPARE_BIT, 23},
    {SLATMONIEF_NO_SUCH_TEXT_LENGTH, 30}, {SLATMONIEF_NO_DIGIT, 31},
    {SLATMONIEF_WRONG_CHECK_DIGIT, 32}, {SLATMONIEF_NO_ROW, 33},
};
static const uint32_t text[] = {0x181, 'A'};
static const uint8_t list[] = {104, 33}, other[] = {104, 34};
static uint8_t row[SLATMONIEF_MOST_CELLS], record[8], symbols[2];

/* The place of a number in the list, or PLACES. */
static int place(uint32_t number)
{
    int i = 0;
    while (i < PLACES && named[i].number != number) i++;
    return i;
}

/* Whether a number has the words that it should have: its own, or those of an unknown one. */
static int worded(uint32_t number)
{
    const char *words = slatmonief_words(number);
    if (place(number) == PLACES) return strcmp(words, "unknown number") == 0;
    for (int i = 0; i < PLACES; i++) {
        uint32_t another = named[i].number;
        if (another != number && strcmp(words, slatmonief_words(another)) == 0) return 0;
    }
    return strlen(words) > 0 && strcmp(words, "unknown number") != 0;
}

/* The number that encode answers to one or two code points. */
static uint32_t encoded(uint32_t first, uint32_t second, size_t length)
{
    const uint32_t points[] = {first, second};
    return slatmonief_encode(points, length, row, sizeof row).number;
}

/* Whether the refusals of encode and of a list are those of their names. */
static int written(void)
{
    static uint32_t most[SLATMONIEF_MOST_SYMBOLS + 1] = {0x181};
    for (size_t i = 1; i <= SLATMONIEF_MOST_SYMBOLS; i++) most[i] = 'A';
    slatmonief_answer a = slatmonief_encode(most, SLATMONIEF_MOST_SYMBOLS + 1, row, sizeof row);
    if (a.number != SLATMONIEF_TOO_MANY_SYMBOLS) return 0;
    if (encoded(0x181, 0xD800, 2) != SLATMONIEF_NO_SCALAR) return 0;
    if (encoded('A', 0, 1) != SLATMONIEF_TEXT_TOO_SHORT) return 0;
    if (encoded(0x181, 0x20AC, 2) != SLATMONIEF_PARSING_STOPS) return 0;
    if (encoded(0x181, 0x17A, 2) != SLATMONIEF_RETIRED) return 0;
    a = slatmonief_draw(list, 2, row, CELLS - 1);
    if (a.number != SLATMONIEF_BUFFER_TOO_SHORT || a.second != CELLS) return 0;
    return slatmonief_draw(list + 1, 1, row, CELLS).number == SLATMONIEF_WRONG_SYMBOL;
}

/* The number that read answers to the row of 104 33 after bits of two of its cells are flipped. */
static uint32_t damaged(size_t first, uint8_t first_bits, size_t second, uint8_t second_bits)
{
    slatmonief_encode(text, 2, row, CELLS);
    row[first] ^= first_bits;
    row[second] ^= second_bits;
    return slatmonief_read(row, CELLS, symbols, 2).number;
}

/* Whether the refusals of read are those of their names. */
static int read_back(void)
{
    if (damaged(0, 0, 1, 0) != SLATMONIEF_ACCEPTED) return 0;
    if (slatmonief_read(row, CELLS - 1, symbols, 2).number != SLATMONIEF_NO_SUCH_LENGTH) return 0;
    if (damaged(0, 2, 1, 0) != SLATMONIEF_NO_CELL) return 0;
    if (damaged(11, 1, 12, 0) != SLATMONIEF_NO_PATTERN_ODD) return 0;
    if (damaged(11, 1, 12, 1) != SLATMONIEF_NO_PATTERN_EVEN) return 0;
    if (damaged(CELLS - 1, 1, 0, 0) != SLATMONIEF_WRONG_STOP) return 0;
    uint8_t of_other[CELLS];
    slatmonief_draw(other, 2, of_other, CELLS);
    slatmonief_draw(list, 2, row, CELLS);
    memcpy(row + 11, of_other + 11, 11);
    return slatmonief_read(row, CELLS, symbols, 2).number == SLATMONIEF_WRONG_CHECK;
}

/* The number that unpack answers to the record of 104 33 with one byte exchanged. */
static uint32_t unpacked(size_t at, uint8_t byte, size_t length)
{
    slatmonief_draw(list, 2, row, CELLS);
    slatmonief_pack(row, CELLS, record, sizeof record);
    record[at] = byte;
    return slatmonief_unpack(record, length, row, CELLS).number;
}

/* Whether the refusals of unpack are those of their names. */
static int unpacks(void)
{
    if (unpacked(0, 1, 8) != SLATMONIEF_ACCEPTED) return 0;
    if (unpacked(0, 1, 1) != SLATMONIEF_NO_HEAD) return 0;
    if (unpacked(0, 3, 8) != SLATMONIEF_NO_SUCH_VERSION) return 0;
    if (unpacked(1, 3, 8) != SLATMONIEF_WRONG_COUNT) return 0;
    return unpacked(7, 0xFF, 8) == SLATMONIEF_SPARE_BIT;
}

/* The number that write of EAN-13 answers to a string, without its NUL. */
static uint32_t goods(const char *digits)
{
    return slatmonief_ean13_write((const uint8_t *)digits, strlen(digits), row, BARS).number;
}

/* Whether the refusals of the calls for EAN-13 are those of their names. */
static int ean13(void)
{
    uint8_t digits[SLATMONIEF_EAN13_DIGITS];
    if (goods("40063813339") != SLATMONIEF_NO_SUCH_TEXT_LENGTH) return 0;
    if (goods("400638133393x") != SLATMONIEF_NO_DIGIT) return 0;
    if (goods("4006381333932") != SLATMONIEF_WRONG_CHECK_DIGIT) return 0;
    if (goods("4006381333931") != SLATMONIEF_ACCEPTED) return 0;
    slatmonief_answer a = slatmonief_ean13_read(row, BARS, digits, sizeof digits);
    if (a.number != SLATMONIEF_ACCEPTED || a.second != sizeof digits) return 0;
    if (memcmp(digits, "4006381333931", sizeof digits) != 0) return 0;
    a = slatmonief_ean13_read(row, BARS, digits, sizeof digits - 1);
    if (a.number != SLATMONIEF_BUFFER_TOO_SHORT || a.second != sizeof digits) return 0;
    if (slatmonief_read(row, BARS, symbols, 2).number != SLATMONIEF_NO_SUCH_LENGTH) return 0;
    a = slatmonief_ean13_read(row + 1, BARS, digits, sizeof digits);
    return a.number == SLATMONIEF_NO_ROW && a.second == 0;
}

/* Whether SLATMONIEF_CELLS gives what draw says is needed, for every length of a list. */
static int cells(void)
{
    static uint8_t longest[SLATMONIEF_MOST_SYMBOLS] = {104};
    for (size_t n = 1; n <= SLATMONIEF_MOST_SYMBOLS; n++)
        if (slatmonief_draw(longest, n, row, 0).second != SLATMONIEF_CELLS(n)) return 0;
    if (SLATMONIEF_CELLS(longest[0] ? 2 : 3) * 2 != CELLS * 2) return 0;
    return SLATMONIEF_CELLS(SLATMONIEF_MOST_SYMBOLS) == SLATMONIEF_MOST_CELLS;
}

int main(void)
{
    for (int i = 0; i < PLACES; i++)
        if (named[i].name != named[i].number) return 1;
    for (uint32_t number = 0; number < 100000; number++)
        if (!worded(number) || !worded(UINT32_MAX - number)) return 2;
    if (!written()) return 3;
    if (!read_back()) return 4;
    if (!unpacks()) return 5;
    if (!ean13()) return 6;
    if (!cells()) return 7;
    for (int i = 0; i < PLACES; i++)
        printf("%u %s\n", (unsigned)named[i].number, slatmonief_words(named[i].number));
    return 0;
}
