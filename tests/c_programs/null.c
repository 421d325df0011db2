/* NULL with length 0, as an empty std::vector gives it: for the input, for the lent buffer and for
 * both, in every call. The status is 0, or tells the check that fails. Nothing of the C library is
 * called, so that on Arm the program also runs without the bridge. */
#include "slatmonief.h"

enum { CELLS = SLATMONIEF_CELLS(2), BARS = SLATMONIEF_EAN13_CELLS, ROOM = 128, BLANK = 200 };
static const uint32_t text[] = {0x181, 'A'};
static const uint8_t list[] = {104, 33};
static const uint8_t digits[] = {'4', '0', '0', '6', '3', '8', '1', '3', '3', '3', '9', '3', '1'};
static uint8_t row[CELLS], bars[BARS], record[8], lent[ROOM];
static uint32_t points[ROOM];

static int is(slatmonief_answer a, uint32_t number, size_t second)
{
    return a.number == number && a.second == second;
}

/* No input: each call refuses it as it refuses an empty one. The status is 0, or the call. */
static int no_input(uint8_t *to, uint32_t *to_points, size_t room)
{
    if (!is(slatmonief_encode(NULL, 0, to, room), SLATMONIEF_TEXT_TOO_SHORT, 0)) return 1;
    if (!is(slatmonief_draw(NULL, 0, to, room), SLATMONIEF_NO_SUCH_LENGTH, 0)) return 2;
    if (!is(slatmonief_read(NULL, 0, to, room), SLATMONIEF_NO_SUCH_LENGTH, 0)) return 3;
    if (!is(slatmonief_spell(NULL, 0, to_points, room), SLATMONIEF_NO_SUCH_LENGTH, 0)) return 4;
    if (!is(slatmonief_scan(NULL, 0, to, room), SLATMONIEF_NO_SUCH_LENGTH, 0)) return 5;
    if (!is(slatmonief_pack(NULL, 0, to, room), SLATMONIEF_NO_SUCH_LENGTH, 0)) return 6;
    if (!is(slatmonief_unpack(NULL, 0, to, room), SLATMONIEF_NO_HEAD, 0)) return 7;
    if (!is(slatmonief_ean13_write(NULL, 0, to, room), SLATMONIEF_NO_SUCH_TEXT_LENGTH, 0)) return 8;
    if (!is(slatmonief_ean13_read(NULL, 0, to, room), SLATMONIEF_NO_ROW, 0)) return 9;
    return 0;
}

/* No buffer: each call says what it needs. Scan needs nothing for a START alone, and accepts it. */
static int no_buffer(void)
{
    if (!is(slatmonief_encode(text, 2, NULL, 0), SLATMONIEF_BUFFER_TOO_SHORT, CELLS)) return 11;
    if (!is(slatmonief_draw(list, 2, NULL, 0), SLATMONIEF_BUFFER_TOO_SHORT, CELLS)) return 12;
    if (!is(slatmonief_read(row, CELLS, NULL, 0), SLATMONIEF_BUFFER_TOO_SHORT, 2)) return 13;
    if (!is(slatmonief_spell(list, 2, NULL, 0), SLATMONIEF_BUFFER_TOO_SHORT, 2)) return 14;
    if (!is(slatmonief_scan(list, 2, NULL, 0), SLATMONIEF_BUFFER_TOO_SHORT, 1)) return 15;
    if (!is(slatmonief_pack(row, CELLS, NULL, 0), SLATMONIEF_BUFFER_TOO_SHORT, 8)) return 16;
    if (!is(slatmonief_unpack(record, 8, NULL, 0), SLATMONIEF_BUFFER_TOO_SHORT, CELLS)) return 17;
    if (!is(slatmonief_scan(list, 1, NULL, 0), SLATMONIEF_ACCEPTED, 0)) return 18;
    if (!is(slatmonief_ean13_write(digits, 12, NULL, 0), SLATMONIEF_BUFFER_TOO_SHORT, 95)) return 19;
    if (!is(slatmonief_ean13_write(digits, 13, NULL, 0), SLATMONIEF_BUFFER_TOO_SHORT, 95)) return 19;
    if (!is(slatmonief_ean13_read(bars, BARS, NULL, 0), SLATMONIEF_BUFFER_TOO_SHORT, 13)) return 20;
    return 0;
}

/* No buffer, and an input that is refused for itself. */
static int no_buffer_refused(void)
{
    if (!is(slatmonief_encode(text + 1, 1, NULL, 0), SLATMONIEF_TEXT_TOO_SHORT, 0)) return 21;
    if (!is(slatmonief_draw(list + 1, 1, NULL, 0), SLATMONIEF_WRONG_SYMBOL, 0)) return 22;
    if (!is(slatmonief_read(row + 11, CELLS - 11, NULL, 0), SLATMONIEF_WRONG_SYMBOL, 0)) return 23;
    if (!is(slatmonief_spell(list + 1, 1, NULL, 0), SLATMONIEF_WRONG_SYMBOL, 0)) return 24;
    if (!is(slatmonief_scan(list + 1, 1, NULL, 0), SLATMONIEF_WRONG_SYMBOL, 0)) return 25;
    if (!is(slatmonief_pack(row, 9, NULL, 0), SLATMONIEF_NO_SUCH_LENGTH, 9)) return 26;
    if (!is(slatmonief_unpack(record, 7, NULL, 0), SLATMONIEF_WRONG_COUNT, 8)) return 27;
    if (!is(slatmonief_ean13_write(digits, 11, NULL, 0), SLATMONIEF_NO_SUCH_TEXT_LENGTH, 11)) return 28;
    if (!is(slatmonief_ean13_write(bars, 12, NULL, 0), SLATMONIEF_NO_DIGIT, 0)) return 28;
    if (!is(slatmonief_ean13_read(bars, BARS - 1, NULL, 0), SLATMONIEF_NO_ROW, 0)) return 29;
    return 0;
}

int main(void)
{
    for (int i = 0; i < ROOM; i++) lent[i] = points[i] = BLANK;
    if (!is(slatmonief_encode(text, 2, row, CELLS), SLATMONIEF_ACCEPTED, 2)) return 31;
    if (!is(slatmonief_pack(row, CELLS, record, 8), SLATMONIEF_ACCEPTED, 8)) return 32;
    if (!is(slatmonief_ean13_write(digits, 13, bars, BARS), SLATMONIEF_ACCEPTED, BARS)) return 33;
    int status = no_input(NULL, NULL, 0);
    if (status == 0) status = no_input(lent, points, ROOM);
    if (status == 0) status = no_buffer();
    if (status == 0) status = no_buffer_refused();
    for (int i = 0; i < ROOM; i++)
        if (lent[i] != BLANK || points[i] != BLANK) status = 34;
    return status;
}
