/* EAN-13: public numbers whose rows stand here, numbers by chance whose rows are drawn here, every
 * refusal with both numbers and in its order, and accepted rows with cells changed. Every buffer is
 * lent from the middle of a longer one, of which nothing else may change. The status is 0, or tells
 * the check that fails. Nothing of the C library is called, so that on Arm the program also runs
 * without the bridge. */
#include "slatmonief.h"

enum { CELLS = 95, DIGITS = 13, MOST = 200, GUARD = 32, ROOM = 128, BLANK = 200, ROWS = 4 };
static const struct { char digits[DIGITS + 1], cells[CELLS + 1]; } known[ROWS] = {
    {"4006381333931", "101" "0001101" "0100111" "0101111" "0111101" "0001001" "0110011" "01010"
                      "1000010" "1000010" "1000010" "1110100" "1000010" "1100110" "101"},
    {"9783161484100", "101" "0111011" "0001001" "0100001" "0011001" "0000101" "0011001" "01010"
                      "1011100" "1001000" "1011100" "1100110" "1110010" "1110010" "101"},
    {"9780201379624", "101" "0111011" "0001001" "0100111" "0010011" "0100111" "0011001" "01010"
                      "1000010" "1000100" "1110100" "1010000" "1101100" "1011100" "101"},
    {"0036000291452", "101" "0001101" "0111101" "0101111" "0001101" "0001101" "0001101" "01010"
                      "1101100" "1110100" "1100110" "1011100" "1001110" "1101100" "101"},
};
/* The digits in GS1's number set A. Set C has bars for its spaces and spaces for its bars, and set B
 * is set C from right to left. Then the sets of the six digits on the left, for each first digit. */
static const char set_a[10][8] = {"0001101", "0011001", "0010011", "0111101", "0100011",
                                  "0110001", "0101111", "0111011", "0110111", "0001011"};
static const char sets[10][7] = {"AAAAAA", "AABABB", "AABBAB", "AABBBA", "ABAABB",
                                 "ABBAAB", "ABBBAA", "ABABAB", "ABABBA", "ABBABA"};
static uint8_t text[MOST], row[MOST], around[GUARD + ROOM + GUARD], *const lent = around + GUARD;

typedef slatmonief_answer job(const uint8_t *input, size_t input_len, uint8_t *out, size_t out_len);

/* The answer of a job that gets a blank buffer with this room. */
static slatmonief_answer ask(job *call, const uint8_t *input, size_t len, size_t room)
{
    for (size_t i = 0; i < sizeof around; i++) around[i] = BLANK;
    return call(input, len, lent, room);
}

/* Whether nothing but the first elements of the lent buffer is written. */
static int blank_but(size_t count)
{
    for (size_t i = 0; i < sizeof around; i++)
        if ((i < GUARD || i >= GUARD + count) && around[i] != BLANK) return 0;
    return 1;
}

/* Whether a job refuses by these numbers and writes nothing. */
static int refused(job *call, const uint8_t *input, size_t len, size_t room, uint32_t number, size_t second)
{
    slatmonief_answer a = ask(call, input, len, room);
    return a.number == number && a.second == second && blank_but(0);
}

/* Whether a job refuses so with no room and with more than it needs. */
static int refuses(job *call, const uint8_t *input, size_t len, uint32_t number, size_t second)
{
    return refused(call, input, len, 0, number, second) && refused(call, input, len, ROOM, number, second);
}

/* Whether read refuses the row by 33. */
static int no_row(size_t len) { return refuses(slatmonief_ean13_read, row, len, 33, 0); }

/* Whether a job with this room writes this and no more. */
static int gives(job *call, const uint8_t *input, size_t len, size_t room, const uint8_t *out, size_t out_len)
{
    slatmonief_answer a = ask(call, input, len, room);
    if (a.number != 0 || a.second != out_len || !blank_but(out_len)) return 0;
    for (size_t i = 0; i < out_len; i++)
        if (lent[i] != out[i]) return 0;
    return 1;
}

/* Whether a job writes this with enough room, and with less refuses by 5. */
static int every_room(job *call, const uint8_t *input, size_t len, const uint8_t *out, size_t out_len)
{
    for (size_t room = 0; room < out_len; room++)
        if (!refused(call, input, len, room, 5, out_len)) return 0;
    for (size_t room = out_len; room <= ROOM; room++)
        if (!gives(call, input, len, room, out, out_len)) return 0;
    return 1;
}

/* Puts a known number into the text and its cells into the row. */
static void put(int k)
{
    for (int i = 0; i < DIGITS; i++) text[i] = (uint8_t)known[k].digits[i];
    for (int i = 0; i < CELLS; i++) row[i] = known[k].cells[i] == '1';
}

/* Whether read refuses the row upside down; it stays so. */
static int upside_down(void)
{
    for (size_t i = 0, j = CELLS - 1; i < j; i++, j--) {
        uint8_t cell = row[i];
        row[i] = row[j];
        row[j] = cell;
    }
    return no_row(CELLS);
}

/* A known number with its check digit and without, and its row read back. */
static int known_number(int k)
{
    put(k);
    if (!every_room(slatmonief_ean13_write, text, 12, row, CELLS)) return 0;
    if (!every_room(slatmonief_ean13_write, text, 13, row, CELLS)) return 0;
    return every_room(slatmonief_ean13_read, row, CELLS, text, DIGITS) && upside_down();
}

/* Lengths of a text other than 12 and 13: with digits and, since 30 comes before 31, with none. */
static int text_lengths(void)
{
    for (uint8_t byte = '0'; byte <= ':'; byte += 10) {
        for (size_t i = 0; i < MOST; i++) text[i] = byte;
        for (size_t len = 0; len <= MOST; len++) {
            if (len == 12 || len == 13) continue;
            if (!refuses(slatmonief_ean13_write, text, len, 30, len)) return 0;
        }
    }
    return 1;
}

/* Each byte that is no digit at each place: alone, with a wrong check digit and no room, since 31
 * comes before 32 and 5; and then in all places after it too. */
static int no_digit(size_t len)
{
    for (size_t place = 0; place < len; place++) {
        for (int byte = 0; byte < 256; byte++) {
            if (byte >= '0' && byte <= '9') continue;
            put(0);
            text[12] = '0';
            text[place] = (uint8_t)byte;
            if (!refused(slatmonief_ean13_write, text, len, 0, 31, place)) return 0;
            for (size_t i = place; i < len; i++) text[i] = (uint8_t)byte;
            if (!refused(slatmonief_ean13_write, text, len, ROOM, 31, place)) return 0;
        }
    }
    return 1;
}

/* Each wrong check digit of a known number. */
static int wrong_check(int k)
{
    put(k);
    uint8_t right = text[12];
    for (text[12] = '0'; text[12] <= '9'; text[12]++) {
        if (text[12] == right) continue;
        if (!refuses(slatmonief_ean13_write, text, 13, 32, right - '0')) return 0;
    }
    return 1;
}

/* Rows of other lengths: the front of a row, and a row with spaces after it. */
static int row_lengths(void)
{
    for (size_t i = 0; i < MOST; i++) row[i] = 0;
    put(0);
    for (size_t len = 0; len <= MOST; len++)
        if (len != CELLS && !no_row(len)) return 0;
    return 1;
}

/* Each cell of a known row made any other byte: the flipped cell, and all that are no cell. */
static int cells(int k)
{
    put(k);
    for (size_t place = 0; place < CELLS; place++) {
        uint8_t cell = row[place];
        for (int byte = 0; byte < 256; byte++) {
            row[place] = (uint8_t)byte;
            if (byte != cell && !no_row(CELLS)) return 0;
        }
        row[place] = cell;
    }
    return gives(slatmonief_ean13_read, row, CELLS, ROOM, text, DIGITS);
}

/* Cells from this place on changed to each other pattern of as many. */
static int changed(size_t place, size_t count)
{
    unsigned was = 0;
    for (size_t i = 0; i < count; i++) was = 2 * was + row[place + i];
    for (unsigned to = 0; to < 1u << count; to++) {
        for (size_t i = 0; i < count; i++) row[place + i] = to >> (count - 1 - i) & 1;
        if (to != was && !no_row(CELLS)) return 0;
    }
    for (size_t i = 0; i < count; i++) row[place + i] = was >> (count - 1 - i) & 1;
    return gives(slatmonief_ean13_read, row, CELLS, ROOM, text, DIGITS);
}

/* Where the seven cells of a digit begin; the first of the 13 digits is not drawn. */
static size_t start(size_t place) { return 3 + 7 * (place - 1) + (place <= 6 ? 0 : 5); }

/* Each drawn digit and each guard of a known row changed. */
static int parts_changed(int k)
{
    put(k);
    for (size_t place = 1; place < DIGITS; place++)
        if (!changed(start(place), 7)) return 0;
    return changed(0, 3) && changed(45, 5) && changed(92, 3);
}

/* Draws a number by chance, with this first digit and its check digit: text and row. */
static void draw(uint64_t *chance, unsigned first)
{
    unsigned sum = first;
    put(0); /* for the guards */
    text[0] = (uint8_t)('0' + first);
    for (size_t place = 1; place < DIGITS; place++) {
        *chance = *chance * 6364136223846793005u + 1442695040888963407u;
        unsigned digit = place < 12 ? (unsigned)(*chance >> 33) % 10 : (10 - sum % 10) % 10;
        char set = place <= 6 ? sets[first][place - 1] : 'C';
        text[place] = (uint8_t)('0' + digit);
        sum += place % 2 ? 3 * digit : digit;
        for (size_t i = 0; i < 7; i++)
            row[start(place) + i] = (set_a[digit][set == 'B' ? 6 - i : i] == '1') != (set != 'A');
    }
}

/* Numbers by chance, with each first digit: by 12 digits and by 13, and read back. */
static int by_chance(void)
{
    uint64_t chance = 1;
    for (unsigned i = 0; i < 500; i++) {
        draw(&chance, i % 10);
        if (!gives(slatmonief_ean13_write, text, 12, ROOM, row, CELLS)) return 0;
        if (!gives(slatmonief_ean13_write, text, 13, CELLS, row, CELLS)) return 0;
        if (!gives(slatmonief_ean13_read, row, CELLS, DIGITS, text, DIGITS)) return 0;
        if (!upside_down()) return 0;
    }
    return 1;
}

int main(void)
{
    if (SLATMONIEF_EAN13_CELLS != CELLS || SLATMONIEF_EAN13_DIGITS != DIGITS) return 1;
    for (int k = 0; k < ROWS; k++) {
        if (!known_number(k)) return 10 + k;
        if (!wrong_check(k)) return 20 + k;
        if (!cells(k)) return 30 + k;
        if (!parts_changed(k)) return 40 + k;
    }
    if (!text_lengths()) return 2;
    if (!no_digit(12) || !no_digit(13)) return 3;
    if (!row_lengths()) return 4;
    return by_chance() ? 0 : 5;
}
