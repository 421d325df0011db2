/* What happens to the EAN-13 number of a returned good. Keyed in, it is checked by writing its row.
 * Photographed, its row is read and, where that is refused, turned round and read once more, since
 * the good may have lain upside down. The digits have no NUL at their end. */
#include <stdio.h>
#include <string.h>

#include "slatmonief.h"

enum { CELLS = SLATMONIEF_EAN13_CELLS };

/* Shows a refusal. */
static void refused(const char *name, const char *job, slatmonief_answer a)
{
    printf("%s: %s refused by %u, %zu: %s\n", name, job, (unsigned)a.number, a.second,
           slatmonief_words(a.number));
}

/* Shows what one number, keyed in with or without its check digit, gives. */
static void keyed(const char *number, uint8_t *row)
{
    const uint8_t *digits = (const uint8_t *)number;
    slatmonief_answer a = slatmonief_ean13_write(digits, strlen(number), row, CELLS);
    if (a.number == SLATMONIEF_ACCEPTED)
        printf("%s: a row of %zu cells\n", number, a.second);
    else
        refused(number, "write", a);
}

static void turn(uint8_t *turned, const uint8_t *row)
{
    for (size_t i = 0; i < CELLS; i++) turned[i] = row[CELLS - 1 - i];
}

/* Shows what one row of 95 cells gives. */
static void photographed(const char *name, const uint8_t *row)
{
    uint8_t digits[SLATMONIEF_EAN13_DIGITS], turned[CELLS];
    slatmonief_answer a = slatmonief_ean13_read(row, CELLS, digits, sizeof digits);
    if (a.number == SLATMONIEF_NO_ROW) {
        turn(turned, row);
        a = slatmonief_ean13_read(turned, CELLS, digits, sizeof digits);
    }
    if (a.number == SLATMONIEF_ACCEPTED)
        printf("%s: %.*s\n", name, (int)a.second, (const char *)digits);
    else
        refused(name, "read", a);
}

int main(void)
{
    uint8_t row[CELLS], turned[CELLS];
    keyed("4006381333931", row);
    keyed("400638133393", row);
    keyed("4006381333391", row); /* two digits have changed places: the check digit would be 9 */
    keyed("40O6381333931", row); /* a letter O for the second 0 */
    keyed("40063813", row);

    photographed("as printed", row);
    turn(turned, row);
    photographed("upside down", turned);
    row[50] ^= 1; /* a worn cell */
    photographed("one cell flipped", row);
    return 0;
}
