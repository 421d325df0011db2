/* FNC2 (17A): encode refuses it by 19 at the first, after 3 and whatever the room. The row of 104
 * 33 97 is drawn, read, scanned and spelled, and encode refuses the spelling. The status is 0, or
 * tells the check that fails. */
#include <string.h>

#include "slatmonief.h"

/* Whether encode refuses the text by these numbers with every room up to 80, and writes nothing. */
static int refused(const uint32_t *text, size_t len, uint32_t number, size_t second)
{
    uint8_t row[80], before[80];
    memset(before, 200, sizeof before);
    for (size_t room = 0; room <= sizeof row; room++) {
        memset(row, 200, sizeof row);
        slatmonief_answer a = slatmonief_encode(text, len, row, room);
        if (a.number != number || a.second != second) return 0;
        if (memcmp(row, before, sizeof row) != 0) return 0;
    }
    return 1;
}

int main(void)
{
    const uint32_t retired[] = {0x181, 'A', 0x17A, 0x17A}, stops[] = {0x181, 0x17A, 0x20AC};
    const uint32_t in_c[] = {0x106, 0x17A}, pair[] = {0x106, '9', '7'};
    const uint8_t symbols[] = {104, 33, 97};
    uint8_t row[57], list[3], bytes[2] = {200, 200};
    uint32_t text[3];
    if (!refused(retired, 4, 19, 2)) return 1;
    if (!refused(stops, 3, 3, 2) || !refused(in_c, 2, 3, 1)) return 1;
    slatmonief_answer a = slatmonief_encode(pair, 3, row, sizeof row);
    if (a.number != 0 || a.second != 2) return 2;
    a = slatmonief_draw(symbols, 3, row, sizeof row);
    if (a.number != 0 || a.second != 3) return 3;
    a = slatmonief_read(row, sizeof row, list, 3);
    if (a.number != 0 || a.second != 3 || memcmp(list, symbols, 3) != 0) return 4;
    a = slatmonief_scan(symbols, 3, bytes, 2);
    if (a.number != 0 || a.second != 1 || bytes[0] != 'A' || bytes[1] != 200) return 5;
    a = slatmonief_spell(symbols, 3, text, 3);
    if (a.number != 0 || a.second != 3 || memcmp(text, retired, sizeof text) != 0) return 6;
    return refused(text, 3, 19, 2) ? 0 : 7;
}
