/* Scan of 103 98 65 65: the first 65 is read in set B, the second in set A; three bytes of room,
 * one unused. The status is 0 or 1. */
#include "slatmonief.h"
int main(void)
{
    const uint8_t symbols[] = {103, 98, 65, 65};
    uint8_t bytes[] = {200, 200, 200};
    slatmonief_answer a = slatmonief_scan(symbols, 4, bytes, 1);
    if (a.number != 5 || a.second != 2 || bytes[0] != 200) return 1;
    a = slatmonief_scan(symbols, 4, bytes, 3);
    return a.number != 0 || a.second != 2 || bytes[0] != 'a' || bytes[1] != 1 || bytes[2] != 200;
}
