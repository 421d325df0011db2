/* What the two sides of the bridge share. They have a piece of memory in common: the call is at its
 * start, a copy of the input at INPUT and a copy of the lent buffer at LENT. Where the caller gives
 * NULL, the library gets NULL. A byte through a socket says that a call is there, and a byte back
 * that it is answered. */
#include "slatmonief.h"

enum { INPUT = 4096, LENT = 40 << 20, SIZE = 48 << 20 }; /* longer than any that the tests use */

/* Each function with the types of its input and of its output. */
#define FUNCTIONS(EACH) \
    EACH(encode, uint32_t, uint8_t) \
    EACH(draw, uint8_t, uint8_t) \
    EACH(read, uint8_t, uint8_t) \
    EACH(spell, uint8_t, uint32_t) \
    EACH(scan, uint8_t, uint8_t) \
    EACH(pack, uint8_t, uint8_t) \
    EACH(unpack, uint8_t, uint8_t) \
    EACH(ean13_write, uint8_t, uint8_t) \
    EACH(ean13_read, uint8_t, uint8_t)

#define NUMBERED(name, from, to) number_##name,
enum { FUNCTIONS(NUMBERED) no_number };

struct call {
    uint64_t function, input_len, lent_len;
    uint64_t input_null, lent_null; /* 1 where the caller's pointer is NULL */
    slatmonief_answer answer;
};
