/* Code 128 rows: written, read, spelled, scanned, packed and unpacked. EAN-13 rows: written and
 * read. Each of the nine calls is proved to do what this file says, for every input, but where it
 * says "tested". What is plain C here, the names of the refusals, slatmonief_words and
 * SLATMONIEF_CELLS, is tested.
 *
 * Link with libslatmonief.a (x86-64 Linux; the processor has to have SSE4.2, as x86-64-v2 says). C99
 * and later, and C++.
 *
 * Words. A cell is a byte, 1 for bar and 0 for space. Places count from 0.
 *   - Code 128: a symbol list is a START number (103, 104 or 105) and then data numbers 0 to 102,
 *     without the check; its length n is 1 to 4,000. A row has 11(n+1)+13 cells. Before version
 *     1.4.0 n was 1 to 255, and anything longer was refused, by 4 or 10.
 *   - EAN-13, since version 1.6.0: a number has 13 digits, the last of them its check digit. A
 *     digit is an ASCII byte, '0' to '9'. A row has 95 cells.
 *   Seven calls are for Code 128; the two for EAN-13 have ean13 in their names. No row is of both
 *   kinds: no Code 128 row has 95 cells.
 *
 * Answers. Every call returns two numbers by value:
 *   - number is 0 where the call is accepted, and else the number of the refusal;
 *   - second depends on number. The comment of each call has a list of what it is after each
 *     refusal. After a 0 it is:
 *     call         from         to           second after a 0
 *     encode       code points  cells        n, the symbols; SLATMONIEF_CELLS(n) cells are written
 *     draw         symbols      cells        n, the symbols; SLATMONIEF_CELLS(n) cells are written
 *     read         cells        symbols      n, the symbols written
 *     spell        symbols      code points  the code points written
 *     scan         symbols      bytes        the bytes written
 *     pack         cells        a record     the bytes written
 *     unpack       a record     cells        the cells written
 *     ean13_write  digits       cells        the cells written, always 95
 *     ean13_read   cells        digits       the digits written, always 13
 *     So the length of a row is SLATMONIEF_CELLS(second) after encode and draw, and second itself
 *     after unpack and ean13_write.
 *
 * Buffers. An accepted call fills the front of the lent buffer and leaves every element after that
 * as it was. A refused call leaves the whole buffer as it was. No call reserves memory, keeps a
 * pointer or has state, so any number of threads may call at once, each with a buffer of its own.
 * A text has no NUL at its end: none is written, and where one is given it counts as a character.
 *
 * What the caller has to keep, since C cannot check it:
 *   - each pointer is valid for as many elements as the length beside it says. Where the length is
 *     0 any pointer will do, NULL too, as an empty std::vector gives it: it is not followed;
 *   - input and output do not overlap;
 *   - a length counts elements, not bytes: text_len is a number of 32-bit code points in encode and
 *     spell. In the two calls for EAN-13 it is a number of bytes, since a digit is one.
 */
#ifndef SLATMONIEF_H
#define SLATMONIEF_H

#include <stddef.h>
#include <stdint.h>

#define SLATMONIEF_VERSION "1.6.0"

/* The cells of the Code 128 row of n symbols: the length of a row after encode and draw. */
#define SLATMONIEF_CELLS(n) (11 * ((n) + 1) + 13)

/* For Code 128, buffers of these lengths are never too short: for the cells of a row, the symbols
 * of a list, the code points that spell writes, the bytes that scan writes, and the bytes of a row
 * record. Such buffers are for static or heap memory rather than a small stack. A caller need not
 * lend so much: a shorter buffer is refused, by 5, only where the answer does not fit, and second
 * is then the length needed, 11(n+1)+13 cells for a row. Before version 1.4.0 the five were 2829,
 * 255, 509, 508 and 356: a buffer of that length can be too short now (5) where the input was too
 * long then. */
#define SLATMONIEF_MOST_CELLS 44024
#define SLATMONIEF_MOST_SYMBOLS 4000
#define SLATMONIEF_MOST_CODE_POINTS 7999
#define SLATMONIEF_MOST_SCANNED 7998
#define SLATMONIEF_MOST_RECORD 5506

/* For EAN-13, the cells of a row and the digits of a number: buffers of these lengths are never too
 * short. */
#define SLATMONIEF_EAN13_CELLS 95
#define SLATMONIEF_EAN13_DIGITS 13

#ifdef __cplusplus
extern "C" {
#endif

typedef struct {
    uint32_t number;
    size_t second;
} slatmonief_answer;

/* What number can be. The lists below say when, and what second is then. */
enum slatmonief_number {
    SLATMONIEF_ACCEPTED = 0,
    SLATMONIEF_NO_SCALAR = 1,
    SLATMONIEF_TEXT_TOO_SHORT = 2,
    SLATMONIEF_PARSING_STOPS = 3,
    SLATMONIEF_TOO_MANY_SYMBOLS = 4,
    SLATMONIEF_BUFFER_TOO_SHORT = 5,
    SLATMONIEF_NO_SUCH_LENGTH = 10,
    SLATMONIEF_NO_CELL = 11,
    SLATMONIEF_NO_PATTERN_EVEN = 12,
    SLATMONIEF_WRONG_SYMBOL = 13,
    SLATMONIEF_WRONG_CHECK = 14,
    SLATMONIEF_WRONG_STOP = 15,
    SLATMONIEF_NO_PATTERN_ODD = 16,
    SLATMONIEF_RETIRED = 19,
    SLATMONIEF_NO_HEAD = 20,
    SLATMONIEF_NO_SUCH_VERSION = 21,
    SLATMONIEF_WRONG_COUNT = 22,
    SLATMONIEF_SPARE_BIT = 23,
    SLATMONIEF_NO_SUCH_TEXT_LENGTH = 30,
    SLATMONIEF_NO_DIGIT = 31,
    SLATMONIEF_WRONG_CHECK_DIGIT = 32,
    SLATMONIEF_NO_ROW = 33
};

/* The number of an answer in words: a constant string in ASCII for every number, and "unknown
 * number" for one that no call gives. */
static inline const char *slatmonief_words(uint32_t number)
{
    switch (number) {
    case SLATMONIEF_ACCEPTED: return "accepted";
    case SLATMONIEF_NO_SCALAR: return "a value is no Unicode scalar value";
    case SLATMONIEF_TEXT_TOO_SHORT: return "the text has fewer than two UTF-8 bytes";
    case SLATMONIEF_PARSING_STOPS:
        return "parsing stops: no START, no number in the set, or half a pair of digits";
    case SLATMONIEF_TOO_MANY_SYMBOLS: return "more than 4000 symbols are needed";
    case SLATMONIEF_BUFFER_TOO_SHORT: return "the buffer is too short";
    case SLATMONIEF_NO_SUCH_LENGTH: return "no Code 128 row or symbol list has this length";
    case SLATMONIEF_NO_CELL: return "a cell is neither 0 nor 1";
    case SLATMONIEF_NO_PATTERN_EVEN:
        return "a block is none of the 106 patterns and has an even number of bar cells: print "
               "again";
    case SLATMONIEF_WRONG_SYMBOL: return "a number stands where it may not";
    case SLATMONIEF_WRONG_CHECK: return "the check is wrong";
    case SLATMONIEF_WRONG_STOP: return "a cell is not the stop's";
    case SLATMONIEF_NO_PATTERN_ODD:
        return "a block is none of the 106 patterns and has an odd number of bar cells, as one "
               "worn cell can leave it: photograph again";
    case SLATMONIEF_RETIRED: return "FNC2 (U+017A) is retired";
    case SLATMONIEF_NO_HEAD: return "the record has no head";
    case SLATMONIEF_NO_SUCH_VERSION: return "the record's version is neither 1 nor 2";
    case SLATMONIEF_WRONG_COUNT:
        return "the record's count is missing, none of its version, or not that of its length";
    case SLATMONIEF_SPARE_BIT: return "a spare bit is set in the last byte";
    case SLATMONIEF_NO_SUCH_TEXT_LENGTH: return "no text of the symbology has this length";
    case SLATMONIEF_NO_DIGIT: return "a byte of the text is no ASCII digit";
    case SLATMONIEF_WRONG_CHECK_DIGIT: return "the check digit is wrong";
    case SLATMONIEF_NO_ROW: return "the cells are no row of the symbology";
    default: return "unknown number";
    }
}

/* Encode: code points to a row. The first code point names the character set: U+00C0 for A, U+0181
 * for B, U+0106 for C. Further on, the same three switch to another set. U+017D is Shift, 98 in
 * sets A and B. It does not change the set in which the next code point is encoded: C0 17D 61 (hex)
 * is refused by 3 at place 2; C0 17D 1 is 103 98 65, which scan sends as 'a'. U+017A is FNC2, 97 in
 * sets A and B. It is retired: there it is refused by 19, and before version 1.3.0 it was accepted.
 * Draw writes a row with FNC2. In set C, 97 is a pair of digits, and U+017A is refused by 3.
 * U+0179 is FNC1, in every set; U+017B is FNC3 and U+017C FNC4, in A and B; U+00F7 is DEL, in B.
 * Accepted: second is n, and 11(n+1)+13 cells are written.
 * Refused, in this order, each test over the whole input before the next:
 *   number, when                                            second
 *   1  a value in D800..DFFF or above 10FFFF (hex)          the place of the first
 *   2  the code points make fewer than two UTF-8 bytes      0
 *   3  parsing stops: the first code point names no set,    the place where parsing stops;
 *      a code point has no number in the current set, a     text_len for a digit left over
 *      switch comes while the first digit of a pair is
 *      held, or such a digit is left over at the end
 *   19 a U+017A (FNC2) in the text                          the place of the first
 *   4  more than 4,000 symbols                              the symbols needed
 *   5  row_len is too short                                 the cells needed
 */
slatmonief_answer slatmonief_encode(const uint32_t *text, size_t text_len, uint8_t *row, size_t row_len);

/* Draw: a symbol list to a row.
 * Accepted: second is n, and 11(n+1)+13 cells are written.
 * Refused, in this order:
 *   number, when                                            second
 *   10 no symbol, or more than 4,000                        symbols_len
 *   13 no START at place 0, or a number above 102 after it  the place of the first
 *   5  row_len is too short                                 the cells needed
 */
slatmonief_answer slatmonief_draw(const uint8_t *symbols, size_t symbols_len, uint8_t *row, size_t row_len);

/* Read: a row to its symbol list. A block is eleven cells: block 0 is the START, block n the check.
 * Accepted: second is n, and n symbols are written.
 * Refused, in this order:
 *   number, when                                            second
 *   10 a length that no row has                             row_len
 *   11 a cell neither 0 nor 1                               the place of the first
 *      then block by block from the left, 12 or 16 before 13:
 *   12 a block that is none of the 106 patterns, with an    the block
 *      even number of bar cells: print again
 *   16 a block that is none of the 106 patterns, with an    the block
 *      odd number of bar cells: one worn cell gives this;
 *      photograph again
 *   13 no START at block 0, or a number above 102 after it  the block
 *      and then:
 *   15 the last 13 cells are not the stop                   the place of the first wrong cell,
 *                                                           counted from the start of the row
 *   14 the check is wrong                                   the check that would be right
 *   5  symbols_len is too short                             n
 * An accepted row with one worn cell (bar for space, or space for bar) is always refused: by 15
 * where that is one of the last 13 cells, and else by 16. More worn cells can give 16 too. A row
 * taken upside down is refused by 12 at block 0 (this is tested).
 */
slatmonief_answer slatmonief_read(const uint8_t *row, size_t row_len, uint8_t *symbols, size_t symbols_len);

/* Spell: a symbol list to its text, with no FNC1 (U+0179) inside a pair. So 103 98 65 is spelled C0
 * 17D 1 (hex), and scanned as 'a'. Encode turns the text into the list again, unless it has a 17A:
 * 97 (FNC2) in set A or B is still spelled 17A, which encode refuses by 19. Draw writes that row.
 * Accepted: second is the number of code points written.
 * Refused, in this order:
 *   number, when                                            second
 *   10 no symbol, or more than 4,000                        symbols_len
 *   13 no START at place 0, or a number above 102 after it  the place of the first
 *   5  text_len is too short                                the code points needed
 */
slatmonief_answer slatmonief_spell(const uint8_t *symbols, size_t symbols_len, uint32_t *text, size_t text_len);

/* Scan: a symbol list to the 7-bit bytes that a scanner sends; 0 can be among them. A START, a
 * switch, Shift and the function symbols send nothing. After Shift (98 in set A or B) the next
 * symbol alone is read in the other of these two sets, if it is below 96: 103 98 65 sends 'a'.
 * Otherwise Shift has no effect: a switch after it switches, and a second Shift is a Shift for the
 * symbol after that. In set C, 98 is a pair of digits. Shift changes which bytes are written and
 * never how many. Before version 1.2.0 it had no effect at all.
 * Accepted: second is the number of bytes written.
 * Refused, in this order:
 *   number, when                                            second
 *   10 no symbol, or more than 4,000                        symbols_len
 *   13 no START at place 0, or a number above 102 after it  the place of the first
 *   5  bytes_len is too short                               the bytes needed
 */
slatmonief_answer slatmonief_scan(const uint8_t *symbols, size_t symbols_len, uint8_t *bytes, size_t bytes_len);

/* Pack: the cells of a row to a row record. The row need not be readable. A record begins with its
 * version and n:
 *   version 1, for n up to 255:    byte 0 is 1, byte 1 is n
 *   version 2, for n from 256 on:  byte 0 is 2, byte 1 is n / 256, byte 2 is n % 256
 * Then come the cells, eight to a byte, the first in the top bit. Low bits of the last byte that no
 * cell takes are spare, and 0. That makes 7 bytes at n = 1, 356 at 255, 358 at 256 and 5,506 at
 * 4,000, and one record for each row.
 * Up to 255 symbols the record is, byte for byte, that of the library before its version 1.4.0.
 * Longer rows were refused by 10 there, and its unpack refuses a record of version 2 by 21, with 2.
 * Accepted: second is the number of bytes written.
 * Refused, in this order:
 *   number, when                                            second
 *   10 a length that no row has                             row_len
 *   11 a cell neither 0 nor 1                               the place of the first
 *   5  record_len is too short                              the bytes needed
 */
slatmonief_answer slatmonief_pack(const uint8_t *row, size_t row_len, uint8_t *record, size_t record_len);

/* Unpack: a row record, of version 1 or 2 as pack writes it, to its cells. The count is believed
 * only once it agrees with record_len. Before version 1.4.0 of the library a record of version 2
 * was refused by 21.
 * Accepted: second is the number of cells written.
 * Refused, in this order:
 *   number, when                                            second
 *   20 a record of fewer than 2 bytes                       record_len
 *   21 a version byte that is neither 1 nor 2               that byte
 *   22 a count that its version does not have: in version   0
 *      1 a count of 0; in version 2 a count up to 255 or
 *      above 4,000, or a record of 2 bytes, without byte 2
 *   22 a record_len that is not what the version and the    the length needed
 *      count need
 *   23 a spare bit is set                                   the place of the last byte
 *   5  row_len is too short                                 the cells needed
 */
slatmonief_answer slatmonief_unpack(const uint8_t *record, size_t record_len, uint8_t *row, size_t row_len);

/* EAN-13 write: an EAN-13 number to its row. To 12 digits the check digit is added; of 13 the last
 * is verified. So a number gives the same row with its check digit and without. The 12 digits of a
 * UPC-A number have their check digit already: put a '0' before them and give all 13.
 * Accepted: second is 95, and 95 cells are written.
 * Refused, in this order:
 *   number, when                                            second
 *   30 a length other than 12 and 13                        text_len
 *   31 a byte that is no digit                              the place of the first
 *   32 the last of 13 digits is not the check digit         the right one, as a number 0 to 9
 *   5  row_len is too short                                 95
 */
slatmonief_answer slatmonief_ean13_write(const uint8_t *text, size_t text_len, uint8_t *row, size_t row_len);

/* EAN-13 read: a row to the 13 digits of its number, of which the last is the check digit.
 * Accepted: second is 13, and 13 digits are written. These rows are exactly those that ean13_write
 * writes, and from the digits it writes the same row again.
 * Refused, in this order:
 *   number, when                                            second
 *   33 a row that ean13_write never writes: a length other  0
 *      than 95, a cell neither 0 nor 1, a wrong guard,
 *      seven cells that draw no digit there, parities that
 *      no first digit has, or a wrong check digit
 *   5  text_len is too short                                13
 * An accepted row with one worn cell (bar for space, or space for bar) is always refused, and so is
 * one with the seven cells of one drawn digit changed to any other seven. A row taken upside down
 * is refused too: turn its cells round and read again.
 */
slatmonief_answer slatmonief_ean13_read(const uint8_t *row, size_t row_len, uint8_t *text, size_t text_len);

#ifdef __cplusplus
}
#endif

#endif
