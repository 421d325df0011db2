/* Calls the job JOB of the library TIMES times on a label of SYMBOLS symbols in the set SET, and
   ends, with the status REFUSED if the label is too long for the library. tools/before/count
   compiles it for x86-64 without a C library, so that what is counted is the library's. */
#include "slatmonief.h"
#include "bare.h"

enum { ENCODE, DRAW, READ, SPELL, SCAN, PACK, UNPACK, CELLS = 11 * SYMBOLS + 24 };
enum { A, B, C, mixed, A_shift, B_shift }; /* mixed has switches and no 97; with shift every fourth data number is 98 */
static const uint8_t starts[] = {103, 104, 105, 105, 103, 104}, ends[] = {96, 64, 100, 103, 96, 96};
static uint32_t text[2 * SYMBOLS], points[2 * SYMBOLS];
static uint8_t symbols[SYMBOLS], row[CELLS], record[CELLS];
static uint8_t list[SYMBOLS], cells[CELLS], bytes[CELLS];

static slatmonief_answer call(int job, size_t text_len, size_t record_len) {
    switch (job) {
    case ENCODE: return slatmonief_encode(text, text_len, cells, sizeof cells);
    case DRAW: return slatmonief_draw(symbols, SYMBOLS, cells, sizeof cells);
    case READ: return slatmonief_read(row, CELLS, list, sizeof list);
    case SPELL: return slatmonief_spell(symbols, SYMBOLS, points, 2 * SYMBOLS);
    case SCAN: return slatmonief_scan(symbols, SYMBOLS, bytes, sizeof bytes);
    case PACK: return slatmonief_pack(row, CELLS, bytes, sizeof bytes);
    default: return slatmonief_unpack(record, record_len, cells, sizeof cells);
    }
}

__attribute__((used)) void run(void) {
    uint32_t x = 7;
    symbols[0] = starts[SET];
    for (int i = 1; i < SYMBOLS; i++) {
        x = x * 1103515245u + 12345u;
        symbols[i] = SET >= A_shift && i % 4 == 0 ? 98 : (x >> 16) % ends[SET];
        if (SET == mixed && symbols[i] == 97) symbols[i] = 96; /* 97 in set A or B is FNC2, which encode refuses */
    }
    if (slatmonief_draw(symbols, SYMBOLS, row, CELLS).number != 0) leave(REFUSED);
    size_t text_len = slatmonief_spell(symbols, SYMBOLS, text, 2 * SYMBOLS).second;
    size_t record_len = slatmonief_pack(row, CELLS, record, sizeof record).second;
    for (int i = 0; i < TIMES; i++)
        if (call(JOB, text_len, record_len).number != 0) leave(1);
    leave(0);
}

__asm__(".globl _start\n_start: xor %ebp, %ebp\n and $-16, %rsp\n call run\n");
