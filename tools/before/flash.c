/* Calls each job of JOBS three times (a label of N symbols or an EAN-13 number of twelve zeros, a
   buffer of length 0, no input) on a painted stack of 16 KiB, and prints how many bytes below the return address it touched; ends with
   the status REFUSED if the label is too long for the library. tools/before/flash compiles it for
   x86-64 without a C library. All of it is in sections named .own, so that every other section of
   the linked program is the library's; it makes its inputs itself, so that only the jobs of JOBS
   are linked. */
#include "slatmonief.h"
#pragma clang section text = ".own.text" rodata = ".own.rodata" bss = ".own.bss"
#include "bare.h"

enum { CELLS = 11 * N + 24, HEAD = N <= 255 ? 2 : 3, RECORD = HEAD + (CELLS + 7) / 8, RETURN = 8 };
static uint32_t text[N], lent[(CELLS + 3) / 4];
static uint8_t symbols[N], row[CELLS], record[RECORD], stack[16384] __attribute__((aligned(64)));
static uint8_t zeros[12], goods[SLATMONIEF_EAN13_CELLS];

#define encode text, N, lent, CELLS
#define draw symbols, N, lent, CELLS
#define read row, CELLS, lent, N
#define spell symbols, N, lent, N
#define scan symbols, N, lent, N
#define pack row, CELLS, lent, RECORD
#define unpack record, RECORD, lent, CELLS
#define ean13_write zeros, 12, lent, SLATMONIEF_EAN13_CELLS
#define ean13_read goods, SLATMONIEF_EAN13_CELLS, lent, SLATMONIEF_EAN13_DIGITS
#define JOB(name) measure((void *)slatmonief_##name, name);

/* In assembly, so that nothing but the return address is on the painted stack before the job's own
   bytes. */
static uint32_t call(void *job, const void *in, size_t in_len, void *out, size_t out_len) {
    uint64_t number = (uint64_t)job;
    __asm__ volatile("mov %%rsp, %%rbx\n mov %5, %%rsp\n call *%%rax\n mov %%rbx, %%rsp"
                     : "+a"(number), "+D"(in), "+S"(in_len), "+d"(out), "+c"(out_len)
                     : "r"(stack + sizeof stack) : "rbx", "r8", "r9", "r10", "r11", "memory", "cc");
    return (uint32_t)number;
}

static size_t deepest;
static void measure(void *job, const void *in, size_t in_len, void *out, size_t out_len) {
    for (int i = 0; i < 6; i++) { /* with two paints, since a job may write the value of one of them */
        volatile uint8_t *at = stack;
        uint8_t paint = i % 2 ? 0x5a : 0xa5;
        for (size_t k = 0; k < sizeof stack; k++) at[k] = paint;
        uint32_t number = call(job, in, i / 2 == 2 ? 0 : in_len, out, i / 2 == 1 ? 0 : out_len);
        if ((number == 0) != (i / 2 == 0)) leave(i < 2 ? REFUSED : 1);
        size_t left = 0;
        while (left < sizeof stack - RETURN && at[left] == paint) left++;
        if (left == 0) leave(2);
        if (sizeof stack - RETURN - left > deepest) deepest = sizeof stack - RETURN - left;
    }
}

static size_t row_len, goods_len;
static void put(uint8_t *to, size_t *len, int count, uint32_t bars) {
    while (count-- > 0) to[(*len)++] = bars >> count & 1;
}

static void make_goods(void) { /* the number: zeros, whose check is 0 */
    for (int i = 0; i < 12; i++) zeros[i] = '0';
    put(goods, &goods_len, 3, 5);
    for (int i = 0; i < 6; i++) put(goods, &goods_len, 7, 0x0d);
    put(goods, &goods_len, 5, 0x0a);
    for (int i = 0; i < 6; i++) put(goods, &goods_len, 7, 0x72);
    put(goods, &goods_len, 3, 5);
}

__attribute__((used)) void run(void) { /* the label: START B and spaces, whose check is 1 */
    make_goods();
    put(row, &row_len, 11, 0x690);
    for (int i = 1; i < N; i++) put(row, &row_len, 11, 0x6cc);
    put(row, &row_len, 11, 0x66c);
    put(row, &row_len, 13, 0x18eb);
    for (int i = 0; i < N; i++) {
        symbols[i] = i == 0 ? 104 : 0;
        text[i] = i == 0 ? 0x181 : ' ';
    }
    record[0] = HEAD - 1;
    if (HEAD == 3) record[1] = N / 256;
    record[HEAD - 1] = N % 256;
    for (int i = 0; i < CELLS; i++) record[HEAD + i / 8] |= row[i] << (7 - i % 8);
    JOBS
    char digits[8];
    int at = sizeof digits;
    digits[--at] = '\n';
    do digits[--at] = '0' + deepest % 10;
    while ((deepest /= 10) > 0);
    size_t count = sizeof digits - at, wrote = 1;
    __asm__ volatile("syscall" : "+a"(wrote) : "D"(1), "S"(digits + at), "d"(count) : "rcx", "r11", "memory");
    leave(0);
}

__asm__(".section .own.text, \"ax\"\n.globl _start\n_start: xor %ebp, %ebp\n and $-16, %rsp\n call run\n");
