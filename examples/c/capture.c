/* What the image pipeline does with a capture: it unpacks the record and reads the row. Where the
 * capture is malformed, the two numbers of the refusal say what is wrong, the first also in words.
 * Where a block of the row is no pattern, the words also say whether to photograph the label again
 * or to print it again.
 *
 * No memory is reserved for a size that a capture merely declares: the buffers have the size of the
 * limit, 4,000 symbols. They are static, since 44,024 cells are much for a stack. */
#include <stdio.h>

#include "slatmonief.h"

/* Lent to every call. A program with threads has such buffers for each of them. */
static uint8_t row[SLATMONIEF_MOST_CELLS];
static uint8_t symbols[SLATMONIEF_MOST_SYMBOLS];
static uint8_t bytes[SLATMONIEF_MOST_SCANNED];
static uint8_t record[SLATMONIEF_MOST_RECORD];

/* Shows a refusal. */
static void refused(const char *name, const char *job, slatmonief_answer a)
{
    printf("%s: %s refused by %u, %zu: %s\n", name, job, (unsigned)a.number, a.second,
           slatmonief_words(a.number));
}

/* Shows what one capture gives. */
static void show(const char *name, const uint8_t *capture, size_t length)
{
    slatmonief_answer a = slatmonief_unpack(capture, length, row, sizeof row);
    if (a.number != SLATMONIEF_ACCEPTED) {
        refused(name, "unpack", a);
        return;
    }
    a = slatmonief_read(row, a.second, symbols, sizeof symbols);
    if (a.number != SLATMONIEF_ACCEPTED) {
        refused(name, "read", a);
        return;
    }
    size_t n = a.second;
    a = slatmonief_scan(symbols, n, bytes, sizeof bytes);
    printf("%s: %zu symbols, a scanner sends \"%.*s\"\n", name, n, (int)a.second,
           (const char *)bytes);
}

/* A customs label of more than 255 symbols, to its record and back: 300 pairs of digits, set C. */
static void customs(void)
{
    static uint32_t label[601] = {0x106};
    for (size_t i = 1; i < 601; i++) label[i] = '0' + i % 10;
    slatmonief_answer a = slatmonief_encode(label, 601, row, sizeof row);
    a = slatmonief_pack(row, SLATMONIEF_CELLS(a.second), record, sizeof record);
    printf("customs label: a record of version %u and %zu bytes, ", (unsigned)record[0], a.second);
    a = slatmonief_unpack(record, a.second, row, sizeof row);
    a = slatmonief_read(row, a.second, symbols, sizeof symbols);
    printf("read back to %zu symbols\n", a.second);
}

int main(void)
{
    const uint32_t label[] = {0x181, 'A', 'I', 'M', 0x106, '1', '2', '3', '4'};
    slatmonief_answer a = slatmonief_encode(label, sizeof label / sizeof label[0], row, sizeof row);
    a = slatmonief_pack(row, SLATMONIEF_CELLS(a.second), record, sizeof record);
    size_t length = a.second;

    show("as packed", record, length);

    record[1] = 255; /* a capture that declares far more symbols than it has */
    show("declares 255 symbols", record, length);
    record[1] = 0;
    show("declares none", record, length);
    show("empty", NULL, 0);
    record[1] = 7;
    show("cut short", record, length - 1);
    record[0] = 3;
    show("another version", record, length);
    record[0] = 1;
    record[4] ^= 0x10; /* a worn cell, in block 1: its bit is flipped */
    show("one cell flipped", record, length);
    record[3] ^= 0x08; /* one more in the same block. Here no pattern is left; two flipped cells can
                          also leave the pattern of another number, and then 13 or 14 follows. */
    show("two cells of a block flipped", record, length);

    /* Version 2, for labels of more than 255 symbols, has a count of two bytes. */
    const uint8_t most[] = {2, 4000 / 256, 4000 % 256, 0xD0}, huge[] = {2, 255, 255, 0xD0};
    show("declares 4,000 symbols", most, sizeof most);
    show("declares 65,535 symbols", huge, sizeof huge);
    customs();
    return 0;
}
