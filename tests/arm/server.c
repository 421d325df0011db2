/* The x86-64 side of the bridge: a program that is linked with the library and calls it for
 * client.c, until the socket is closed. Standard input is the socket, and standard output is the
 * shared memory. */
#include "shared.h"

/* The kit has the C library for x86-64 without its headers. */
void *mmap(void *where, size_t size, int access, int kind, int file, long from);
long read(int file, void *bytes, size_t count);
long write(int file, const void *bytes, size_t count);
enum { READ_AND_WRITE = 3, SHARED = 1 };

static slatmonief_answer answer(const struct call *call, void *input, void *lent)
{
    switch (call->function) {
#define CASE(name, from, to) \
    case number_##name: \
        return slatmonief_##name((const from *)input, call->input_len, (to *)lent, call->lent_len);
        FUNCTIONS(CASE)
    }
    return (slatmonief_answer){99, 0}; /* no refusal has this number */
}

int main(void)
{
    uint8_t *memory = mmap(NULL, SIZE, READ_AND_WRITE, SHARED, 1, 0);
    if (memory == (void *)-1) return 1;
    struct call *call = (struct call *)memory;
    char byte;
    while (read(0, &byte, 1) == 1) {
        void *input = call->input_null ? NULL : memory + INPUT;
        void *lent = call->lent_null ? NULL : memory + LENT;
        call->answer = answer(call, input, lent);
        if (write(0, &byte, 1) != 1) return 1;
    }
    return 0;
}
