/* What a program for x86-64 without a C library needs: memcpy and memset, which the library calls,
   and a way to end. memset stores eight bytes at once: tools/before/count counts each store. */
void *memcpy(void *to, const void *from, size_t n) {
    void *begin = to;
    __asm__ volatile("rep movsb" : "+D"(to), "+S"(from), "+c"(n) : : "memory");
    return begin;
}

void *memset(void *to, int byte, size_t n) {
    void *begin = to;
    size_t eights = n / 8, rest = n % 8;
    uint64_t bytes = UINT64_C(0x0101010101010101) * (uint8_t)byte;
    __asm__ volatile("rep stosq" : "+D"(to), "+c"(eights) : "a"(bytes) : "memory");
    __asm__ volatile("rep stosb" : "+D"(to), "+c"(rest) : "a"(bytes) : "memory");
    return begin;
}

/* The status that says that the library refuses so long a label. */
enum { REFUSED = 3 };

__attribute__((noreturn)) static void leave(int status) {
    for (;;) __asm__ volatile("syscall" : : "a"(231), "D"(status) : "rcx", "r11", "memory");
}
