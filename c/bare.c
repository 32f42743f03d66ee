/* bare.c: a program without a C library: it has the three functions that the library needs, decodes a set, and ends with
 * status 42. For Linux on x86-64. */
#include "ecall.h"

void *memmove(void *to, const void *from, size_t n) {
    unsigned char *at = to;
    const unsigned char *source = from;
    if (at < source)
        for (size_t i = 0; i < n; i++) at[i] = source[i];
    else
        while (n--) at[n] = source[n];
    return to;
}

void *memcpy(void *restrict to, const void *restrict from, size_t n) { return memmove(to, from, n); }

void *memset(void *to, int octet, size_t n) {
    unsigned char *at = to;
    while (n--) *at++ = (unsigned char)octet;
    return to;
}

static const uint8_t set[] = {
    0x02, 0x00, 0x06, 0x81, 0xd5, 0x49, 0x70, 0xd6, 0x5c, 0x35, 0x97, 0xca, 0x04, 0x20, 0xc4, 0x14,
    0x64, 0x0a, 0xf0, 0x5f, 0x08, 0x04, 0x52, 0xe9, 0x96, 0x04, 0x13, 0xe2, 0x55, 0x01, 0x68,
};

static long status(void) {
    struct ecall_decoded read = ecall_decode(set, sizeof set);
    if (read.refusal.reason != ECALL_IS_SET) return 1;
    return read.set.time == 1577836800 ? 42 : 2;
}

void _start(void);

__attribute__((force_align_arg_pointer)) void _start(void) {
    __asm__ volatile("syscall" : : "a"(60L), "D"(status()) : "rcx", "r11", "memory");
    __builtin_unreachable();
}
