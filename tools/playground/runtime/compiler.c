/* The functions that a compiler calls by itself. The first three are single instructions. */
#include "base.h"

__attribute__((no_builtin)) void *memcpy(void *to, const void *from, size_t size)
{
    __asm__ volatile("local.get %0\nlocal.get %1\nlocal.get %2\nmemory.copy 0, 0"
                     :
                     : "r"(to), "r"(from), "r"(size)
                     : "memory");
    return to;
}

__attribute__((no_builtin)) void *memmove(void *to, const void *from, size_t size)
{
    return memcpy(to, from, size);
}

__attribute__((no_builtin)) void *memset(void *at, int byte, size_t size)
{
    __asm__ volatile("local.get %0\nlocal.get %1\nlocal.get %2\nmemory.fill 0"
                     :
                     : "r"(at), "r"(byte), "r"(size)
                     : "memory");
    return at;
}

static uint64_t word_at(const uint8_t *at)
{
    uint64_t word;
    __builtin_memcpy(&word, at, sizeof word);
    return __builtin_bswap64(word);
}

__attribute__((no_builtin)) int memcmp(const void *one, const void *other, size_t size)
{
    const uint8_t *a = one, *b = other;
    for (; size >= 8; size -= 8, a += 8, b += 8)
        if (word_at(a) != word_at(b))
            return word_at(a) < word_at(b) ? -1 : 1;
    for (; size > 0; --size, ++a, ++b)
        if (*a != *b)
            return *a < *b ? -1 : 1;
    return 0;
}

__attribute__((no_builtin)) int bcmp(const void *one, const void *other, size_t size)
{
    return memcmp(one, other, size);
}

/* ---- integers of 128 bits ---- */

typedef union wide {
    unsigned __int128 whole;
    struct {
        uint64_t low, high;
    };
} wide;

/* The low half of a product. */
unsigned __int128 __multi3(unsigned __int128 x, unsigned __int128 y)
{
    const wide a = {x}, b = {y};
    const uint64_t a0 = (uint32_t)a.low, a1 = a.low >> 32, b0 = (uint32_t)b.low, b1 = b.low >> 32;
    const uint64_t first = a0 * b0, second = a1 * b0 + (first >> 32),
                   third = a0 * b1 + (uint32_t)second;
    wide product;
    product.low = third << 32 | (uint32_t)first;
    product.high = a1 * b1 + (second >> 32) + (third >> 32) + a.low * b.high + a.high * b.low;
    return product.whole;
}

/* Shifts by 0 to 127. The two steps of `<< 1 << (63 - by)` allow for 0. */
unsigned __int128 __lshrti3(unsigned __int128 x, int32_t by)
{
    const wide a = {x};
    const int32_t rest = by & 63;
    wide it = {.low = a.high >> rest, .high = 0};
    if ((by & 64) == 0) {
        it.low = a.low >> rest | a.high << 1 << (63 - rest);
        it.high = a.high >> rest;
    }
    return it.whole;
}

unsigned __int128 __ashlti3(unsigned __int128 x, int32_t by)
{
    const wide a = {x};
    const int32_t rest = by & 63;
    wide it = {.low = 0, .high = a.low << rest};
    if ((by & 64) == 0) {
        it.low = a.low << rest;
        it.high = a.high << rest | a.low >> 1 >> (63 - rest);
    }
    return it.whole;
}

unsigned __int128 __ashrti3(unsigned __int128 x, int32_t by)
{
    const wide a = {x};
    const int32_t rest = by & 63;
    const int64_t high = (int64_t)a.high;
    wide it = {.low = (uint64_t)(high >> rest), .high = (uint64_t)(high >> 63)};
    if ((by & 64) == 0) {
        it.low = a.low >> rest | a.high << 1 << (63 - rest);
        it.high = (uint64_t)(high >> rest);
    }
    return it.whole;
}
