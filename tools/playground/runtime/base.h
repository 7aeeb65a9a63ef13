/* base.h: what the files of the runtime share. A module has a memory of its own, no C library, and
 * one thread. */
#ifndef RUNTIME_BASE_H
#define RUNTIME_BASE_H

/* The kit's compiler has no headers. */
typedef __SIZE_TYPE__ size_t;
typedef __UINTPTR_TYPE__ uintptr_t;
typedef __UINT8_TYPE__ uint8_t;
typedef __INT32_TYPE__ int32_t;
typedef __UINT32_TYPE__ uint32_t;
typedef __INT64_TYPE__ int64_t;
typedef __UINT64_TYPE__ uint64_t;
#define bool _Bool
#define true 1
#define false 0

_Static_assert(sizeof(void *) == 8, "pointers of 64 bits, as in what was proved");

/* A function that JavaScript can call, and one that it provides. */
#define EXPORT(name) __attribute__((export_name(#name))) name
#define IMPORT(name) __attribute__((import_module("env"), import_name(#name)))

/* A block of memory, aligned by 16, or null if there is none. */
void *memory_take(size_t size);
void memory_give(void *block);

void *memcpy(void *to, const void *from, size_t size);
void *memset(void *at, int byte, size_t size);
int memcmp(const void *one, const void *other, size_t size);

#endif
