/* Allocations that the system refuses, if that is asked for: those that the program itself makes.
 * Its calls of malloc, calloc and realloc are led here by its table of addresses, so that those of
 * the libraries, which may hold locks of their own, are as ever. */
#define _GNU_SOURCE
#include "machine.h"

#include <elf.h>
#include <link.h>
#include <string.h>
#include <sys/mman.h>
#include <unistd.h>

/* Whether this allocation is refused: a choice, as long as the thread may have more. */
static bool is_refused(void)
{
    const machine_op op = {.kind = STEP_ALLOCATE};
    if (!machine_decides() || !the_machine.chooses ||
        machine_seat()->refused >= the_machine.shared->refusals)
        return false;
    machine_act(&op);
    if (machine_seat()->variant == 0)
        return false;
    ++machine_seat()->refused;
    machine_gave(ENOMEM, 0);
    errno = ENOMEM;
    return true;
}

static void *allocate(size_t size)
{
    return is_refused() ? 0 : malloc(size);
}

static void *allocate_zeros(size_t count, size_t size)
{
    return is_refused() ? 0 : calloc(count, size);
}

static void *allocate_again(void *memory, size_t size)
{
    return is_refused() ? 0 : realloc(memory, size);
}

/* ---- the program's table of addresses ---- */

/* What the program has in its dynamic section. */
typedef struct tables {
    uintptr_t base;
    const ElfW(Sym) * symbols;
    const char *names;
} tables;

static uintptr_t instead_of(const char *name)
{
    if (strcmp(name, "malloc") == 0)
        return (uintptr_t)allocate;
    if (strcmp(name, "calloc") == 0)
        return (uintptr_t)allocate_zeros;
    return strcmp(name, "realloc") == 0 ? (uintptr_t)allocate_again : 0;
}

static void lead(const tables *of, const ElfW(Rela) * entry)
{
    const char *name = of->names + of->symbols[ELF64_R_SYM(entry->r_info)].st_name;
    const uintptr_t slot = of->base + entry->r_offset, instead = instead_of(name),
                    page = (uintptr_t)sysconf(_SC_PAGESIZE), from = slot & ~(page - 1);
    /* Other entries for the same names are not addresses of functions. */
    if (instead == 0 || ELF64_R_SYM(entry->r_info) == 0 || entry->r_addend != 0)
        return;
    if (mprotect((void *)from, 2 * page, PROT_READ | PROT_WRITE) == 0 ||
        mprotect((void *)from, page, PROT_READ | PROT_WRITE) == 0)
        *(uintptr_t *)slot = instead;
}

static void lead_all(const tables *of, uintptr_t at, size_t size)
{
    const ElfW(Rela) *entries = (const void *)at;
    for (size_t i = 0; at != 0 && i < size / sizeof *entries; ++i)
        lead(of, &entries[i]);
}

static uintptr_t place_in(const tables *of, uintptr_t at)
{
    return at < of->base ? at + of->base : at;
}

/* The first one is the program. */
static int lead_program(struct dl_phdr_info *program, size_t size, void *unused)
{
    tables it = {.base = program->dlpi_addr};
    uintptr_t calls = 0, others = 0;
    size_t size_of_calls = 0, size_of_others = 0;
    (void)size;
    (void)unused;
    for (unsigned i = 0; i < program->dlpi_phnum; ++i) {
        const ElfW(Dyn) *at = (const void *)(it.base + program->dlpi_phdr[i].p_vaddr);
        if (program->dlpi_phdr[i].p_type != PT_DYNAMIC)
            continue;
        for (; at->d_tag != DT_NULL; ++at)
            switch (at->d_tag) {
            case DT_JMPREL:
                calls = place_in(&it, at->d_un.d_ptr);
                break;
            case DT_PLTRELSZ:
                size_of_calls = at->d_un.d_val;
                break;
            case DT_RELA:
                others = place_in(&it, at->d_un.d_ptr);
                break;
            case DT_RELASZ:
                size_of_others = at->d_un.d_val;
                break;
            case DT_SYMTAB:
                it.symbols = (const void *)place_in(&it, at->d_un.d_ptr);
                break;
            case DT_STRTAB:
                it.names = (const char *)place_in(&it, at->d_un.d_ptr);
                break;
            default:
                break;
            }
    }
    if (it.symbols != 0 && it.names != 0) {
        lead_all(&it, calls, size_of_calls);
        lead_all(&it, others, size_of_others);
    }
    return 1;
}

void machine_begin_refusals(void)
{
    if (the_machine.shared->refusals != 0)
        dl_iterate_phdr(lead_program, 0);
}
