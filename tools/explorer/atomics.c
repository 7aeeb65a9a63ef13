/* Whether the code of a program has atomic operations: instructions that lock the bus. Where bytes
 * look like one, objdump says whether they are, if it is there. */
#define _GNU_SOURCE
#include "explorer.h"

#include <elf.h>
#include <fcntl.h>

#include <stdlib.h>
#include <string.h>
#include <sys/mman.h>
#include <sys/stat.h>
#include <sys/wait.h>
#include <unistd.h>

/* ---- bytes that look like such an instruction ---- */

/* Whether an operand is in memory, by the byte that says so. */
static bool is_memory(uint8_t byte)
{
    return byte >> 6 != 3;
}

/* Whether these bytes, behind a prefix, are an instruction that can be locked. */
static bool can_be_locked(const uint8_t *at)
{
    at += *at == 0x66;
    at += (*at & 0xf0) == 0x40;
    if (*at == 0x0f)
        return (at[1] == 0xb0 || at[1] == 0xb1 || at[1] == 0xc0 || at[1] == 0xc1 || at[1] == 0xc7 ||
                at[1] == 0xab || at[1] == 0xb3 || at[1] == 0xbb || at[1] == 0xba) &&
               is_memory(at[2]);
    return (*at == 0x80 || *at == 0x81 || *at == 0x83 || *at == 0xf6 || *at == 0xf7 ||
            *at == 0xfe || *at == 0xff || *at == 0x86 || *at == 0x87 ||
            (*at < 0x34 && (*at & 7) < 2)) &&
           is_memory(at[1]);
}

/* An exchange with memory locks without a prefix. */
static bool looks_locked(const uint8_t *at)
{
    return (*at == 0xf0 && can_be_locked(at + 1)) ||
           ((*at == 0x86 || *at == 0x87) && at[-1] != 0x0f && is_memory(at[1]));
}

static bool any_looks_locked(const uint8_t *bytes, size_t size)
{
    for (size_t i = 1; i + 8 < size; ++i)
        if (looks_locked(bytes + i))
            return true;
    return false;
}

/* ---- the program's file ---- */

/* Whether the code of a file has them, as far as its bytes show. */
static atomics look_into(const uint8_t *bytes, size_t size)
{
    const Elf64_Ehdr *file = (const void *)bytes;
    const Elf64_Shdr *parts;
    if (size < sizeof *file || memcmp(bytes, ELFMAG, SELFMAG) != 0 ||
        bytes[EI_CLASS] != ELFCLASS64 || file->e_machine != EM_X86_64 || file->e_shoff == 0 ||
        file->e_shoff + file->e_shnum * sizeof *parts > size)
        return ATOMICS_UNKNOWN;
    parts = (const void *)(bytes + file->e_shoff);
    for (unsigned i = 0; i < file->e_shnum; ++i)
        if (parts[i].sh_type == SHT_PROGBITS && (parts[i].sh_flags & SHF_EXECINSTR) != 0 &&
            parts[i].sh_offset + parts[i].sh_size <= size &&
            any_looks_locked(bytes + parts[i].sh_offset, parts[i].sh_size))
            return ATOMICS_SOME;
    return ATOMICS_NONE;
}

/* The file of a program, as the shell finds it; null if it is nowhere. */
static char *path_of(const char *program)
{
    const char *folders = getenv("PATH");
    char *copy, *rest, *path = 0;
    if (strchr(program, '/') != 0 || folders == 0)
        return need(strdup(program));
    copy = rest = need(strdup(folders));
    for (char *folder; path == 0 && (folder = strtok_r(rest, ":", &rest)) != 0;) {
        if (asprintf(&path, "%s/%s", folder, program) < 0)
            stop("no memory");
        if (access(path, X_OK) != 0) {
            free(path);
            path = 0;
        }
    }
    free(copy);
    return path;
}

/* What objdump says of the code. */
static atomics ask_objdump(const char *path)
{
    int said[2];
    char line[512];
    atomics found = ATOMICS_UNKNOWN;
    FILE *from;
    pid_t child;
    if (pipe2(said, O_CLOEXEC) != 0)
        return ATOMICS_UNKNOWN;
    fflush(0);
    if ((child = fork()) == 0) {
        dup2(said[1], 1);
        execlp("objdump", "objdump", "-d", "--no-show-raw-insn", path, (char *)0);
        _exit(127);
    }
    close(said[1]);
    from = need(fdopen(said[0], "r"));
    while (fgets(line, sizeof line, from) != 0) {
        const char *code = strchr(line, '\t');
        if (code == 0)
            continue;
        if (found == ATOMICS_UNKNOWN)
            found = ATOMICS_NONE;
        if (strncmp(code + 1, "lock ", 5) == 0 ||
            (strncmp(code + 1, "xchg ", 5) == 0 && strchr(code, '(') != 0))
            found = ATOMICS_SOME;
    }
    fclose(from);
    if (child > 0)
        waitpid(child, 0, 0);
    return found;
}

atomics atomics_in(const char *program)
{
    char *path = path_of(program);
    const int file = path != 0 ? open(path, O_RDONLY | O_CLOEXEC) : -1;
    struct stat is = {0};
    void *bytes = MAP_FAILED;
    atomics found = ATOMICS_UNKNOWN;
    if (file >= 0 && fstat(file, &is) == 0 && is.st_size > 0)
        bytes = mmap(0, (size_t)is.st_size, PROT_READ, MAP_PRIVATE, file, 0);
    if (bytes != MAP_FAILED) {
        found = look_into(bytes, (size_t)is.st_size);
        munmap(bytes, (size_t)is.st_size);
    }
    if (file >= 0)
        close(file);
    if (found == ATOMICS_SOME)
        found = ask_objdump(path);
    free(path);
    return found;
}
