/* Places in the source of the program, which addr2line finds by its symbols, if both are there. */
#define _GNU_SOURCE
#include "explorer.h"

#include <elf.h>
#include <fcntl.h>
#include <limits.h>
#include <stdlib.h>
#include <string.h>
#include <sys/wait.h>
#include <unistd.h>

enum { MOST_ADDRESSES = 4096, LONGEST = 512 };

/* ---- addresses in the program's file ---- */

static char *file_of(const program *it)
{
    char link[64], path[PATH_MAX];
    ssize_t len;
    snprintf(link, sizeof link, "/proc/%d/exe", it->server);
    len = readlink(link, path, sizeof path - 1);
    if (len <= 0)
        return 0;
    path[len] = 0;
    return need(strdup(path));
}

/* Whether the addresses of a file's symbols count from where it lies in memory. */
static bool is_movable(const char *path)
{
    Elf64_Ehdr head = {0};
    const int file = open(path, O_RDONLY | O_CLOEXEC);
    const bool is_read = file >= 0 && read(file, &head, sizeof head) == (ssize_t)sizeof head;
    if (file >= 0)
        close(file);
    return is_read && head.e_type == ET_DYN;
}

/* Where the file lies in the memory of the server, which is that of each run. */
static void find_program(places *to, const program *it)
{
    char maps[64], line[PATH_MAX + 128];
    FILE *from;
    snprintf(maps, sizeof maps, "/proc/%d/maps", it->server);
    if ((from = fopen(maps, "re")) == 0)
        return;
    while (fgets(line, sizeof line, from) != 0) {
        unsigned long begin, end;
        const char *path = strchr(line, '/');
        const size_t len = strlen(to->path);
        if (path == 0 || strncmp(path, to->path, len) != 0 || path[len] != '\n' ||
            sscanf(line, "%lx-%lx", &begin, &end) != 2)
            continue;
        if (to->begin == 0)
            to->begin = begin;
        to->end = end;
    }
    fclose(from);
    to->base = is_movable(to->path) ? to->begin : 0;
}

static bool is_in(const places *all, uint64_t address)
{
    return address > all->begin && address <= all->end;
}

/* ---- what addr2line says ---- */

static place *find(places *all, uint64_t address)
{
    for (unsigned i = 0; i < all->count; ++i)
        if (all->them[i].address == address)
            return &all->them[i];
    return 0;
}

static void add(places *all, uint64_t address)
{
    if (!is_in(all, address) || all->count == MOST_ADDRESSES || find(all, address) != 0)
        return;
    all->them = need(realloc(all->them, (all->count + 1) * sizeof *all->them));
    all->them[all->count++] = (place){.address = address};
}

/* Whether a place is one of the program's own code, and not of a library that was compiled into it.
 */
static bool is_own(const char *at)
{
    return *at != '?' && strncmp(at, "/rustc/", 7) != 0 && strncmp(at, "/usr/include/", 13) != 0 &&
           strstr(at, "/rustlib/") == 0;
}

/* Adds the place of a call to that of what it calls. */
static void add_place(place *to, const char *at, const char *function)
{
    const char *file = strrchr(at, '/') != 0 ? strrchr(at, '/') + 1 : at;
    char *before = to->text, *text;
    if (asprintf(&text, "%s%s%s in %s", before != 0 ? before : "",
                 before != 0 ? ", called at " : "", file, function) < 0)
        stop("no memory");
    free(before);
    to->text = text;
}

/* Reads the answers: a line with an address, and then for it and each function into which it was
 * inlined the name and the place. */
static void read_answers(places *all, FILE *from)
{
    char function[LONGEST], at[LONGEST];
    place *it = 0;
    while (fgets(function, sizeof function, from) != 0) {
        function[strcspn(function, "\n")] = 0;
        if (strncmp(function, "0x", 2) == 0) {
            it = find(all, strtoull(function, 0, 16) + 1 + all->base);
            continue;
        }
        if (fgets(at, sizeof at, from) == 0)
            break;
        at[strcspn(at, " \n")] = 0;
        /* Without lines there is still the file. */
        if (strlen(at) > 2 && strcmp(at + strlen(at) - 2, ":?") == 0)
            at[strlen(at) - 2] = 0;
        if (it != 0 && is_own(at))
            add_place(it, at, function);
    }
}

static void ask(places *all)
{
    int to[2], from[2];
    FILE *said;
    pid_t child, writer;
    if (all->count == 0 || pipe2(to, O_CLOEXEC) != 0 || pipe2(from, O_CLOEXEC) != 0)
        return;
    fflush(0);
    if ((child = fork()) == 0) {
        const int nowhere = open("/dev/null", O_WRONLY);
        if (dup2(to[0], 0) >= 0 && dup2(from[1], 1) >= 0 && dup2(nowhere, 2) >= 0)
            execlp("addr2line", "addr2line", "-a", "-i", "-f", "-C", "-e", all->path, (char *)0);
        _exit(127);
    }
    close(to[0]);
    close(from[1]);
    /* The answers wait in the pipe, which has room for many of them; another process writes. */
    if ((writer = fork()) == 0) {
        close(from[0]);
        for (unsigned i = 0; i < all->count; ++i)
            dprintf(to[1], "0x%llx\n", (unsigned long long)(all->them[i].address - all->base - 1));
        _exit(0);
    }
    close(to[1]);
    said = need(fdopen(from[0], "r"));
    read_answers(all, said);
    fclose(said);
    if (writer > 0)
        waitpid(writer, 0, 0);
    if (child > 0)
        waitpid(child, 0, 0);
}

/* ---- a run ---- */

void places_find(places *all, const program *it)
{
    const yak_explored *of = it->shared;
    uint32_t steps = 0;
    memset(all, 0, sizeof *all);
    if (it->server <= 0 || (all->path = file_of(it)) == 0)
        return;
    find_program(all, it);
    for (uint32_t i = 0; i < of->records; ++i)
        steps += of->record[i].what == YAK_CHOSE;
    for (uint32_t i = 0; i < steps && i < YAK_MOST_STEPS; ++i)
        for (unsigned k = 0; k < YAK_FRAMES; ++k)
            add(all, of->place[i][k]);
    for (unsigned i = 0; i < YAK_SEATS; ++i)
        for (unsigned k = 0; k < YAK_FRAMES; ++k)
            add(all, of->last_place[i][k]);
    add(all, of->race[0]);
    add(all, of->race[1]);
    ask(all);
}

static const char *text_of(const places *all, uint64_t address)
{
    for (unsigned i = 0; i < all->count; ++i)
        if (all->them[i].address == address)
            return all->them[i].text;
    return 0;
}

const char *place_of(const places *all, const uint64_t *frames, unsigned count)
{
    static char text[2 * LONGEST];
    unsigned found = 0;
    for (unsigned i = 0; i < count && frames[i] != 0 && found < 2; ++i) {
        const char *it = text_of(all, frames[i]);
        if (it == 0)
            continue;
        if (found++ == 0)
            snprintf(text, sizeof text, "%s", it);
        else if (strstr(text, ", called at ") == 0)
            snprintf(text + strlen(text), sizeof text - strlen(text), ", called at %s", it);
    }
    return found != 0 ? text : 0;
}

void places_free(places *all)
{
    for (unsigned i = 0; i < all->count; ++i)
        free(all->them[i].text);
    free(all->them);
    free(all->path);
}
