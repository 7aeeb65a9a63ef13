/* Checkpoints: a new log that begins with an image of the live state, a copy of what the proved
 * library has allocated and of the tables. The system is at rest then, so the copy can take its
 * place later, at the same addresses. A checkpoint only reads what it saves: a process that dies in
 * it has changed nothing, and the other log is still in use. */
#define _GNU_SOURCE
#include "log.h"

#include <string.h>

/* Of this many bytes of an image one is the share of a log: it grows so far until the next image.
 */
enum { SHARE = 8 };

/* The tables of the program that belong to an image. */
typedef struct saved {
    yak_process processes[PROCESSES];
    tables tables;
    uint64_t kept_size; /* behind it: the messages that waiters keep */
} saved;

static size_t whole_words(size_t size)
{
    return (size + 7) & ~(size_t)7;
}

static size_t kept_size(const tables *all)
{
    size_t size = 0;
    for (uint32_t left = all->ended; left != 0; left &= left - 1)
        size += whole_words(all->waits[__builtin_ctz(left)].message.len);
    return size;
}

static char *save_kept(char *to)
{
    const tables *all = &the_program.tables;
    for (uint32_t left = all->ended; left != 0; left &= left - 1) {
        const unsigned process = (unsigned)__builtin_ctz(left);
        const size_t len = all->waits[process].message.len;
        memcpy(to, program_kept_from(process), len);
        to += whole_words(len);
    }
    return to;
}

static void load_kept(const char *from)
{
    const tables *all = &the_program.tables;
    for (uint32_t left = all->ended; left != 0; left &= left - 1) {
        const unsigned process = (unsigned)__builtin_ctz(left);
        const size_t len = all->waits[process].message.len;
        memcpy(log_kept_again(process), from, len);
        from += whole_words(len);
    }
}

bool log_checkpoint(void)
{
    const unsigned old = the_program.log, new = old ^ 1;
    const arena_part *part = &the_program.arena.parts[ARENA_LOG + new];
    const size_t kept = kept_size(&the_program.tables),
                 size = sizeof(saved) + kept + arena_image_size(),
                 most = size / SHARE > LOG_LIMIT ? size / SHARE : (size_t)LOG_LIMIT;
    saved *to = (saved *)(void *)part->from;
    char *end;
    if (!arena_reaches(ARENA_LOG + new, size + most))
        return false;
    memcpy(to->processes, the_program.processes, sizeof to->processes);
    memcpy(&to->tables, &the_program.tables, sizeof to->tables);
    to->kept_size = kept;
    end = arena_save(save_kept((char *)(to + 1)));
    the_program.log_from[new] = the_program.log_next[new] = end;
    the_program.log_limit = (size_t)(end - part->from) + most;
    __atomic_store_n(&the_program.log, new, __ATOMIC_RELEASE);
    __atomic_store_n(&the_program.is_logged, true, __ATOMIC_RELEASE);
    arena_drop(ARENA_LOG + old, the_program.log_limit, the_program.log_next[old]);
    return true;
}

bool log_begin_anew(void)
{
    uint32_t (*const make)(yak_process *, size_t) = the_program.is_stored ? yak_new : yak_unstored;
    arena_clear();
    memset(the_program.processes, 0, sizeof the_program.processes);
    memset(&the_program.tables, 0, sizeof the_program.tables);
    the_program.tables.waiters = the_program.tables.idle = UINT32_MAX & ~(1u << DISPATCHER);
    return make(the_program.processes, PROCESSES) == YAK_DONE;
}

bool log_load_image(void)
{
    const char *from = the_program.arena.parts[ARENA_LOG + the_program.log].from;
    const saved *it = (const saved *)(const void *)from;
    if (the_program.log_from[the_program.log] == from)
        return false;
    memcpy(the_program.processes, it->processes, sizeof it->processes);
    memcpy(&the_program.tables, &it->tables, sizeof it->tables);
    arena_load((const char *)(it + 1) + it->kept_size);
    load_kept((const char *)(it + 1));
    return true;
}
