/* The search engine: a program that reads traces and writes what to run next. */
#define _GNU_SOURCE
#include "explorer.h"

#include <ctype.h>
#include <errno.h>
#include <fcntl.h>
#include <poll.h>
#include <signal.h>
#include <stdlib.h>
#include <string.h>
#include <sys/wait.h>
#include <unistd.h>

enum { MOST_READ = 1 << 16 };

static char *find_engine(void)
{
    static const char *const folders[] = {".", YAK_ENGINE_NEAR, 0};
    const char *named = getenv("YAK_ENGINE");
    char *found;
    if (named != 0 && *named != 0)
        return need(strdup(named));
    if ((found = find_beside("mqexplore", folders)) == 0)
        stop("there is no mqexplore, which says what to run next; YAK_ENGINE may name it");
    return found;
}

void engine_start(engine *it, const options *options)
{
    int to[2], from[2];
    char *path = find_engine();
    if (pipe2(to, O_CLOEXEC) != 0 || pipe2(from, O_CLOEXEC) != 0)
        stop("the engine can't be reached: %s", strerror(errno));
    fflush(0);
    if ((it->process = fork()) == 0) {
        signal(SIGPIPE, SIG_DFL);
        if (dup2(to[0], 0) >= 0 && dup2(from[1], 1) >= 0)
            execl(path, path, (char *)0);
        dprintf(STDERR_FILENO, "yak-explore: %s: %s\n", path, strerror(errno));
        _exit(127);
    }
    close(to[0]);
    close(from[1]);
    it->to = need(fdopen(to[1], "w"));
    it->from = from[0];
    it->text = 0;
    it->count = it->size = 0;
    it->told = 0;
    free(path);
    if (options->bounds == 0)
        fprintf(it->to, "explore none");
    else
        fprintf(it->to, "explore %lu", options->bounds - 1);
    fprintf(it->to, " %lu %s %lu\n", options->budget, options->is_last ? "last" : "any",
            options->check);
    fflush(it->to);
}

void engine_stop(engine *it)
{
    int status;
    kill(it->process, SIGKILL);
    fclose(it->to);
    close(it->from);
    free(it->text);
    waitpid(it->process, &status, 0);
}

/* ---- what it asks for ---- */

static unsigned long read_number(char **at, unsigned long most, const char *line)
{
    char *end;
    const unsigned long it = strtoul(*at, &end, 10);
    if (end == *at || it > most)
        stop("the engine asks for '%s'", line);
    *at = end;
    return it;
}

/* Whether a word comes next; it is taken then. */
static bool takes_word(char **at, const char *word)
{
    const size_t len = strlen(word);
    while (**at == ' ')
        ++*at;
    if (strncmp(*at, word, len) != 0 || ((*at)[len] != ' ' && (*at)[len] != 0))
        return false;
    *at += len;
    return true;
}

static bool has_number(char **at)
{
    while (**at == ' ')
        ++*at;
    return isdigit((unsigned char)**at);
}

static void read_run(char *at, yak_explored *to, const char *line)
{
    while (has_number(&at) && to->choices < YAK_MOST_STEPS) {
        const unsigned long thread = read_number(&at, YAK_SEATS, line);
        unsigned long variant = 0;
        if (*at == '.') {
            ++at;
            variant = read_number(&at, YAK_SEATS, line);
        }
        to->choice[to->choices++] = (uint16_t)(thread | variant << 8);
    }
    if (takes_word(&at, "lead"))
        while (has_number(&at) && to->leads < YAK_MOST_STEPS)
            to->lead[to->leads++] = (uint8_t)read_number(&at, YAK_SEATS, line);
    if (takes_word(&at, "sleep"))
        while (has_number(&at) && to->sleepers < YAK_MOST_SLEEPS) {
            yak_sleeper *it = &to->sleeper[to->sleepers++];
            it->thread = (uint32_t)read_number(&at, YAK_SEATS, line);
            if (*at++ != ':')
                stop("the engine asks for '%s'", line);
            it->object = (uint32_t)read_number(&at, YAK_MOST_OBJECTS, line);
        }
    if (*at != 0)
        stop("the engine asks for '%s'", line);
}

/* Waits until the engine says more, and reads it: false at its end, or if the time is used up. */
static bool read_more(engine *it, const options *options, bool *is_late)
{
    struct pollfd from = {.fd = it->from, .events = POLLIN};
    ssize_t len;
    int ready;
    while ((ready = poll(&from, 1, milliseconds_left(options, -1))) < 0 && errno == EINTR)
        ;
    *is_late = ready == 0;
    if (ready <= 0)
        return false;
    if (it->size - it->count < MOST_READ) {
        it->size += MOST_READ;
        it->text = need(realloc(it->text, it->size));
    }
    len = read(it->from, it->text + it->count, MOST_READ);
    if (len > 0)
        it->count += (size_t)len;
    return len > 0;
}

/* The next line: null at the end, or if the time is used up. It lasts until the next. */
static char *read_line(engine *it, const options *options, bool *is_late)
{
    static char *line;
    char *end;
    size_t len;
    while (it->count == 0 || (end = memchr(it->text, '\n', it->count)) == 0)
        if (!read_more(it, options, is_late))
            return 0;
    len = (size_t)(end - it->text);
    line = need(realloc(line, len + 1));
    memcpy(line, it->text, len);
    line[len] = 0;
    it->count -= len + 1;
    memmove(it->text, end + 1, it->count);
    return line;
}

asked engine_read(engine *it, const options *options, yak_explored *to, char **line)
{
    bool is_late = false;
    char *text = read_line(it, options, &is_late), *at = text;
    if (text == 0)
        return is_late ? ASKED_LATE : ASKED_NOTHING;
    *line = text;
    to->choices = to->leads = to->sleepers = 0;
    to->is_random = false;
    if (takes_word(&at, "run")) {
        read_run(at, to, text);
        return ASKED_RUN;
    }
    if (takes_word(&at, "random")) {
        to->is_random = true;
        to->seed = strtoull(at, 0, 10);
        to->changes = (uint32_t)(to->seed % 4);
        return ASKED_RUN;
    }
    if (takes_word(&at, "bound"))
        return ASKED_BOUND;
    if (takes_word(&at, "done"))
        return ASKED_DONE;
    stop("the engine says '%s'", text);
}

/* ---- what it is told ---- */

static void put_number(FILE *to, uint32_t number)
{
    char digits[12];
    unsigned count = 0;
    do
        digits[count++] = (char)('0' + number % 10);
    while ((number /= 10) != 0);
    while (count != 0)
        putc_unlocked(digits[--count], to);
}

static void put_thread(FILE *to, const yak_record *it)
{
    putc_unlocked(' ', to);
    put_number(to, it->thread);
    putc_unlocked(':', to);
    fputs_unlocked(yak_kind_word(it->kind), to);
    putc_unlocked(':', to);
    put_number(to, it->object);
    putc_unlocked(':', to);
    put_number(to, (it->flags & ~(unsigned)YAK_ODD) |
                       ((it->flags & YAK_ODD) != 0 ? (unsigned)YAK_TIMED : 0));
    putc_unlocked(':', to);
    put_number(to, it->able);
    putc_unlocked(':', to);
    put_number(to, it->variants);
    putc_unlocked(':', to);
    put_number(to, it->arg);
}

/* The threads of one kind of record that follow one another: behind them. */
static const yak_record *put_threads(FILE *to, const yak_record *at, const yak_record *end)
{
    const uint8_t what = at->what;
    fputs_unlocked(what == YAK_AT ? "at" : "left", to);
    for (; at != end && (at->what == what || at->what == YAK_HOLDS); ++at)
        if (at->what == what)
            put_thread(to, at);
    putc_unlocked('\n', to);
    return at;
}

static const yak_record *put_records(FILE *to, const yak_record *at, const yak_record *end)
{
    switch (at->what) {
    case YAK_AT:
    case YAK_LEFT:
        return put_threads(to, at, end);
    case YAK_CHOSE:
        fprintf(to, "chose %u %u\n", at->thread, at->variants);
        break;
    case YAK_ALSO:
        fprintf(to, "also %s %u\n", yak_kind_word(at->kind), at->object);
        break;
    case YAK_GAVE:
        fprintf(to, "gave %u %u\n", at->object, at->arg);
        break;
    default:
        break;
    }
    return at + 1;
}

static const char *word_of_end(const run *it)
{
    /* After a race the others' steps are missing, as after a signal. */
    static const char *const words[] = {"done",  "done",  "deadlock", "steps",
                                        "unfit", "slept", "died",     "died"};
    if (it->is_hung)
        return "hung";
    if (it->end <= YAK_END_DONE && WIFSIGNALED(it->status))
        return "died";
    return words[it->end];
}

/* The threads that were parked when a run ended suddenly: those in front of the last step, but the
 * one that made it. */
static void put_left(FILE *to, const yak_explored *of)
{
    const yak_record *last = of->record + of->records, *at;
    while (last != of->record && last[-1].what != YAK_CHOSE)
        --last;
    if (last == of->record)
        return;
    for (at = last - 1; at != of->record && at[-1].what == YAK_AT; --at)
        ;
    fputs_unlocked("left", to);
    for (; at->what == YAK_AT; ++at)
        if (at->thread != last[-1].thread)
            put_thread(to, at);
    putc_unlocked('\n', to);
}

void engine_tell(engine *it, const yak_explored *of, const run *result, bool fails)
{
    const yak_record *at = of->record, *end = of->record + of->records;
    for (; it->told < of->objects; ++it->told)
        if (of->object[it->told].room != 0)
            fprintf(it->to, "room %u %u\n", it->told + 1, of->object[it->told].room);
    while (at != end)
        at = put_records(it->to, at, end);
    if (result->end == YAK_END_NONE)
        put_left(it->to, of);
    fprintf(it->to, "end %s %d\n", word_of_end(result), fails);
    fflush(it->to);
}
