/* What yak-explore prints, and the folders of failing runs. */
#define _GNU_SOURCE
#include "explorer.h"

#include <errno.h>
#include <fcntl.h>
#include <stdlib.h>
#include <string.h>
#include <sys/stat.h>
#include <sys/wait.h>
#include <unistd.h>

/* The outcomes for which the places of the threads are looked up are fewer, since it takes time. */
enum { MOST_LINES = 20, MOST_OUTCOMES = 20, MOST_PLACED = 5 };

static const char *plural(unsigned long count)
{
    return count == 1 ? "" : "s";
}

/* The program with its arguments, for a shell. */
static void write_words(FILE *to, char *const *words)
{
    for (; *words != 0; ++words) {
        const bool is_plain = **words != 0 && strpbrk(*words, " \t\n'\"\\$&|;<>()*?[]#~`!{}") == 0;
        fputc(' ', to);
        if (is_plain) {
            fputs(*words, to);
            continue;
        }
        fputc('\'', to);
        for (const char *at = *words; *at != 0; ++at)
            fputs(*at == '\'' ? "'\\''" : (char[]){*at, 0}, to);
        fputc('\'', to);
    }
}

void write_command(FILE *to, const outcome *of, const program *it)
{
    char *schedule = schedule_of(of, it->options);
    fprintf(to, "YAK_SCHEDULE=\"%s\"", schedule);
    if (it->library != 0)
        fprintf(to, " LD_PRELOAD=%s", it->library);
    write_words(to, it->options->words);
    fputc('\n', to);
    free(schedule);
}

static void write_indented(FILE *to, const char *text)
{
    unsigned lines = 0;
    for (const char *at = text, *end; *at != 0; at = end) {
        end = strchrnul(at, '\n');
        if (++lines > MOST_LINES) {
            fprintf(to, "    ..\n");
            return;
        }
        fprintf(to, "    %.*s\n", (int)(end - at), at);
        end += *end != 0;
    }
}

/* ---- where the threads of a run were ---- */

/* Makes a run again, and keeps where its steps were asked for. */
static void repeat(const outcome *of, program *it, places *found)
{
    run again;
    ask_for(of, it->shared);
    it->shared->wants_places = true;
    memset(it->shared->last_place, 0, sizeof it->shared->last_place);
    memset(it->shared->race, 0, sizeof it->shared->race);
    program_run(it, &again);
    it->shared->wants_places = false;
    free(again.printed);
    places_find(found, it);
}

/* The name of a thread, if it has one of its own. */
static const char *name_of(const yak_explored *of, unsigned thread)
{
    const char *name = of->thread_name[thread - 1];
    return thread > 1 && *name != 0 && strcmp(name, of->thread_name[0]) != 0 ? name : "";
}

static void write_thread(FILE *to, const char *before, const yak_explored *of, unsigned thread,
                         const char *place)
{
    const char *name = name_of(of, thread);
    if (place != 0)
        fprintf(to, "%s thread %u%s%s%s: %s\n", before, thread, *name != 0 ? " (" : "", name,
                *name != 0 ? ")" : "", place);
}

/* Whether a thread had not ended when the run did. */
static bool is_there(const yak_explored *of, unsigned thread)
{
    uint32_t last = 0;
    for (uint32_t i = 0; i < of->records; ++i)
        if (of->record[i].what == YAK_AT || of->record[i].what == YAK_LEFT)
            last = of->record[i].what == YAK_LEFT ? UINT32_MAX : of->record[i].step;
    for (uint32_t i = 0; i < of->records; ++i) {
        const yak_record *it = &of->record[i];
        if (it->thread == thread && ((it->what == YAK_LEFT && last == UINT32_MAX) ||
                                     (it->what == YAK_AT && it->step == last)))
            return true;
    }
    return false;
}

/* Where the threads were at the end of a run, or what two accesses of a data race are. Each line
 * begins with `before`. */
static void write_places(FILE *to, const char *before, const yak_explored *of, const places *found)
{
    if (of->race[0] != 0)
        for (unsigned i = 0; i < 2; ++i)
            write_thread(to, before, of, of->race_thread[i], place_of(found, &of->race[i], 1));
    else
        for (unsigned thread = 1; thread <= YAK_SEATS; ++thread)
            if (is_there(of, thread))
                write_thread(to, before, of, thread,
                             place_of(found, of->last_place[thread - 1], YAK_FRAMES));
}

static void write_outcome(FILE *to, const outcome *of, program *it)
{
    const char *rest = strchrnul(of->what, '\n');
    fprintf(to, "%s: %.*s, %lu run%s, first in run %lu, %u preemption%s\n",
            of->fails     ? "failure"
            : of->is_open ? "undecided"
                          : "outcome",
            (int)(rest - of->what), of->what, of->runs, plural(of->runs), of->first,
            of->preemptions, plural(of->preemptions));
    if (*rest != 0)
        write_indented(to, rest + 1);
    if (of->fails || of->is_open) {
        fprintf(to, "  repeat it: ");
        write_command(to, of, it);
        if (it->server > 0 && of->fails && it->placed++ < MOST_PLACED) {
            places found;
            repeat(of, it, &found);
            write_places(to, " ", it->shared, &found);
            places_free(&found);
        }
    }
}

void write_report(const outcomes *all, program *it)
{
    unsigned others = 0;
    for (unsigned i = 0; i < all->count; ++i)
        if (all->them[i].fails)
            write_outcome(stdout, &all->them[i], it);
    for (unsigned i = 0; i < all->count; ++i)
        if (!all->them[i].fails && ++others <= MOST_OUTCOMES)
            write_outcome(stdout, &all->them[i], it);
    if (others > MOST_OUTCOMES)
        printf("and %u other outcomes, none of which fails\n", others - MOST_OUTCOMES);
}

/* ---- the lanes of a run ---- */

/* Whether a wait ended by itself: it has no deadline, or that is its second way to end. */
static bool is_odd(const step *it)
{
    return (it->chosen->flags & YAK_TIMED) == 0 || it->choice->variants == 1;
}

static void write_result(FILE *to, const yak_explored *of, const step *it)
{
    char text[64];
    if (it->chosen->able == YAK_LATE && is_odd(it))
        fprintf(to, ": it ends by itself");
    else if (it->chosen->able == YAK_LATE)
        fprintf(to, ": its deadline passes");
    for (const yak_record *at = it->follows; at != it->end; ++at) {
        if (at->what == YAK_GAVE && at->object != 0)
            fprintf(to, ": %s", strerror((int)at->object));
        if (at->what == YAK_ALSO && at->kind == STEP_CREATE)
            fprintf(to, ", creates thread %u", at->object);
        else if (at->what == YAK_ALSO && (at->kind == STEP_UNLOCK || at->kind == STEP_POST))
            fprintf(to, ", %s %s", at->kind == STEP_POST ? "posts" : "unlocks",
                    object_name(of, at->object, text, sizeof text));
    }
}

/* What a step does, to the end of a line. */
static void write_what(FILE *to, const yak_explored *of, const step *it, const places *found)
{
    const char *place =
        place_of(found, of->place[(it->choice->step - 1u) % YAK_MOST_STEPS], YAK_FRAMES);
    char text[64];
    fputs(call_name(it->chosen), to);
    if (it->chosen->kind == STEP_JOIN)
        fprintf(to, " thread %u", it->chosen->arg);
    else if (it->chosen->object != 0 && it->chosen->kind != STEP_OPEN &&
             it->chosen->kind != STEP_UNLINK)
        fprintf(to, " %s", object_name(of, it->chosen->object, text, sizeof text));
    write_result(to, of, it);
    if (place != 0)
        fprintf(to, "  [%s]", place);
    fputc('\n', to);
}

static void write_step(FILE *to, const yak_explored *of, const step *it, unsigned threads,
                       const places *found)
{
    fprintf(to, "%5u%s", it->choice->step, it->preempts ? "*" : " ");
    for (unsigned i = 1; i <= threads; ++i)
        if (i == it->choice->thread)
            fprintf(to, " %2u", i);
        else
            fprintf(to, "  |");
    fputs("  ", to);
    write_what(to, of, it, found);
}

static unsigned count_threads(const yak_explored *of)
{
    unsigned most = 1;
    for (uint32_t i = 0; i < of->records; ++i)
        if (of->record[i].thread > most)
            most = of->record[i].thread;
    return most;
}

/* A lane for each thread, downwards. */
static void write_lanes(FILE *to, const yak_explored *of, const outcome *outcome,
                        const places *found)
{
    const unsigned threads = count_threads(of);
    steps all = steps_of(of);
    fprintf(to, "A line is a step: its number, the thread that makes it in the lane of its number, "
                "and the call.\nA * marks a preemption.\n\n");
    for (unsigned thread = 2; thread <= threads; ++thread)
        if (*name_of(of, thread) != 0)
            fprintf(to, "Thread %u is %s.\n", thread, name_of(of, thread));
    for (step it; next_step(&all, &it);)
        write_step(to, of, &it, threads, found);
    fprintf(to, "\n%s", outcome->what);
}

/* ---- folders ---- */

static char *path_in(const char *folder, const char *name)
{
    char *path;
    if (asprintf(&path, "%s/%s", folder, name) < 0)
        stop("no memory");
    return path;
}

static FILE *open_in(const char *folder, const char *name, const char *mode)
{
    char *path = path_in(folder, name);
    FILE *to = fopen(path, mode);
    if (to == 0)
        stop("%s: %s", path, strerror(errno));
    free(path);
    return to;
}

static void make_folder(const char *path)
{
    if (mkdir(path, 0777) != 0 && errno != EEXIST)
        stop("%s: %s", path, strerror(errno));
}

/* The steps of a run, and how it ended, behind the lines of the threads that made its entries. */
static void add_end(const char *folder, const yak_explored *of, const outcome *outcome,
                    const places *found)
{
    FILE *to = open_in(folder, "threads", "a");
    steps all = steps_of(of);
    for (step it; next_step(&all, &it);) {
        fprintf(to, "step %5u%s thread %u  ", it.choice->step, it.preempts ? "*" : " ",
                it.choice->thread);
        write_what(to, of, &it, found);
    }
    for (const char *at = outcome->what, *end; *at != 0; at = end) {
        end = strchrnul(at, '\n');
        fprintf(to, "end %.*s\n", (int)(end - at), at);
        end += *end != 0;
    }
    write_places(to, "end", of, found);
    fclose(to);
}

/* Lets mqlog write a page of the run, if it is there. */
static void write_page(const char *folder)
{
    static const char *const folders[] = {".", "../crates/mqlog/out", 0};
    char *mqlog = find_beside("mqlog", folders), *page = path_in(folder, "page.html"),
         *journal = path_in(folder, "journal"), *threads = path_in(folder, "threads");
    int status = 0;
    pid_t child = -1;
    fflush(0);
    if (mqlog != 0 && (child = fork()) == 0) {
        const int to = open(page, O_WRONLY | O_CREAT | O_TRUNC, 0666);
        if (to >= 0 && dup2(to, 1) >= 0)
            execl(mqlog, mqlog, "view", "--threads", threads, journal, (char *)0);
        _exit(WRONG_USE);
    }
    if (child > 0 && (waitpid(child, &status, 0) != child || status != 0))
        fprintf(stderr, "yak-explore: %s: mqlog wrote no page\n", folder);
    free(mqlog);
    free(page);
    free(journal);
    free(threads);
}

static void write_folder(const char *folder, const outcome *of, program *it)
{
    char *schedule = schedule_of(of, it->options), *printed = path_in(folder, "output"),
         *journal = path_in(folder, "journal"), *threads = path_in(folder, "threads");
    FILE *to;
    places found;
    make_folder(folder);
    to = open_in(folder, "schedule", "w");
    fprintf(to, "%s\n", schedule);
    fclose(to);
    repeat(of, it, &found);
    to = open_in(folder, "lanes", "w");
    write_lanes(to, it->shared, of, &found);
    fclose(to);
    if (program_run_alone(it, schedule, printed, journal, threads) == 0)
        fprintf(stderr, "yak-explore: %s: outside the explorer this run did not fail\n", folder);
    add_end(folder, it->shared, of, &found);
    places_free(&found);
    write_page(folder);
    free(schedule);
    free(printed);
    free(journal);
    free(threads);
}

void write_folders(const outcomes *all, program *it)
{
    unsigned count = 0;
    make_folder(it->options->output);
    for (unsigned i = 0; i < all->count; ++i)
        if (all->them[i].fails && ++count <= MOST_OUTCOMES) {
            char name[32], *folder;
            snprintf(name, sizeof name, "failure-%u", count);
            folder = path_in(it->options->output, name);
            write_folder(folder, &all->them[i], it);
            free(folder);
        }
}
