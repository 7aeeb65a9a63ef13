/* explorer.h: the parts of yak-explore. docs/explore.md says what it is for. */
#ifndef YAKYROMBE_EXPLORER_H
#define YAKYROMBE_EXPLORER_H

#include <explore.h>

#include <stdio.h>
#include <time.h>

/* The statuses of yak-explore. */
enum { EVERY_ORDER = 0, WRONG_USE = 2, FAILURE = 5, NOT_EVERY_ORDER = 6 };

typedef struct options {
    bool is_last; /* --time last */
    bool stops;   /* --stop */
    unsigned long bounds, budget, early, check, seconds, steps, polls, step_seconds, spurious,
        signals, refusals;
    struct timespec until; /* the last moment, if there are seconds */
    const char *output;
    char **words; /* the program and its arguments */
} options;

/* Ends yak-explore with a line on the error stream. */
void stop(const char *format, ...) __attribute__((noreturn, format(printf, 1, 2)));
void *need(void *memory);
/* The milliseconds that are left of `--seconds`, at the most so many. */
int milliseconds_left(const options *of, int most);
/* Where a file is: beside yak-explore, or in a folder named from there; null if it is nowhere. */
char *find_beside(const char *name, const char *const *folders);

/* ---- the program under test (program.c) ---- */

/* What a run came to. */
typedef struct run {
    yak_end end;   /* YAK_END_NONE if the program ended without saying so */
    bool is_hung;  /* a step computed for too long, and the run was killed */
    bool is_late;  /* the seconds were used up, and it was killed */
    int status;    /* as waitpid has it */
    char *printed; /* on both streams, a string */
} run;

typedef struct program {
    const options *options;
    char *library; /* with the machine; null if the program has that in it */
    pid_t server;
    int link, printed; /* files */
    off_t before;      /* what was printed before the first run */
    unsigned placed;   /* how many outcomes were repeated for places */
    bool is_gone;      /* it ended before its first run, with this status */
    int status;
    yak_explored *shared;
} program;

void program_start(program *it, const options *options);
/* Makes the run that it->shared asks for. If it can't be decided, it->shared->doubt says why. */
void program_run(program *it, run *result);
void program_stop(program *it);
/* Runs the program once without the server, by YAK_SCHEDULE: its status, or -1 if it was killed
 * since it took too long. What it prints goes to a file, its journal to another, and the threads of
 * the journal's entries to a third. */
int program_run_alone(const program *it, const char *schedule, const char *printed,
                      const char *journal, const char *threads);

/* ---- the search engine (engine.c) ---- */

typedef struct engine {
    pid_t process;
    FILE *to;
    int from;
    char *text; /* what it has said and nobody has read: `count` bytes */
    size_t count, size;
    uint32_t told; /* how many objects it knows */
} engine;

typedef enum asked { ASKED_RUN, ASKED_BOUND, ASKED_DONE, ASKED_NOTHING, ASKED_LATE } asked;

void engine_start(engine *it, const options *options);
void engine_stop(engine *it);
/* Reads what the engine asks for next. A run is written into `to`; the line stays in `line`. */
asked engine_read(engine *it, const options *options, yak_explored *to, char **line);
/* Tells it what a run was. */
void engine_tell(engine *it, const yak_explored *of, const run *result, bool fails);

/* ---- outcomes (outcomes.c) ---- */

typedef struct choice {
    unsigned step;
    uint8_t thread, variant;
} choice;

/* A step of a run, from the records. */
typedef struct step {
    const yak_record *at; /* the parked threads */
    unsigned parked;
    const yak_record *chosen;  /* the one of them that went on */
    const yak_record *choice;  /* what of it was chosen */
    const yak_record *follows; /* what it did, up to `end` */
    const yak_record *end;
    bool preempts; /* it took the turn from a thread that could go on */
    bool is_local; /* it was no choice */
    bool is_by_rule;
} step;

typedef struct steps {
    const yak_explored *of;
    const yak_record *next;
    uint8_t last; /* the thread that ran last */
} steps;

/* The steps of a run, one after the other; false after the last. */
steps steps_of(const yak_explored *of);
bool next_step(steps *all, step *it);

typedef struct outcome {
    char *what;          /* how a run ended, and what it printed: a line, and indented lines */
    bool fails, is_open; /* it can't be decided whether it fails */
    unsigned long runs, first;
    unsigned long searched;       /* of these runs, by the search, and not at random */
    unsigned preemptions, length; /* of the shortest schedule */
    choice *choices;              /* of it: those that are not the rule's */
    bool is_each, is_begun;
} outcome;

typedef struct outcomes {
    outcome *them;
    unsigned count, failing;
} outcomes;

/* Keeps what a run came to: whether it fails. One that was not made to its end is not kept. */
bool outcomes_keep(outcomes *all, const yak_explored *of, const run *result, unsigned long number);
/* An outcome that only runs at random have had, or null. */
const outcome *outcome_not_searched(const outcomes *all);
/* The text of YAK_SCHEDULE. */
char *schedule_of(const outcome *it, const options *options);
/* Asks for that schedule. */
void ask_for(const outcome *it, yak_explored *to);
/* The name of an object in a report. */
const char *object_name(const yak_explored *of, uint32_t object, char *text, size_t size);
const char *call_name(const yak_record *of);
/* Writes where a thread waits: a call, on an object. */
void write_wait(FILE *to, const yak_explored *of, const yak_record *it);

/* ---- what a program contains that is not seen (atomics.c) ---- */

typedef enum atomics { ATOMICS_NONE, ATOMICS_SOME, ATOMICS_UNKNOWN } atomics;

/* Whether the code of a program has atomic operations, by its instructions. */
atomics atomics_in(const char *program);

/* ---- places in the source (places.c) ---- */

typedef struct place {
    uint64_t address; /* to which a call returns */
    char *text;       /* or null */
} place;

/* The places of the program's code that a run came by. */
typedef struct places {
    char *path; /* of the program's file, which lies in memory from `begin` to `end` */
    uint64_t begin, end, base;
    place *them;
    unsigned count;
} places;

/* Finds those of the run that was made last with it->shared->wants_places. */
void places_find(places *all, const program *it);
/* The first of these addresses that has a place, FILE:LINE in FUNCTION, and where that is called;
 * null if none has. It lasts until the next. */
const char *place_of(const places *all, const uint64_t *frames, unsigned count);
void places_free(places *all);

/* ---- the report (report.c) ---- */

/* The command that repeats a run, as a line. */
void write_command(FILE *to, const outcome *of, const program *it);

/* Prints the outcomes. Repeats those that fail, to say where the threads are. */
void write_report(const outcomes *all, program *it);
/* Writes a folder for each failure. */
void write_folders(const outcomes *all, program *it);

#endif
