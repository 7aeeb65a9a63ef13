/* Descriptors for poll, select and epoll. Each is an eventfd. A call that makes its queue empty or
 * nonempty lowers or raises it, inside the lock. If another process makes the call, a thread of the
 * library does so in this process (notices.c). */
#define _GNU_SOURCE
#include "log.h"

#include <errno.h>
#include <fcntl.h>
#include <string.h>
#include <sys/eventfd.h>
#include <sys/syscall.h>
#include <unistd.h>

typedef struct polled {
    bool is_there;
    bool is_raised;
    int file;
} polled;

/* Indexed by the description, and used inside the lock. */
static polled all[DESCRIPTIONS];

/* Makes the file readable if the queue has a message, otherwise unreadable. */
static void renew(uint32_t d)
{
    polled *it = &all[d];
    yak_attributes attributes = {0};
    uint64_t count = 1;
    uint32_t answer;
    const int error = errno;
    MADE(answer, yak_proved_getattr(&the_program.processes[program_dispatcher_of(d)],
                                    program_there(d), &attributes));
    if (answer == YAK_DONE && (attributes.curmsgs > 0) != it->is_raised) {
        it->is_raised = !it->is_raised;
        if (it->is_raised)
            syscall(SYS_write, it->file, &count, sizeof count);
        else
            syscall(SYS_read, it->file, &count, sizeof count);
    }
    errno = error;
}

void program_renew_polls(uint32_t d)
{
    for (uint32_t other = 0; other < DESCRIPTIONS; ++other)
        if (all[other].is_there && (d >= DESCRIPTIONS || program_is_same_queue(other, d)))
            renew(other);
}

void program_tell_polls(uint32_t d)
{
    if (program_here->me->polls != 0)
        program_renew_polls(d);
    if (the_program.polls == program_here->me->polls)
        return;
    for (unsigned i = 0; i < the_program.owners_used; ++i)
        if (&the_program.owners[i] != program_here->me && the_program.owners[i].polls != 0)
            program_ring(&the_program.owners[i]);
}

bool program_has_polls(void)
{
    return program_here->me->polls != 0;
}

void program_forget_polls(void)
{
    memset(all, 0, sizeof all);
}

void program_drop_poll(uint32_t d)
{
    if (!all[d].is_there)
        return;
    syscall(SYS_close, all[d].file);
    all[d].is_there = false;
    --program_here->me->polls;
    --the_program.polls;
}

/* Makes the file of a description: 0, or an errno value. */
static int add(uint32_t d)
{
    const int file = eventfd(0, EFD_CLOEXEC | EFD_NONBLOCK);
    if (file == -1)
        return errno;
    all[d] = (polled){.is_there = true, .file = file};
    ++program_here->me->polls;
    ++the_program.polls;
    renew(d);
    if (!program_is_alone())
        program_begin_notifier();
    return 0;
}

int yak_program_poll_fd(int mqdes)
{
    int error, file = -1;
    uint32_t d;
    if ((error = program_enter()) == 0) {
        d = program_number(mqdes);
        if (d >= DESCRIPTIONS || the_program.tables.descriptions[d].access == O_WRONLY)
            error = EBADF;
        else if (!all[d].is_there)
            error = add(d);
        if (error == 0)
            file = all[d].file;
        program_leave();
    }
    if (error != 0)
        errno = error;
    return file;
}
