/* What a thread writes before it sends a message can be read after the message is received: boxes
 * pass from thread to thread by their pointers, and no lock guards them. ThreadSanitizer reports no
 * race. */
#include <yakyrombe.h>

#include <pthread.h>
#include <string.h>

enum { BOXES = 2, ROUNDS = 500, THREADS = 3 };

typedef struct box {
    unsigned long count;
    uint32_t last;
} box;

static const yak_opening OPENING = {
    .maxmsg = BOXES, .msgsize = sizeof(box *), .access = 2, .create = true, .limited = true};
static const uint8_t NAME[] = {'/', 'b', 'o', 'x'};
static yak_process processes[1 + THREADS];
static uint32_t failed[1 + THREADS];

static uint32_t take(yak_process *process, uint32_t d, box **it)
{
    yak_message message;
    uint8_t bytes[sizeof *it];
    uint32_t answer = yak_receive(process, d, bytes, sizeof bytes, &message);
    if (answer == YAK_DONE)
        memcpy(it, bytes, sizeof *it);
    return answer;
}

static uint32_t give(yak_process *process, uint32_t d, box *it)
{
    uint8_t bytes[sizeof it];
    memcpy(bytes, &it, sizeof it);
    return yak_send(process, d, bytes, sizeof bytes, 0);
}

static void *work(void *of)
{
    yak_process *process = (yak_process *)of;
    uint32_t *fault = &failed[process - processes], d = 0;
    *fault = yak_open(process, NAME, sizeof NAME, &OPENING, &d);
    for (int i = 0; i < ROUNDS && *fault == YAK_DONE; ++i) {
        box *it;
        *fault = take(process, d, &it);
        if (*fault != YAK_DONE)
            break;
        ++it->count;
        it->last = process->number;
        *fault = give(process, d, it);
    }
    return 0;
}

int main(void)
{
    box boxes[BOXES] = {{0, 0}, {0, 0}}, *it = 0;
    pthread_t threads[THREADS];
    unsigned long count = 0;
    uint32_t answer, d = 0;
    if (yak_new(processes, 1 + THREADS) != YAK_DONE)
        return 1;
    answer = yak_open(&processes[0], NAME, sizeof NAME, &OPENING, &d);
    for (int i = 0; i < THREADS; ++i)
        if (pthread_create(&threads[i], 0, work, &processes[1 + i]) != 0)
            return 1;
    for (int i = 0; i < BOXES; ++i)
        answer |= give(&processes[0], d, &boxes[i]);
    for (int i = 0; i < THREADS; ++i)
        answer |= (uint32_t)pthread_join(threads[i], 0) | failed[1 + i];
    for (int i = 0; i < BOXES; ++i) {
        answer |= take(&processes[0], d, &it);
        count += it->count;
    }
    printf("%u: %lu\n", (unsigned)answer, count);
    return yak_finish(processes, 1 + THREADS) != YAK_DONE || answer != YAK_DONE ||
           count != (unsigned long)THREADS * ROUNDS;
}
