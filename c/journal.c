/* The lines of a journal, in libyakyrombe-journal.a. */
#include "proved.h"
#include "wait.h"

#include <stdlib.h>

/* What is read, and where it is written. */
typedef struct reading {
    uint64_t place;
    uint8_t *text;
    size_t size;
    size_t *len;
} reading;

static uint32_t try_entry(yak_process *process, void *of)
{
    const reading *it = of;
    return yak_proved_entry(process, it->place, it->text, it->size, it->len);
}

uint32_t yak_entry(yak_process *process, uint64_t place, uint8_t *text, size_t size, size_t *len)
{
    reading it = {.place = place, .text = text, .size = size, .len = len};
    return yak_through_(process, try_entry, &it);
}

uint32_t yak_lines(yak_process *process, yak_line *line, void *with)
{
    static uint8_t none[1];
    uint8_t *text = none, *larger;
    size_t size = 0, len;
    uint64_t place = 0;
    uint32_t answer;
    for (;;) {
        answer = yak_entry(process, place, text, size, &len);
        if (answer == YAK_DONE) {
            line(with, text, len);
            ++place;
        } else if (answer != YAK_SHORT) {
            break;
        } else if ((larger = realloc(text != none ? text : 0, 2 * len)) != 0) {
            text = larger;
            size = 2 * len;
        } else {
            answer = YAK_NOMEMORY;
            break;
        }
    }
    free(text != none ? text : 0);
    return answer == YAK_NO_ENTRY ? (uint32_t)YAK_DONE : answer;
}

static void write_line(void *with, const uint8_t *text, size_t len)
{
    fwrite(text, 1, len, with);
}

uint32_t yak_write_journal(yak_process *process, FILE *to)
{
    const uint32_t answer = yak_lines(process, write_line, to);
    if (answer != YAK_DONE)
        return answer;
    return fflush(to) != 0 || ferror(to) ? YAK_NOT_WRITTEN : YAK_DONE;
}
