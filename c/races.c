/* Which accesses to memory nothing orders: vector clocks. One thread runs at a time, so nothing
 * guards them. */
#include "races.h"

#include <string.h>

enum { CELLS = 1 << 13, MOST_CELLS = CELLS / 2 };

typedef uint32_t clocks[YAK_SEATS + 1];

/* The last access of a thread, by its clock. */
typedef struct mark {
    uint32_t clock;
    uint8_t mask;
    const void *code;
} mark;

typedef struct cell {
    uintptr_t granule;
    unsigned step;          /* in which it was read or written at last */
    unsigned read, written; /* its halves in that step */
    mark reads[YAK_SEATS + 1], writes[YAK_SEATS + 1];
} cell;

static clocks thread_clocks[YAK_SEATS + 1], object_clocks[YAK_MOST_OBJECTS + 1];
static cell cells[CELLS];
static unsigned used;

static void learn(clocks to, const clocks from)
{
    for (unsigned i = 1; i <= YAK_SEATS; ++i)
        if (to[i] < from[i])
            to[i] = from[i];
}

void races_step(unsigned thread, uint32_t object)
{
    uint32_t *own = thread_clocks[thread];
    if (object != 0) {
        learn(own, object_clocks[object]);
        memcpy(object_clocks[object], own, sizeof(clocks));
    }
    ++own[thread];
}

void races_create(unsigned thread, unsigned created)
{
    learn(thread_clocks[created], thread_clocks[thread]);
    ++thread_clocks[created][created];
    ++thread_clocks[thread][thread];
}

void races_join(unsigned thread, unsigned ended)
{
    learn(thread_clocks[thread], thread_clocks[ended]);
}

/* The place of a granule in the table, or of a free cell. */
static unsigned place_of(uintptr_t granule)
{
    unsigned at = (unsigned)((granule / RACES_GRANULE * 0x9E3779B97F4A7C15u) >> 40) % CELLS;
    while (cells[at].granule != 0 && cells[at].granule != granule)
        at = (at + 1) % CELLS;
    return at;
}

/* The cell of a granule; null if there is no room for it. */
static cell *cell_of(uintptr_t granule)
{
    cell *it = &cells[place_of(granule)];
    if (it->granule == 0 && used == MOST_CELLS)
        return 0;
    used += it->granule == 0;
    it->granule = granule;
    return it;
}

static bool find_mark(const mark *marks, unsigned thread, uint8_t mask, races_other *other)
{
    for (unsigned i = 1; i <= YAK_SEATS; ++i) {
        if (i == thread || (marks[i].mask & mask) == 0 ||
            marks[i].clock <= thread_clocks[thread][i])
            continue;
        other->thread = i;
        other->code = marks[i].code;
        return true;
    }
    return false;
}

bool races_find(unsigned thread, const races_access *it, races_other *other)
{
    cell *at = cell_of(it->granule);
    mark *own;
    if (at == 0)
        return false;
    other->is_write = find_mark(at->writes, thread, it->mask, other);
    if (other->is_write || (it->is_write && find_mark(at->reads, thread, it->mask, other)))
        return true;
    if (it->is_atomic)
        return false;
    own = it->is_write ? &at->writes[thread] : &at->reads[thread];
    /* An older one of other bytes is left out. */
    if (own->clock != thread_clocks[thread][thread])
        own->mask = 0;
    own->clock = thread_clocks[thread][thread];
    own->mask |= it->mask;
    own->code = it->code;
    return false;
}

unsigned races_new_halves(uintptr_t granule, bool is_write, unsigned halves, unsigned step)
{
    cell *at = cell_of(granule);
    unsigned known;
    if (at == 0)
        return halves;
    if (at->step != step)
        at->read = at->written = 0;
    at->step = step;
    known = is_write ? at->written : at->read | at->written;
    if (is_write)
        at->written |= halves;
    else
        at->read |= halves;
    return halves & ~known;
}

void races_forget(uintptr_t from, size_t size)
{
    for (unsigned i = 0; i < CELLS; ++i)
        if (cells[i].granule >= from / RACES_GRANULE * RACES_GRANULE &&
            cells[i].granule < from + size) {
            memset(cells[i].reads, 0, sizeof cells[i].reads);
            memset(cells[i].writes, 0, sizeof cells[i].writes);
        }
}
