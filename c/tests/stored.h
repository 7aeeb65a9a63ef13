/* What a test of libyakyrombe-mqueue expects of the journal, stored or not. */
#ifndef YAK_TESTS_STORED_H
#define YAK_TESTS_STORED_H

#include <errno.h>
#include <stdbool.h>
#include <stdlib.h>
#include <yakyrombe/program.h>

/* Whether the journal is stored: YAK_JOURNAL names a file, or a seed decides. */
static inline bool is_stored(void)
{
    const char *path = getenv("YAK_JOURNAL");
    return (path != 0 && *path != 0) || getenv("YAK_SEED") != 0;
}

/* The check finds a stored journal legal, and fails with ENOTSUP if none is stored. */
static inline bool is_checked(void)
{
    const int checked = yak_program_check();
    return is_stored() ? checked == 0 : checked == -1 && errno == ENOTSUP;
}

#endif
