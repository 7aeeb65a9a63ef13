/* What tests see in the reports of their program. */
#ifndef YAK_TESTS_REPORTED_H
#define YAK_TESTS_REPORTED_H

#include <yakyrombe/program.h>

#include "want.h"

/* Returns when `count` calls wait. */
static inline void await_waits(int count)
{
    FILE *nowhere = fopen("/dev/null", "w");
    WANT(nowhere != 0);
    while (yak_program_report(nowhere) < count)
        pause_for(1);
    fclose(nowhere);
}

#endif
