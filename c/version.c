/* The version of the library. */
#include <yakyrombe.h>

const char *yak_version(void)
{
    return YAK_VERSION;
}
