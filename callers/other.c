/* A library that kolbrees.h is not written for: it is of version 2, and the other functions do
 * nothing. The Python package must not take it. */

#include <stdint.h>

uint64_t kolbrees_version(void);
uint64_t kolbrees_version(void)
{
    return 2;
}

#define NOTHING(name)                                                                             \
    void name(void);                                                                              \
    void name(void)                                                                               \
    {                                                                                             \
    }

NOTHING(kolbrees_about)
NOTHING(kolbrees_load)
NOTHING(kolbrees_open)
NOTHING(kolbrees_decide)
NOTHING(kolbrees_labels)
NOTHING(kolbrees_explain)
NOTHING(kolbrees_compare)
NOTHING(kolbrees_apart)
NOTHING(kolbrees_grant)
NOTHING(kolbrees_import)
