#include "checks.h"

#include <inttypes.h>
#include <stdarg.h>
#include <stdio.h>

/* so many are printed, the others only counted */
#define MOST_FAULTS 40

static unsigned long passed, failed, faults;
static bool at_fault;

void fault(const char *format, ...)
{
    at_fault = true;
    if (faults++ >= MOST_FAULTS) {
        return;
    }
    va_list values;
    va_start(values, format);
    vprintf(format, values);
    va_end(values);
    putchar('\n');
}

bool end_case(void)
{
    bool well = !at_fault;
    *(well ? &passed : &failed) += 1;
    at_fault = false;
    return well;
}

void same_number(const char *what, uint64_t got, uint64_t expected)
{
    if (got != expected) {
        fault("%s: %" PRIu64 ", not %" PRIu64, what, got, expected);
    }
    end_case();
}

int report(void)
{
    printf("%lu passed, %lu failed\n", passed, failed);
    return failed == 0 ? 0 : 1;
}
