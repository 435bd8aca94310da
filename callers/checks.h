/* Counting cases that pass and fail. */

#ifndef CHECKS_H
#define CHECKS_H

#include <stdbool.h>
#include <stdint.h>

/* The case at hand fails: says what differs. */
void fault(const char *format, ...) __attribute__((format(printf, 1, 2)));

/* Ends a case, which has passed if nothing was at fault. Tells whether it has. */
bool end_case(void);

/* A case of its own: two numbers that should be the same. */
void same_number(const char *what, uint64_t got, uint64_t expected);

/* Prints how many cases passed and failed. The exit status: 0 if none failed. */
int report(void);

#endif
