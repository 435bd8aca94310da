/* The replies that each operation has, by documents 01 and 02, and which of them were met. */

#ifndef REPLIES_H
#define REPLIES_H

#include "calls.h"

/* Says if a reply is none that the operation has, and counts it if it is one. */
void check_reply(enum operation operation, kolbrees_reply reply);

/* A case for each reply that an operation has: that it was met. */
void check_all_met(void);

#endif
