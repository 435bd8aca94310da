/* Replies compared with the manual's definitions and with one another. */

#ifndef AGREEMENT_H
#define AGREEMENT_H

#include "calls.h"

/* Performs a call, and says if it is turned back by 8, by 9 or for its partition where it should
 * not be, or is not where it should be. Loading is no such call. */
struct outcome attempt(const struct call *call);

/* A query text under a loaded policy, for a partition that it has, decided in a session that it may
 * not have: what deciding, labels, explaining, telling apart and granting say has to agree. */
void check_query(const kolbrees_policy *policy, uint64_t partition, uint64_t session,
                 struct span query);

/* A rule under a loaded policy: the text that it becomes is a well-formed query. */
void check_rule(const kolbrees_policy *policy, struct span rule);

#endif
