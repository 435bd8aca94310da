/* What the manual says of policy values and of explanations, written once more. */

#ifndef ORACLE_H
#define ORACLE_H

#include <kolbrees.h>

/* Whether some text loads to the value (section 6, "Policy values"). */
bool is_policy(const kolbrees_policy *policy);

/* The views that a partition grants, view n at bit n - 1. */
uint32_t granted_views(const kolbrees_policy *policy, uint64_t partition);

/* Whether each label holds one of the views. */
bool settles(uint32_t views, const uint64_t *labels, size_t count);

/* The words that explain labels to a partition with these views: how many there are. */
size_t explanation(uint32_t views, const uint64_t *labels, size_t count, uint32_t *words);

/* Whether up to `most` views will do to settle the labels beside these, and the list of the fewest;
 * of equally short lists the one with the lower number at the first difference. View n stands at
 * bit 32 - n, so that this is the greatest word. */
bool smallest_grant(uint32_t views, const uint64_t *labels, size_t count, unsigned most,
                    uint32_t *list);

#endif
