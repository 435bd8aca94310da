/* Texts made by chance: policies, queries and rules, and damage to them. */

#ifndef TEXTS_H
#define TEXTS_H

#include <kolbrees.h>

#include "random.h"
#include "text.h"

/* A policy text that loads. */
void make_policy(struct chance *chance, struct text *text);

/* A query text under a loaded policy; it has nine lines now and then, and is well formed else. */
void make_query(struct chance *chance, const kolbrees_policy *policy, struct text *text);

/* A rule under a loaded policy. Now and then it has nine atoms, or its head names a variable twice,
 * or one that the body lacks. */
void make_rule(struct chance *chance, const kolbrees_policy *policy, struct text *text);

/* Alters a text in one to three places. */
void damage(struct chance *chance, struct text *text);

#endif
