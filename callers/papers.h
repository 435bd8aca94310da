/* Calls whose replies documents 01 and 02 lay down. */

#ifndef PAPERS_H
#define PAPERS_H

/* A case for each call: every word and every refusal's number of each operation. */
void check_papers(void);

#endif
