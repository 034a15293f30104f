#ifndef REFUSALS_H
#define REFUSALS_H

/* Answers how many refusal numbers were met. */
unsigned run_refusals(void);

/* The flag of a waiting consumer, empty buffers, odd addresses. */
void run_edges(void);

#endif
