#ifndef SUMS_H
#define SUMS_H

/* Answers how many lines of the paper's sums were done. */
unsigned run_sums(void);

#endif
