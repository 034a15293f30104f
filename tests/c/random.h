#ifndef RANDOM_H
#define RANDOM_H

/* At least so many calls on rings that are fresh, in use, damaged or absurd, the same ones at every run. Answers how many were made. */
unsigned long run_random(unsigned long wanted);

#endif
