/* What bench/measure.c can be asked to do beside measuring. */
#ifndef MEASURE_H
#define MEASURE_H

/* Runs every stream, and calls that are spoilt on purpose, through all receivers side by side. 0 where all
 * agree, else 1. */
int check(void);

/* Prints how much of the stack each receiver uses at most. 0, or 2 where it cannot be measured. */
int stack(void);

#endif
