/* What a side, the port's or the Rust's, gives to drive.c, and the two marks that it sets around a call. */
#ifndef BENCH_H
#define BENCH_H
#include <stddef.h>

/* Nothing is counted but what runs between them. */
void bench_on(void);
void bench_off(void);

/* A device that is powered on, with so many data slots (IN 1, OUT 1, IN 2, ..) allocated and enabled. */
void side_setup(int slots);
/* One call of a row between the marks, always from the state that side_setup left: 0, or 1 if the side has no such
   call. It ends the program where the call doesn't answer as the row wants. */
int side_run(const char *row);
/* How many records the last call gave; -1 where that wasn't counted. */
int side_records(void);
/* Bytes of the state. */
size_t side_state_size(void);
#endif
