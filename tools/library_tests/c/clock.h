/* The clock of the drivers that measure: what other processes take isn't in it. */
#ifndef CLOCK_H
#define CLOCK_H
#include <time.h>

/* The processor time of this process, in nanoseconds. */
static inline long long
processor_time (void)
{
  struct timespec time;
  clock_gettime (CLOCK_PROCESS_CPUTIME_ID, &time);
  return time.tv_sec * 1000000000LL + time.tv_nsec;
}

#endif
