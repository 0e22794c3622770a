/* What a driver may ask of trace.c, and what stands between other calls and the library. */
#ifndef TRACE_H
#define TRACE_H
#include <stdint.h>

/* Whether what is put and got goes in pieces at times, and is answered by numbers that kelifandro.c doesn't answer: the library takes any.
   0 at first. */
extern int trace_pieces;

/* Adds to the hash: that something has passed by this answer, and bytes. */
void trace_passed(int64_t answer);
void trace_bytes(const void *memory, uint64_t n);

#endif
