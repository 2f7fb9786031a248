/* The archive's three functions for memory, which list each block until it is given back, and can refuse any request. */
#ifndef HEAP_H
#define HEAP_H

#include <stddef.h>

extern struct heap {
    unsigned held;     /* blocks that the archive holds */
    size_t bytes;      /* that all its requests together asked for */
    unsigned requests; /* that it made */
    unsigned answered; /* requests that are still answered; UINT_MAX where none is refused */
    unsigned strange;  /* blocks that it gave back, or asked to be longer, and did not hold */
} heap;

#endif
