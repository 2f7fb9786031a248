/* Error sources in the memory of guests, and what is known of each: the hypervisor's side makes the accesses that the library tells, and
 * a guest's side reads as an operating system does. What is wrong is told on standard error, and counted. */
#ifndef GUESTS_H
#define GUESTS_H

#include "apei.h"

#include <stdbool.h>

enum { MEMORY = 8192, PORTS = 512, WINDOW = 400, KEPT = 16, GUESTS = 3 };

/* What a guest does next: it looks for a block; it copies one; it reads the acknowledge register; it writes it. */
enum reader { LOOKS, COPIES, OWES, ANSWERS };

struct block {
    size_t size;
    uint8_t bytes[WINDOW + 40];
};

/* A guest with one source. Blocks have numbers from 0 on, and the last few of them are kept. */
struct guest {
    uint32_t number;
    apei_source source;
    unsigned made; /* accesses since it started */
    bool awaits;   /* it was notified of a block that is not given back */
    enum reader reader;
    size_t copied;
    uint8_t copy[WINDOW];
    uint64_t answer;
    uint64_t submitted, taken, given_back;
    struct block blocks[KEPT];
};

struct world {
    apei_ghes ghes;
    unsigned count;
    struct guest guests[GUESTS];
    size_t next[2]; /* the first free byte of memory, and the first free port */
};

/* What happened, over all worlds. */
extern struct tally {
    unsigned long long steps, blocks, notices, full, wrong;
} tally;

void expect(bool right, const char *what);

/* A number below n; the next ones are others. */
uint64_t below(uint64_t n);
void seed(uint64_t number);

/* Another world: 1 to 3 guests, each with a source of any layout, over a memory of any bytes. Its sources are open. */
void begin(struct world *world);
void end(struct world *world);

/* A block is submitted: one that the source takes if it has a place, or one that it has to refuse. */
void submit(struct world *world, struct guest *guest);
void submit_bad(struct world *world, struct guest *guest);

/* The next access of a source is made; whether there was one that could go on. */
bool serve(struct world *world, struct guest *guest);

/* One thing that a guest does which keeps to the reader's side. */
void read_on(struct guest *guest);

/* It starts again, over any bytes. */
void restart(struct world *world, struct guest *guest);

/* Any bytes are written anywhere. */
void scribble(void);

/* A block of at most so many bytes, which is the same each time for a number. */
void make_block(struct block *block, size_t most);

/* How long the block is that the bytes begin with, of which there are 20 at least (ACPI 6.4, section 18.3.2.7.1). */
size_t block_length(const uint8_t *bytes);

#endif
