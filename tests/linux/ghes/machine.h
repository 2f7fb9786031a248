/* machine.h - a hypervisor whose sources Linux reads: their memory, the accesses that the library tells, and what Linux has to do. */
#ifndef MACHINE_H
#define MACHINE_H

#include "../../embed/guests.h"

/* How far Linux is with a source's block: it has seen it, dealt with it, cleared its status, read the acknowledge register. */
enum phase { RESTS, READS, TOOK, CLEARED, ASKED, PHASES };

/* A source, and its blocks by number: so many were submitted, given back by the library, taken by Linux, and cleared in its window. */
struct served {
    apei_source source;
    uint64_t submitted, given_back, taken, cleared;
    enum phase phase;
    bool is_shown;  /* a block stands there that Linux has not acknowledged */
    bool awaits;    /* it was notified */
    uint64_t asked; /* what Linux has read in the acknowledge register */
    struct block blocks[KEPT];
};

struct machine {
    apei_ghes ghes;
    unsigned count;
    struct served served[GUESTS];
    size_t next[2];          /* the first free byte of memory, and the first free port */
    bool raised[GUESTS];     /* interrupt lines */
    bool device, nmi;        /* notifications that wait */
    enum phase stop_in;      /* Linux stops before an access in this phase, or in any (PHASES), */
    unsigned long long stop; /* which is that of this number; 0: nowhere */
    bool is_stopped;         /* it was; otherwise it has panicked */
    bool is_strict;          /* what is wrong is told; otherwise a case looks for itself */
};

extern struct machine machine;

/* What happened, over all machines. */
extern struct counts {
    unsigned long long accesses, taken, again, lost, forgotten, stops[PHASES], panics, stuck, bindings, restarts;
} counts;

/* How many blocks Linux has taken that are not the next one. */
extern unsigned long long machine_takes_others;

/* Before each access of Linux: others have their turn. */
extern void (*machine_turn)(void);

/* A machine whose sources are laid out at random, or are those that were laid out before. */
void machine_lay_out(void);
void machine_open(void);
void machine_close(void);
void machine_scribble(void);

/* Whether all sources have an acknowledge register. */
bool machine_is_of_ten(void);

/* The first accesses of each source, and Linux, which starts anew; whether it came to the end. */
void machine_first_accesses(void);
bool machine_start(unsigned copies);

/* The hypervisor: a block more, unless the source has no place for it; and the next access; whether it could go on. */
void machine_submit(struct served *served);
bool machine_serve(struct served *served);

/* Linux has stopped. The hypervisor is told, and tells the blocks again or forgets them; or it is not told. */
void machine_reset(struct served *served, enum apei_unacknowledged blocks);
bool machine_is_stuck(const struct served *served);
void machine_not_told(struct served *served);

#endif
