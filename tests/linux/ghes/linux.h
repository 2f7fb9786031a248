/* linux.h - Linux's driver of error sources: started over a table, told what happens, and stopped. */
#ifndef LINUX_H
#define LINUX_H

#include <stdbool.h>
#include <stddef.h>
#include <stdint.h>

/* How Linux copies memory: as on x86, by 4 bytes; as on ARM64, by 8 bytes and single ones; by single ones. */
enum copies { BY_FOUR, BY_EIGHT, BY_ONE };

/* What happens to Linux. */
enum event {
    START,      /* the system starts: it reads the table, and probes each source */
    TIMER,      /* the timer of the source with this identifier has run out */
    INTERRUPT,  /* an interrupt line is raised */
    DEVICE,     /* the hardware error device is notified: by SCI, GSIV or GPIO */
    NMI,
    WORK,       /* work that was put off is done */
    BIND_AGAIN  /* the source with this identifier is removed, and probed again */
};

void linux_load(const char *driver);

/* Before a start: the table, and how it copies. */
void linux_prepare(const uint8_t *table, size_t size, enum copies copies);

/* Linux deals with an event; whether it came to the end. It does not if it was stopped, or has panicked. */
bool linux_does(enum event event, unsigned number);

/* An NMI in the middle of an event; whether there was a block, as it says. */
bool linux_nmi(void);

/* It stops in the middle of an event, which does not come to its end. */
void linux_stop(void) __attribute__((noreturn));

/* Whether the driver has taken the source of this identifier, and whether it is being probed. */
bool linux_has(unsigned id);
bool linux_probes(void);
bool linux_is_in_nmi(void);

/* Whether Linux takes bytes for an error status block. */
bool linux_takes_block(const uint8_t *bytes);

void environment_start(uint64_t number);

/* ---- What the machine answers ---- */

/* An access of Linux: space 0 is memory, 1 ports. */
uint64_t machine_read(uint32_t space, uint64_t address, uint32_t length);
void machine_write(uint32_t space, uint64_t address, uint32_t length, uint64_t value);

/* Linux deals with a block of the source with this identifier; a fatal one ends in a panic. */
void machine_takes(unsigned id, const uint8_t *bytes, size_t length, bool panics);

#endif
