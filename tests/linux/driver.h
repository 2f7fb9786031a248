/* driver.h - Linux's ERST driver: started, called, and used by pstore. Where an int is answered it is 0 or -errno. */
#ifndef DRIVER_H
#define DRIVER_H

#include <stdbool.h>
#include <stddef.h>
#include <stdint.h>
#include <sys/types.h>
#include "device.h"

/* Whether the kernel's messages go to standard error. */
extern bool kernel_is_verbose;

/* Loads the driver anew, as the system does when it starts, and starts it on the device's table for `base`. */
int driver_start_on(struct device *device, uint64_t base);

/* The size of the log range, that of the longest record. */
size_t driver_range(void);

int driver_write(const uint8_t *record);
ssize_t driver_read(uint64_t id, uint8_t *record, size_t room);
int driver_clear(uint64_t id);
ssize_t driver_count(void);

/* Lists identifiers as the kernel's users do, up to `room` of them, and answers how many. */
int driver_list(uint64_t *ids, int room);

/* A dump as pstore has it. */
struct dump {
    uint64_t id;
    bool machine_check, compressed;
    size_t size;
    uint8_t *bytes;
};

/* The most bytes of a dump. */
size_t pstore_room(void);

/* Writes a dump, which then has an identifier. */
int pstore_write(struct dump *dump);

/* Opens the store, reads dumps up to `room` of them, and closes it, as when the file system is mounted. Answers how many. */
int pstore_read(struct dump *dumps, int room);
int pstore_erase(uint64_t id);

#endif
