/*
 * device.h - an ERST device, as the harness sees it: eight functions. To test a device of your own, write them over it.
 *
 * Sizes and offsets are bytes. The harness puts the device's window somewhere in physical memory, gives the driver the
 * table for that place, and passes each access on as an offset into the window. A function that answers an int answers 0,
 * or another number where it refuses.
 */
#ifndef DEVICE_H
#define DEVICE_H

#include <stddef.h>
#include <stdint.h>

struct device;

/*
 * A device whose records stand in `image`: what it keeps over a loss of power stands there and nowhere else, since the
 * harness ends the process at any access and opens another device over the same bytes. All bytes are 0xFF at first.
 * `words` are the device's own options, as --device-words has them. Null where it can't be opened.
 */
struct device *device_open(const char *words, uint8_t *image, size_t size);
void device_close(struct device *device);

/* Writes the ERST for a window that begins at `base`, and answers its size; 0 where it has none. */
size_t device_table(struct device *device, uint64_t base, uint8_t *table, size_t room);

/* The size of the window: registers, log range, and what lies between. */
size_t device_window(struct device *device);

/* A register access of 1, 2, 4 or 8 bytes. */
int device_read(struct device *device, uint64_t offset, unsigned size, uint64_t *value);
int device_write(struct device *device, uint64_t offset, unsigned size, uint64_t value);

/* Bytes out of the window and into it. The driver asks only for bytes of the log range. */
int device_get(struct device *device, uint64_t offset, uint8_t *bytes, size_t size);
int device_put(struct device *device, uint64_t offset, const uint8_t *bytes, size_t size);

/*
 * The harness has this one: `size` bytes go to `at`, which lies in the image. A device that changes its image by this
 * function alone is also stopped within each change, with four tears. Where it answers another number than 0, the change
 * failed, with such a tear, and the machine goes on: the driver has to be told that its command failed.
 */
int medium_change(uint8_t *at, const uint8_t *bytes, size_t size);

#endif
