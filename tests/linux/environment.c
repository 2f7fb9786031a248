/* environment.c - the kernel's services that have nothing to do with the device. */
#include "environment.h"
#include "bus.h"
#include "driver.h"
#include <stdarg.h>
#include <stdio.h>
#include <stdlib.h>

bool kernel_is_verbose;

void kernel_log(const char *format, ...)
{
    va_list values;

    if (!kernel_is_verbose)
        return;
    va_start(values, format);
    vfprintf(stderr, format, values);
    va_end(values);
}

void kernel_bug(const char *condition)
{
    fprintf(stderr, "BUG: %s\n", condition);
    abort();
}

void *kmalloc(size_t size, int flags)
{
    (void)flags;
    return malloc(size);
}

void kfree(const void *block)
{
    free((void *)block);
}

/* The driver waits for a device that is busy: no time passes, and the wait is counted. */
void ndelay(unsigned long nanoseconds)
{
    (void)nanoseconds;
    bus_counts.waits++;
}

time64_t ktime_get_real_seconds(void)
{
    return 1700000000;
}
