/*
 * environment.h - what Linux's prints of error sections find around themselves, in user space.
 *
 * `run` makes a header of one line, which includes this one, for each of the kernel's headers that the prints name and that
 * are not among those which `tests/linux/fetch` takes. So they compile as they stand. What they call stands in environment.c.
 */
#ifndef ENVIRONMENT_H
#define ENVIRONMENT_H

#include <linux/types.h>
#include <errno.h>
#include <stdbool.h>
#include <stddef.h>
#include <stdint.h>
#include <stdio.h>
#include <string.h>
#include <sys/types.h>

typedef uint8_t u8;
typedef uint16_t u16;
typedef uint32_t u32;
typedef unsigned long long u64;
typedef long long s64;
typedef s64 time64_t;

#define __init
#define __packed __attribute__((packed))
#define EXPORT_SYMBOL(name)
#define EXPORT_SYMBOL_GPL(name)
#define BIT(bit) (1UL << (bit))
#define BIT_ULL(bit) (1ULL << (bit))
#define GENMASK(high, low) ((~0UL << (low)) & (~0UL >> (63 - (high))))
#define GENMASK_ULL(high, low) ((u64)GENMASK(high, low))
#define FIELD_GET(mask, value) (((value) & (mask)) / ((mask) & -(mask)))
#define ARRAY_SIZE(array) (sizeof(array) / sizeof((array)[0]))
#define SZ_16 16
#define for_each_set_bit(bit, bits, size) \
    for ((bit) = 0; (bit) < (int)(size); (bit)++) \
        if (*(bits) >> (bit) & 1)

/* Messages. */
#define FW_WARN "firmware: "
int kernel_print(const char *format, ...);
#define printk kernel_print
#define pr_err kernel_print
#define pr_info kernel_print
enum { DUMP_PREFIX_NONE, DUMP_PREFIX_ADDRESS, DUMP_PREFIX_OFFSET };
void print_hex_dump(const char *level, const char *prefix, int kind, int row, int group, const void *bytes, size_t size, bool letters);
int scnprintf(char *to, size_t size, const char *format, ...);
ssize_t strscpy(char *to, const char *from, size_t size);

/* Identifiers. */
typedef struct { u8 b[16]; } guid_t;
typedef guid_t uuid_t;
#define GUID_INIT(a, b, c, d0, d1, d2, d3, d4, d5, d6, d7) \
    ((guid_t){ { (a) & 255, (a) >> 8 & 255, (a) >> 16 & 255, (a) >> 24 & 255, (b) & 255, (b) >> 8 & 255, (c) & 255, (c) >> 8 & 255, \
             d0, d1, d2, d3, d4, d5, d6, d7 } })
static inline bool guid_equal(const guid_t *a, const guid_t *b) { return !memcmp(a, b, sizeof *a); }

/* What the kernel's headers name and the prints do not use. */
struct list_head { struct list_head *next, *prev; };
struct llist_node { struct llist_node *next; };
struct timer_list { int none; };
struct callback_head { int none; };
struct rcu_head { int none; };
struct notifier_block;
struct work_struct;
struct device;
typedef struct { int value; } atomic_t;
typedef struct { s64 value; } atomic64_t;
#define atomic64_read(number) ((number)->value)
#define atomic64_set(number, to) ((number)->value = (s64)(to))
#define atomic64_inc_return(number) ((u64)++(number)->value)
static inline time64_t ktime_get_real_seconds(void) { return 0; }

struct trace_seq;
static inline const char *trace_seq_buffer_ptr(struct trace_seq *sequence) { (void)sequence; return ""; }
#define trace_seq_printf(sequence, ...) ((void)(sequence))
#define trace_seq_putc(sequence, letter) ((void)(sequence))

/* No module has a place that the firmware named, and no register array is taken for a machine check. */
#define dmi_memdev_name(handle, bank, device) ((void)(handle), (void)(bank), (void)(device))
#define arch_apei_report_x86_error(context, identifier) ((void)(context), (void)(identifier), -EINVAL)

/* ACPI's tables, of which the sections of a status block are a part. */
typedef u16 acpi_owner_id;
typedef u64 acpi_physical_address;
#define ACPI_FLEX_ARRAY(type, name) struct { struct { } name##_none; type name[]; }
#define ACPI_NAMESEG_SIZE 4
#define ACPI_OEM_ID_SIZE 6
#define ACPI_OEM_TABLE_ID_SIZE 8
#include <acpi/actbl.h>

#endif
