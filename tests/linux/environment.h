/*
 * environment.h - what Linux's ERST driver finds around itself, in user space.
 *
 * `run` makes a header of one line, which includes this one, for each of the kernel's headers that the driver names and
 * that the kernel does not share with its tables and records. So the driver compiles as it stands. What it calls stands in
 * environment.c; its accesses of memory end in memory.c.
 */
#ifndef ENVIRONMENT_H
#define ENVIRONMENT_H

#include <linux/types.h>
#include <errno.h>
#include <stdbool.h>
#include <stddef.h>
#include <stdint.h>
#include <string.h>
#include <sys/types.h>

typedef uint8_t u8;
typedef uint16_t u16;
typedef uint32_t u32;
typedef unsigned long long u64;
typedef long long s64;
typedef s64 time64_t;

#define __init
#define __iomem
#define __user
#define __packed __attribute__((packed))
#define __weak __attribute__((weak))
#define EXPORT_SYMBOL_GPL(name)
#define THIS_MODULE NULL
/* The one function of the driver that the harness looks up by a name of its own. */
#define device_initcall(function) int driver_start(void) { return function(); }
#define __setup(word, function) static int (*const kernel_##function)(char *) __attribute__((unused)) = function

#define BIT(bit) (1UL << (bit))
#define ARRAY_SIZE(array) (sizeof(array) / sizeof((array)[0]))
#define min(a, b) ((a) < (b) ? (a) : (b))
#define max(a, b) ((a) > (b) ? (a) : (b))
#define clamp_val(value, low, high) min(max(value, low), high)
#define NSEC_PER_USEC 1000L
#define NSEC_PER_MSEC 1000000L

/* Messages. */
#define FW_WARN "firmware: "
#define FW_BUG "firmware: "
#ifndef pr_fmt
#define pr_fmt(text) text
#endif
void kernel_log(const char *format, ...) __attribute__((format(printf, 1, 2)));
#define pr_err(text, ...) kernel_log(pr_fmt(text), ##__VA_ARGS__)
#define pr_warn pr_err
#define pr_info pr_err
#define printk_ratelimit() 1
void kernel_bug(const char *condition) __attribute__((noreturn));
#define BUG_ON(condition) do { if (condition) kernel_bug(#condition); } while (0)

/* Memory. A copy from or to mapped memory is one of the device. */
#define GFP_KERNEL 0
void *kmalloc(size_t size, int flags);
void kfree(const void *block);
#define kvmalloc_array(count, size, flags) kmalloc((size_t)(count) * (size), flags)
#define kvfree kfree
void *bus_copy(void *to, const void *from, size_t size);
#define memcpy bus_copy
#define memmove bus_copy

#define get_unaligned(place) \
    ({ __typeof__(*(place) + 0) found; __builtin_memcpy(&found, place, sizeof *(place)); found; })

/* Lists. */
struct list_head {
    struct list_head *next, *prev;
};
#define LIST_HEAD_INIT(name) { &(name), &(name) }
static inline void INIT_LIST_HEAD(struct list_head *list) { list->next = list->prev = list; }
static inline void list_add(struct list_head *item, struct list_head *behind)
{
    *item = (struct list_head){ behind->next, behind };
    behind->next->prev = item;
    behind->next = item;
}
static inline void list_del(struct list_head *item)
{
    item->prev->next = item->next;
    item->next->prev = item->prev;
}
#define list_entry(item, type, member) ((type *)((char *)(item) - offsetof(type, member)))
#define list_from(item, place, member) list_entry(item, __typeof__(*(place)), member)
#define list_for_each_entry(place, list, member) \
    for (place = list_from((list)->next, place, member); &place->member != (list); \
         place = list_from(place->member.next, place, member))
#define list_for_each_entry_safe(place, following, list, member) \
    for (place = list_from((list)->next, place, member), following = list_from(place->member.next, place, member); \
         &place->member != (list); \
         place = following, following = list_from(following->member.next, following, member))

/* Locks. There is one thread; a lock that is taken twice is a bug. */
typedef struct { bool held; } raw_spinlock_t;
struct mutex { bool held; };
#define DEFINE_RAW_SPINLOCK(name) raw_spinlock_t name
#define __MUTEX_INITIALIZER(name) { false }
static inline int kernel_try(bool *held) { return !*held && (*held = true); }
static inline void kernel_take(bool *held) { BUG_ON(!kernel_try(held)); }
static inline void kernel_give(bool *held) { BUG_ON(!*held); *held = false; }
#define raw_spin_lock_irqsave(lock, flags) ((flags) = 0, kernel_take(&(lock)->held))
#define raw_spin_trylock_irqsave(lock, flags) ((flags) = 0, kernel_try(&(lock)->held))
#define raw_spin_unlock_irqrestore(lock, flags) ((void)(flags), kernel_give(&(lock)->held))
#define mutex_lock(lock) kernel_take(&(lock)->held)
#define mutex_lock_interruptible(lock) (kernel_take(&(lock)->held), 0)
#define mutex_unlock(lock) kernel_give(&(lock)->held)

/* Time. */
void ndelay(unsigned long nanoseconds);
#define udelay(microseconds) ndelay((microseconds) * NSEC_PER_USEC)
#define touch_nmi_watchdog()
#define in_nmi() 0
#define in_interrupt() 0
struct timespec64 {
    time64_t tv_sec;
    long tv_nsec;
};
time64_t ktime_get_real_seconds(void);

/* Identifiers. */
typedef struct { u8 b[16]; } guid_t;
#define GUID_INIT(a, b, c, d0, d1, d2, d3, d4, d5, d6, d7) \
    ((guid_t){ { (a) & 255, (a) >> 8 & 255, (a) >> 16 & 255, (a) >> 24 & 255, (b) & 255, (b) >> 8 & 255, (c) & 255, (c) >> 8 & 255, \
             d0, d1, d2, d3, d4, d5, d6, d7 } })
static inline bool guid_equal(const guid_t *a, const guid_t *b) { return !memcmp(a, b, sizeof *a); }

/* What the record's header names and the driver does not need. */
struct trace_seq;
enum kmsg_dump_reason { KMSG_DUMP_UNDEF, KMSG_DUMP_PANIC, KMSG_DUMP_OOPS };

/* Places in memory. */
struct resource { u64 start, size; struct resource *next; };
struct resource *request_mem_region(u64 start, u64 size, const char *name);
void release_mem_region(u64 start, u64 size);
#define request_region(start, size, name) ((void)(name), (struct resource *)NULL)
#define release_region(start, size)
void *ioremap(u64 address, size_t size);
#define ioremap_cache ioremap
void iounmap(void *mapped);
struct dentry;
#define debugfs_create_dir(name, parent) NULL

/* ACPI. */
typedef u32 acpi_status;
typedef u64 acpi_physical_address;
typedef void *acpi_handle;
#define AE_OK 0u
#define AE_NOT_FOUND 5u
#define AE_ERROR 1u
#define ACPI_FAILURE(status) ((status) != AE_OK)
#define ACPI_ADR_SPACE_SYSTEM_MEMORY 0
#define ACPI_ADR_SPACE_SYSTEM_IO 1
typedef u16 acpi_owner_id;
#define ACPI_FLEX_ARRAY(type, name) struct { struct { } name##_none; type name[]; }
#define ACPI_NAMESEG_SIZE 4
#define ACPI_OEM_ID_SIZE 6
#define ACPI_OEM_TABLE_ID_SIZE 8
#define acpi_disabled 0
#define acpi_format_exception(status) ((void)(status), "error")
#include <acpi/actbl.h>
acpi_status acpi_get_table(const char *signature, u32 instance, struct acpi_table_header **table);
#define acpi_put_table(table) ((void)(table))
void *acpi_os_map_generic_address(struct acpi_generic_address *place);
void acpi_os_unmap_generic_address(struct acpi_generic_address *place);
acpi_status acpi_os_read_memory(acpi_physical_address address, u64 *value, u32 bits);
acpi_status acpi_os_write_memory(acpi_physical_address address, u64 value, u32 bits);
#define acpi_os_read_port(port, value, bits) AE_ERROR
#define acpi_os_write_port(port, value, bits) AE_ERROR
#define acpi_nvs_for_each_region(function, data) ((void)(function), 0)
struct acpi_buffer { size_t length; void *pointer; };
struct acpi_osc_context { void *uuid_str; int rev; struct acpi_buffer cap, ret; };
enum { OSC_QUERY_DWORD, OSC_SUPPORT_DWORD, OSC_CONTROL_DWORD };
#define OSC_QUERY_ENABLE 1
#define acpi_get_handle(parent, path, handle) (*(handle) = NULL, AE_ERROR)
#define acpi_run_osc(handle, context) ((void)(handle), (void)(context), AE_ERROR)

#endif
