/*
 * environment.h - what Linux's driver of error sources finds around itself, in user space.
 *
 * It adds to the environment of the ERST driver. Services stand in environment.c, and all that reaches memory, ports and
 * interrupts in linux.c.
 */
#ifndef GHES_ENVIRONMENT_H
#define GHES_ENVIRONMENT_H

#define CONFIG_ACPI_APEI 1
#define CONFIG_ACPI_APEI_GHES 1
#define CONFIG_ACPI_APEI_MEMORY_FAILURE 1
#define CONFIG_ACPI_APEI_PCIEAER 1
#define CONFIG_ARCH_HAVE_NMI_SAFE_CMPXCHG 1
#define CONFIG_HAVE_ACPI_APEI_NMI 1
#define CONFIG_X86 1

#include "../environment.h"
#undef memcpy
#undef memmove
#undef acpi_os_read_port
#undef acpi_os_write_port
#include <signal.h>
#include <stdio.h>

#define TEXT_OF(words) #words
#define IS_ENABLED(option) (TEXT_OF(option)[0] == '1')

#define __read_mostly
#define __rcu
#define EXPORT_SYMBOL_NS_GPL(name, space)
#define module_param_named(name, value, type, mode)
#define container_of(member_at, type, member) ((type *)((char *)(member_at) - offsetof(type, member)))
#define BUG() kernel_bug("BUG")
#define WARN_ON_ONCE(condition) BUG_ON(condition)
#define WARN_ONCE(condition, ...) ({ BUG_ON(condition); false; })
#define do_div(number, by) ((number) /= (by))
#define ERR_PTR(status) ((void *)(intptr_t)(status))
#define PTR_ERR(pointer) ((int)(intptr_t)(pointer))
#define IS_ERR(pointer) ((uintptr_t)(pointer) > (uintptr_t)-4096)
#define ENOTSUPP 524
typedef guid_t uuid_t;
#define BIT_ULL(bit) (1ULL << (bit))
#define GENMASK(high, low) ((~0UL << (low)) & (~0UL >> (63 - (high))))
#define GENMASK_ULL(high, low) ((u64)GENMASK(high, low))
#define FIELD_GET(mask, value) (((value) & (mask)) / ((mask) & -(mask)))

/* Messages. */
#define KERN_EMERG ""
#define KERN_ERR ""
#define KERN_WARNING ""
#define HW_ERR ""
#define printk kernel_log
#define pr_emerg pr_err
#define pr_debug pr_err
#define pr_warn_once pr_err
#define pr_warn_ratelimited pr_err
#define pr_err_ratelimited pr_err
#define dev_err(device, ...) ((void)(device), kernel_log(__VA_ARGS__))
struct ratelimit_state { int none; };
#define DEFINE_RATELIMIT_STATE(name, interval, burst) struct ratelimit_state name
bool kernel_prints(void);
#define __ratelimit(state) ((void)(state), kernel_prints())

/* Memory: all of it is given back when the machine starts again. */
#define kzalloc(size, flags) memset(kmalloc(size, flags), 0, size)
#define kmalloc_array(count, size, flags) kmalloc((size_t)(count) * (size), flags)
#define vmalloc(size) kmalloc(8, 0)
#define vfree(block) kfree(block)
struct gen_pool { size_t left; };
struct gen_pool *gen_pool_create(int order, int node);
#define gen_pool_add(pool, address, size, node) ((pool)->left = (size), 0)
#define gen_pool_destroy(pool) kfree(pool)
unsigned long gen_pool_alloc(struct gen_pool *pool, size_t size);
void gen_pool_free(struct gen_pool *pool, unsigned long address, size_t size);

/* Numbers, lists and locks. */
typedef struct { int value; } atomic_t;
#define ATOMIC_INIT(number) { number }
#define atomic_read(number) ((number)->value)
#define atomic_set(number, to) ((number)->value = (to))
#define atomic_inc(number) ((number)->value++)
#define atomic_dec(number) ((number)->value--)
#define atomic_inc_return(number) (++(number)->value)
#define atomic_add_return(more, number) ((number)->value += (more))
#define atomic_add_unless(number, more, unless) ((number)->value != (unless) && ((number)->value += (more), true))
#define LIST_HEAD(name) struct list_head name = LIST_HEAD_INIT(name)
#define list_empty(list) ((list)->next == (list))
#define list_add_tail(item, list) list_add(item, (list)->prev)
#define list_add_rcu list_add
#define list_del_rcu list_del
#define list_for_each_entry_rcu list_for_each_entry
struct llist_node { struct llist_node *next; };
struct llist_head { struct llist_node *first; };
#define llist_entry list_entry
void llist_add(struct llist_node *node, struct llist_head *list);
struct llist_node *llist_del_all(struct llist_head *list);
struct llist_node *llist_reverse_order(struct llist_node *node);
typedef raw_spinlock_t spinlock_t;
#define DEFINE_SPINLOCK(name) raw_spinlock_t name
#define DEFINE_MUTEX(name) struct mutex name
#define raw_spin_lock(lock) kernel_take(&(lock)->held)
#define raw_spin_unlock(lock) kernel_give(&(lock)->held)
#define spin_lock_irqsave raw_spin_lock_irqsave
#define spin_unlock_irqrestore raw_spin_unlock_irqrestore
#define guard(kind) (void)
#define scoped_guard(kind, lock) if ((void)(lock), true)
struct rcu_head { int none; };
#define rcu_read_lock()
#define rcu_read_unlock()
#define synchronize_rcu()
#define rcu_dereference(pointer) (pointer)
#define unrcu_pointer(pointer) (pointer)
#define RCU_INITIALIZER(pointer) (pointer)
#define call_rcu(head, function) (function)(head)
#define xchg_release(place, next) ({ __typeof__(*(place)) before = *(place); *(place) = (next); before; })

/* Work that is done later. */
struct work_struct { void (*func)(struct work_struct *work); };
#define INIT_WORK(work, function) ((work)->func = (function))
bool schedule_work(struct work_struct *work);
#define cancel_work_sync(work) ((void)(work), false)
struct irq_work { void (*func)(struct irq_work *work); };
#define init_irq_work(work, function) ((work)->func = (function))
bool irq_work_queue(struct irq_work *work);
struct callback_head { void (*func)(struct callback_head *head); };
enum { TWA_RESUME };
#define task_work_add(task, work, mode) ((void)(work), -ESRCH)
#define DEFINE_KFIFO(name, type, depth) static struct { type last; } name
#define kfifo_put(fifo, value) ((fifo)->last = (value), true)
#define kfifo_get(fifo, value) ((void)(value), 0)
#define kfifo_reset(fifo)

/* Calls to whoever has asked for them: nobody has, but for the driver's own at the hardware error device. */
struct notifier_block { int (*notifier_call)(struct notifier_block *block, unsigned long event, void *data); };
enum { NOTIFY_DONE, NOTIFY_OK };
#define ATOMIC_NOTIFIER_HEAD(name) int name
#define BLOCKING_NOTIFIER_HEAD(name) int name
#define blocking_notifier_chain_register(list, block) 0
#define blocking_notifier_chain_unregister(list, block) ((void)(block))
#define atomic_notifier_chain_register blocking_notifier_chain_register
#define atomic_notifier_chain_unregister blocking_notifier_chain_unregister
#define blocking_notifier_call_chain(list, event, data) ((void)(data))
#define atomic_notifier_call_chain(list, event, data) ((void)(data))

/* Time, timers and interrupts. */
#define HZ 250
#define jiffies 0
#define msecs_to_jiffies(time) (time)
#define round_jiffies_relative(time) (time)
unsigned long long sched_clock(void);
struct timer_list {
    unsigned long expires;
    void (*function)(struct timer_list *timer);
};
#define from_timer(place, timer, member) container_of(timer, __typeof__(*(place)), member)
#define timer_setup(timer, call, flags) ((timer)->function = (call))
void add_timer(struct timer_list *timer);
void timer_shutdown_sync(struct timer_list *timer);
typedef int irqreturn_t;
enum { IRQ_NONE, IRQ_HANDLED, IRQF_SHARED };
#define acpi_gsi_to_irq(line, irq) (*(irq) = (line), 0)
int request_irq(unsigned irq, irqreturn_t (*function)(int irq, void *data), int flags, const char *name, void *data);
void free_irq(unsigned irq, void *data);
struct pt_regs;
enum { NMI_LOCAL, NMI_DONE = 0, NMI_HANDLED };
int register_nmi_handler(int type, int (*function)(unsigned command, struct pt_regs *registers), int flags, const char *name);
void unregister_nmi_handler(int type, const char *name);

/* Devices. */
struct device { void *platform_data, *driver_data; };
struct platform_device {
    struct device dev;
    int id;
};
struct platform_driver {
    struct { const char *name; } driver;
    int (*probe)(struct platform_device *device);
    void (*remove_new)(struct platform_device *device);
};
struct platform_device *platform_device_alloc(const char *name, int id);
int platform_device_add_data(struct platform_device *device, const void *data, size_t size);
int platform_device_add(struct platform_device *device);
#define platform_device_put(device) kfree(device)
#define platform_device_unregister(device) kfree(device)
int platform_driver_register(struct platform_driver *driver);
#define platform_set_drvdata(device, data) ((device)->dev.driver_data = (data))
#define platform_get_drvdata(device) ((device)->dev.driver_data)

/* Pages. */
typedef u64 phys_addr_t;
typedef int pgprot_t;
enum fixed_addresses { FIX_APEI_GHES_IRQ, FIX_APEI_GHES_NMI, __end_of_fixed_addresses };
#define PAGE_SIZE 4096u
#define PAGE_MASK (~4095ull)
#define PAGE_ALIGN(size) (((size) + 4095) & PAGE_MASK)
#define PFN_PHYS(page) ((u64)(page) << 12)
#define PHYS_PFN(address) ((address) >> 12)
#define arch_apei_get_mem_attribute(address) ((void)(address), 0)
void __set_fixmap(enum fixed_addresses index, phys_addr_t address, pgprot_t attributes);
void clear_fixmap(enum fixed_addresses index);
unsigned long __fix_to_virt(int index);
int virt_to_fix(unsigned long address);
void memcpy_fromio(void *to, const void *from, size_t size);
void memcpy_toio(void *to, const void *from, size_t size);
acpi_status acpi_os_read_port(u64 port, u32 *value, u32 bits);
acpi_status acpi_os_write_port(u64 port, u32 value, u32 bits);

/* What is done with an error. The driver names `guid_null` where it has a block to deal with, and `add_taint` where it panics. */
struct ghes;
struct acpi_hest_generic_status;
void kernel_takes(struct ghes *ghes, const struct acpi_hest_generic_status *block, bool panics);
static const guid_t kernel_no_guid;
#define guid_null (*({ kernel_takes(ghes, estatus, false); &kernel_no_guid; }))
#define add_taint(taint, lockdep) kernel_takes(ghes, estatus, true)
#define panic_timeout 1
void panic(const char *message) __attribute__((noreturn));
enum { MF_ACTION_REQUIRED, MF_SOFT_OFFLINE };
#define memory_failure_queue(page, flags) ((void)(page), (void)(flags))
#define memory_failure_queue_kick(cpu)
#define pfn_valid(page) true
#define arch_is_platform_page(address) false
#define log_arm_hw_error(error, severity)
#define log_non_standard_event(type, id, text, severity, bytes, size) ((void)(id), (void)(text), (void)(bytes))
#define acpi_disable_cmcff 1
struct task { const char *comm; void *mm; };
#define current (&(struct task){ "", NULL })
#define task_pid_nr(task) 1
#define force_sig(number)
#define smp_processor_id() 0
#define PCI_DEVFN(device, function) ((device) << 3 | (function))

/* Other parts of the kernel. */
#define acpi_sdei_init()
#define osc_sb_apei_support_acked 0
#define sdei_register_ghes(ghes, normal, critical) -EOPNOTSUPP
#define sdei_unregister_ghes(ghes) -EOPNOTSUPP
struct acpi_platform_list { char oem_id[7], oem_table_id[9]; u32 oem_revision; char *table; int pred; };
enum { all_versions };
#define acpi_match_platform_list(list) -1

#endif
