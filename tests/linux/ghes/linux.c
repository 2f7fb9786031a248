/* linux.c - loads the driver, starts it as the system does, and passes its accesses on to the machine. */
#include "environment.h"
#include <acpi/apei.h>
#include <acpi/ghes.h>
#include <linux/aer.h>
#include "../out/kernel/drivers/acpi/apei/apei-internal.h"
#include "linux.h"
#include <dlfcn.h>
#include <link.h>
#include <setjmp.h>
#include <stdlib.h>

enum { TABLE_ROOM = 8192, DEVICES = 64, LATER = 64 };

static const struct acpi_table_header *table;
static enum copies copies;
static jmp_buf outside;

/* The driver's own data, as it was loaded. */
static struct { void *at, *copy; size_t size; } data;
static void (*call_hest_init)(void), (*call_ghes_init)(void), (*call_pool_free)(unsigned long address, u32 size);

/* What the driver has asked for. */
static struct platform_device *devices[DEVICES];
static bool is_bound[DEVICES];
static unsigned device_count, later_count;
static struct platform_driver *driver;
static struct notifier_block *device_notifier;
static int (*nmi_handler)(unsigned command, struct pt_regs *registers);
static struct { irqreturn_t (*function)(int irq, void *data); void *data; } lines[DEVICES];
static struct irq_work *irq_work;
static struct work_struct *later[LATER];
static u64 mapped[__end_of_fixed_addresses];
static bool probes, is_in_nmi;

/* ---- Loading ---- */

static int find_data(struct dl_phdr_info *object, size_t size, void *name)
{
    (void)size;
    if (!strstr(object->dlpi_name, name))
        return 0;
    for (int i = 0; i < object->dlpi_phnum; i++) {
        const ElfW(Phdr) *part = &object->dlpi_phdr[i];
        if (part->p_type == PT_LOAD && part->p_flags & PF_W) {
            data.at = (void *)(object->dlpi_addr + part->p_vaddr);
            data.size = part->p_memsz;
        }
    }
    return 1;
}

void linux_load(const char *path)
{
    void *module = dlopen(path, RTLD_NOW | RTLD_LOCAL);

    if (!module) {
        fprintf(stderr, "%s\n", dlerror());
        exit(1);
    }
    call_hest_init = (void (*)(void))dlsym(module, "acpi_hest_init");
    call_ghes_init = (void (*)(void))dlsym(module, "acpi_ghes_init");
    call_pool_free = (void (*)(unsigned long, u32))dlsym(module, "ghes_estatus_pool_region_free");
    dl_iterate_phdr(find_data, "ghes/driver.so");
    BUG_ON(!call_hest_init || !call_ghes_init || !call_pool_free || !data.size);
    data.copy = malloc(data.size);
    memcpy(data.copy, data.at, data.size);
}

void linux_prepare(const uint8_t *bytes, size_t size, enum copies how)
{
    static _Alignas(16) u8 room[TABLE_ROOM];

    BUG_ON(size > sizeof room);
    memcpy(room, bytes, size);
    table = (const struct acpi_table_header *)room;
    copies = how;
    memcpy(data.at, data.copy, data.size);
    device_count = later_count = 0;
    driver = NULL;
    device_notifier = NULL;
    nmi_handler = NULL;
    irq_work = NULL;
    memset(lines, 0, sizeof lines);
    memset(is_bound, 0, sizeof is_bound);
    probes = is_in_nmi = false;
}

acpi_status acpi_get_table(const char *signature, u32 instance, struct acpi_table_header **found)
{
    u8 sum = 0;

    (void)instance;
    for (u32 i = 0; i < table->length; i++)
        sum += ((const u8 *)table)[i];
    if (memcmp(table->signature, signature, ACPI_NAMESEG_SIZE) || sum)
        return AE_NOT_FOUND;
    *found = (struct acpi_table_header *)table;
    return AE_OK;
}

/* ---- Devices ---- */

struct platform_device *platform_device_alloc(const char *name, int id)
{
    struct platform_device *device = kzalloc(sizeof *device, GFP_KERNEL);

    (void)name;
    device->id = id;
    return device;
}

int platform_device_add_data(struct platform_device *device, const void *bytes, size_t size)
{
    device->dev.platform_data = kmalloc(size, GFP_KERNEL);
    memcpy(device->dev.platform_data, bytes, size);
    return 0;
}

int platform_device_add(struct platform_device *device)
{
    BUG_ON(device_count == DEVICES);
    devices[device_count++] = device;
    return 0;
}

static void probe(unsigned index)
{
    probes = true;
    is_bound[index] = driver->probe(devices[index]) == 0;
    probes = false;
}

int platform_driver_register(struct platform_driver *registered)
{
    driver = registered;
    for (unsigned i = 0; i < device_count; i++)
        probe(i);
    return 0;
}

static int index_of(unsigned id)
{
    for (unsigned i = 0; i < device_count; i++)
        if (devices[i]->id == (int)id)
            return (int)i;
    return -1;
}

static struct ghes *ghes_of(unsigned id)
{
    return platform_get_drvdata(devices[index_of(id)]);
}

bool linux_has(unsigned id)
{
    return index_of(id) >= 0 && is_bound[index_of(id)];
}

bool linux_probes(void)
{
    return probes;
}

bool linux_is_in_nmi(void)
{
    return is_in_nmi;
}

/* ---- Interrupts and work ---- */

void add_timer(struct timer_list *timer) { (void)timer; }
void timer_shutdown_sync(struct timer_list *timer) { (void)timer; }

int request_irq(unsigned irq, irqreturn_t (*function)(int irq, void *data), int flags, const char *name, void *of)
{
    (void)flags, (void)name;
    BUG_ON(irq >= DEVICES);
    lines[irq].function = function;
    lines[irq].data = of;
    return 0;
}

void free_irq(unsigned irq, void *of)
{
    (void)of;
    lines[irq].function = NULL;
}

int register_nmi_handler(int type, int (*function)(unsigned command, struct pt_regs *registers), int flags, const char *name)
{
    (void)type, (void)flags, (void)name;
    nmi_handler = function;
    return 0;
}

void unregister_nmi_handler(int type, const char *name)
{
    (void)type, (void)name;
    nmi_handler = NULL;
}

int register_acpi_hed_notifier(struct notifier_block *block)
{
    device_notifier = block;
    return 0;
}

void unregister_acpi_hed_notifier(struct notifier_block *block)
{
    (void)block;
    device_notifier = NULL;
}

bool irq_work_queue(struct irq_work *work)
{
    irq_work = work;
    return true;
}

bool schedule_work(struct work_struct *work)
{
    BUG_ON(later_count == LATER);
    later[later_count++] = work;
    return true;
}

static void do_work(void)
{
    struct irq_work *now = irq_work;

    irq_work = NULL;
    if (now)
        now->func(now);
    while (later_count > 0) {
        struct work_struct *work = later[--later_count];
        work->func(work);
    }
}

/* Where another processor is in the handler, the driver leaves at once. */
bool linux_nmi(void)
{
    bool was_in_nmi = is_in_nmi, handled;

    if (!nmi_handler)
        return false;
    is_in_nmi = true;
    handled = nmi_handler(0, NULL) == NMI_HANDLED;
    is_in_nmi = was_in_nmi;
    return handled;
}

/* A PCIe error goes to another driver, which gives back what it was told. */
void aer_recover_queue(int domain, unsigned int bus, unsigned int devfn, int severity, struct aer_capability_regs *registers)
{
    (void)domain, (void)bus, (void)devfn, (void)severity;
    call_pool_free((unsigned long)registers, sizeof *registers);
}

int cper_severity_to_aer(int severity)
{
    return severity;
}

/* ---- Events ---- */

static void start(void)
{
    call_hest_init();
    call_ghes_init();
}

static void bind_again(unsigned id)
{
    int index = index_of(id);

    if (index < 0)
        return;
    if (is_bound[index])
        driver->remove_new(devices[index]);
    probe((unsigned)index);
}

bool linux_does(enum event event, unsigned number)
{
    if (setjmp(outside))
        return false;
    switch (event) {
    case START: start(); break;
    case TIMER:
        if (linux_has(number))
            ghes_of(number)->timer.function(&ghes_of(number)->timer);
        break;
    case INTERRUPT:
        if (lines[number].function)
            lines[number].function((int)number, lines[number].data);
        break;
    case DEVICE:
        if (device_notifier)
            device_notifier->notifier_call(device_notifier, 0, NULL);
        break;
    case NMI: linux_nmi(); break;
    case WORK: break;
    case BIND_AGAIN: bind_again(number); break;
    }
    if (event == WORK || later_count > LATER / 2)
        do_work();
    return true;
}

void linux_stop(void)
{
    longjmp(outside, 1);
}

void panic(const char *message)
{
    (void)message;
    linux_stop();
}

/* ---- Blocks ---- */

void kernel_takes(struct ghes *ghes, const struct acpi_hest_generic_status *block, bool panics)
{
    machine_takes(ghes->generic->header.source_id, (const u8 *)block, cper_estatus_len((struct acpi_hest_generic_status *)block), panics);
}

bool linux_takes_block(const uint8_t *bytes)
{
    return cper_estatus_check((const struct acpi_hest_generic_status *)bytes) == 0;
}

/* ---- Accesses ---- */

void *acpi_os_map_generic_address(struct acpi_generic_address *place) { return place; }
void acpi_os_unmap_generic_address(struct acpi_generic_address *place) { (void)place; }
struct resource *request_mem_region(u64 from, u64 size, const char *name) { return (void)from, (void)size, (void)name, NULL; }
void release_mem_region(u64 from, u64 size) { (void)from, (void)size; }

acpi_status acpi_os_read_memory(acpi_physical_address address, u64 *value, u32 bits)
{
    *value = machine_read(0, address, bits / 8);
    return AE_OK;
}

acpi_status acpi_os_write_memory(acpi_physical_address address, u64 value, u32 bits)
{
    machine_write(0, address, bits / 8, value);
    return AE_OK;
}

/* The kernel has no access of 64 bits to a port. */
acpi_status acpi_os_read_port(u64 port, u32 *value, u32 bits)
{
    if (bits > 32)
        return AE_ERROR;
    *value = (u32)machine_read(1, port, bits / 8);
    return AE_OK;
}

acpi_status acpi_os_write_port(u64 port, u32 value, u32 bits)
{
    if (bits > 32)
        return AE_ERROR;
    machine_write(1, port, bits / 8, value);
    return AE_OK;
}

/* A page that is mapped has an address that nothing else has, and no memory there. */
enum { WINDOW_SHIFT = 40 };

void __set_fixmap(enum fixed_addresses index, phys_addr_t address, pgprot_t attributes)
{
    (void)attributes;
    mapped[index] = address;
}

void clear_fixmap(enum fixed_addresses index)
{
    mapped[index] = 0;
}

unsigned long __fix_to_virt(int index)
{
    return (unsigned long)(index + 1) << WINDOW_SHIFT;
}

int virt_to_fix(unsigned long address)
{
    return (int)(address >> WINDOW_SHIFT) - 1;
}

static u64 physical(const void *place)
{
    unsigned long address = (unsigned long)place;

    return mapped[virt_to_fix(address)] + (address & ((1ul << WINDOW_SHIFT) - 1));
}

/* How many bytes the next access of a copy has. */
static u32 step_of(u64 address, size_t left)
{
    if (copies == BY_ONE || (copies == BY_EIGHT && (address % 8 || left < 8)))
        return 1;
    if (copies == BY_EIGHT)
        return 8;
    return address % 2 || left < 2 ? 1 : address % 4 || left < 4 ? 2 : 4;
}

void memcpy_fromio(void *to, const void *from, size_t size)
{
    u64 address = physical(from), value;

    for (u32 step; size; to = (u8 *)to + step, address += step, size -= step) {
        step = step_of(address, size);
        value = machine_read(0, address, step);
        memcpy(to, &value, step);
    }
}

void memcpy_toio(void *to, const void *from, size_t size)
{
    u64 address = physical(to), value;

    for (u32 step; size; from = (const u8 *)from + step, address += step, size -= step) {
        step = step_of(address, size);
        value = 0;
        memcpy(&value, from, step);
        machine_write(0, address, step, value);
    }
}
