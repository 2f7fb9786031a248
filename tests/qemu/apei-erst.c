/*
 * apei-erst.c - QEMU's device acpi-erst over the library apei.h, in the place of QEMU's own (hw/acpi/erst.c).
 *
 * A PCI device with two windows: the registers (BAR 0) and the log range (BAR 1). The store is a file, `medium`, which is
 * made where there is none: each change of the library is written to it and synced before the next. The guest gets the
 * library's own table.
 *
 *   -device acpi-erst,medium=PATH[,stop=N]
 *
 * With `stop` QEMU ends in the middle of change N of the file, counted from 0 behind the opening: half of it is made. Where
 * QEMU ends by itself it says how many changes there were.
 */
#include "qemu/osdep.h"
#include "qapi/error.h"
#include "qemu/error-report.h"
#include "exec/memory.h"
#include "hw/acpi/aml-build.h"
#include "hw/acpi/bios-linker-loader.h"
#include "hw/acpi/erst.h"
#include "hw/pci/pci.h"
#include "hw/qdev-properties.h"
#include "migration/vmstate.h"
#include "qom/object.h"
#include "sysemu/sysemu.h"
#include "apei.h"

OBJECT_DECLARE_SIMPLE_TYPE(ApeiErst, ACPI_ERST)

enum { RANGE_WINDOW = 32768, NO_STOP = -1 };

struct ApeiErst {
    PCIDevice parent;
    MemoryRegion registers, range;
    apei_erst erst;
    apei_addresses addresses;
    char *path;
    int file;
    int32_t stop;
    int32_t changes;
    Notifier exit;
};

/* ---- The medium --------------------------------------------------------------------------------------------------- */

static bool write_all(int file, const uint8_t *bytes, size_t size, uint64_t offset)
{
    while (size) {
        ssize_t written = pwrite(file, bytes, size, (off_t)offset);
        if (written <= 0 && errno != EINTR) {
            return false;
        }
        if (written > 0) {
            bytes += written;
            size -= written;
            offset += written;
        }
    }
    return true;
}

static bool make_change(ApeiErst *s, const apei_change *change, const uint8_t *programmed)
{
    g_autofree uint8_t *bytes = g_malloc(change->length);
    bool stops = s->changes == s->stop;

    memset(bytes, 0xFF, change->length);
    if (change->kind == APEI_PROGRAM) {
        memcpy(bytes, programmed, change->length);
    }
    if (!write_all(s->file, bytes, stops ? change->length / 2 : change->length, change->offset)) {
        return false;
    }
    if (stops) {
        _exit(9);
    }
    s->changes++;
    return fdatasync(s->file) == 0;
}

static bool format(ApeiErst *s)
{
    apei_geometry geometry = { .sector = 4096, .sectors_per_slot = 2, .slots = 64 };
    apei_change change;
    uint8_t bytes[APEI_PROGRAM_MAX];
    uint64_t size;

    if (apei_medium_size(&geometry, &size) || ftruncate(s->file, (off_t)size)) {
        return false;
    }
    for (uint64_t step = 0; apei_format_change(&geometry, step, &change, bytes) == APEI_OK; step++) {
        if (!make_change(s, &change, bytes)) {
            return false;
        }
    }
    return true;
}

static bool make_all(ApeiErst *s)
{
    apei_change change;
    uint8_t bytes[APEI_PROGRAM_MAX];

    while (apei_erst_change(&s->erst, &change, bytes) == APEI_OK) {
        if (!make_change(s, &change, bytes)) {
            return false;
        }
        apei_erst_done(&s->erst);
    }
    return true;
}

/* Opens the device over what the file has. */
static bool open_device(ApeiErst *s, Error **errp)
{
    g_autofree char *bytes = NULL;
    gsize size;
    enum apei_status status;

    if (!g_file_get_contents(s->path, &bytes, &size, NULL)) {
        error_setg(errp, "%s can't be read", s->path);
        return false;
    }
    status = apei_erst_open(&s->erst, (const uint8_t *)bytes, size, &s->addresses);
    if (status) {
        error_setg(errp, "%s: %s", s->path, apei_status_text(status));
        return false;
    }
    if (!make_all(s)) {
        apei_erst_close(&s->erst);
        error_setg(errp, "%s can't be written", s->path);
        return false;
    }
    return true;
}

/* Where the file fails a change, the device goes on over what the file has then, and tells the guest that its operation
 * failed. Where that cannot be done either, the change stays due, so no action is taken until a later access can do it. */
static void keep_up(ApeiErst *s)
{
    g_autofree char *bytes = NULL;
    gsize size;
    enum apei_status status;

    if (make_all(s)) {
        return;
    }
    warn_report("acpi-erst: %s failed a change", s->path);
    if (!g_file_get_contents(s->path, &bytes, &size, NULL)) {
        warn_report("acpi-erst: %s can't be read", s->path);
        return;
    }
    status = apei_erst_failed(&s->erst, (const uint8_t *)bytes, size);
    if (status || !make_all(s)) {
        warn_report("acpi-erst: %s: %s", s->path, apei_status_text(status ? status : APEI_DUE));
    }
}

/* ---- The windows -------------------------------------------------------------------------------------------------- */

static uint64_t read_window(ApeiErst *s, enum apei_window window, hwaddr offset, unsigned size)
{
    uint64_t value = 0;

    return apei_erst_read(&s->erst, window, offset, size, &value) ? MAKE_64BIT_MASK(0, 8 * size) : value;
}

static uint64_t read_register(void *s, hwaddr offset, unsigned size)
{
    return read_window(s, APEI_REGISTERS, offset, size);
}

static void write_register(void *opaque, hwaddr offset, uint64_t value, unsigned size)
{
    ApeiErst *s = opaque;

    keep_up(s);
    apei_erst_write(&s->erst, APEI_REGISTERS, offset, size, value);
    keep_up(s);
}

static uint64_t read_range(void *s, hwaddr offset, unsigned size)
{
    return read_window(s, APEI_RANGE, offset, size);
}

static void write_range(void *opaque, hwaddr offset, uint64_t value, unsigned size)
{
    ApeiErst *s = opaque;

    apei_erst_write(&s->erst, APEI_RANGE, offset, size, value);
}

static const MemoryRegionOps register_ops = {
    .read = read_register,
    .write = write_register,
    .endianness = DEVICE_LITTLE_ENDIAN,
    .valid = { .min_access_size = 1, .max_access_size = 8 },
    .impl = { .min_access_size = 1, .max_access_size = 8 },
};

static const MemoryRegionOps range_ops = {
    .read = read_range,
    .write = write_range,
    .endianness = DEVICE_LITTLE_ENDIAN,
    .valid = { .min_access_size = 1, .max_access_size = 8, .unaligned = true },
    .impl = { .min_access_size = 1, .max_access_size = 8, .unaligned = true },
};

/* ---- The table ---------------------------------------------------------------------------------------------------- */

/* QEMU asks for the table when it starts, where the windows have no addresses yet, and again when the guest's firmware has
 * placed them. */
void build_erst(GArray *tables, BIOSLinker *linker, Object *device, const char *oem_id, const char *oem_table_id)
{
    ApeiErst *s = ACPI_ERST(device);
    apei_addresses placed = { pci_get_bar_addr(PCI_DEVICE(s), 0), pci_get_bar_addr(PCI_DEVICE(s), 1) };
    uint8_t table[APEI_TABLE_SIZE];
    size_t size;

    if (apei_erst_move(&s->erst, &placed) == APEI_OK) {
        s->addresses = placed;
    }
    if (apei_erst_table(&s->erst, table, sizeof table, &size) == APEI_OK) {
        g_array_append_vals(tables, table, size);
    }
}

/* ---- The device --------------------------------------------------------------------------------------------------- */

static void tell_changes(Notifier *exit, void *data)
{
    info_report("acpi-erst: %d changes of the medium", container_of(exit, ApeiErst, exit)->changes);
}

static void realize(PCIDevice *device, Error **errp)
{
    ApeiErst *s = ACPI_ERST(device);
    int32_t stop = s->stop;
    bool is_new;

    if (!s->path) {
        error_setg(errp, "acpi-erst: medium=PATH is missing");
        return;
    }
    s->stop = NO_STOP;
    is_new = access(s->path, F_OK) != 0;
    s->file = open(s->path, O_RDWR | O_CREAT, 0600);
    if (s->file < 0 || (is_new && !format(s))) {
        error_setg_errno(errp, errno, "%s", s->path);
        return;
    }
    s->addresses = (apei_addresses){ .registers = 0, .range = 4096 };
    if (!open_device(s, errp)) {
        return;
    }
    s->changes = 0;
    s->stop = stop;
    memory_region_init_io(&s->registers, OBJECT(s), &register_ops, s, "acpi-erst.registers", APEI_REGISTERS_SIZE);
    memory_region_init_io(&s->range, OBJECT(s), &range_ops, s, "acpi-erst.range", RANGE_WINDOW);
    pci_register_bar(device, 0, PCI_BASE_ADDRESS_SPACE_MEMORY, &s->registers);
    pci_register_bar(device, 1, PCI_BASE_ADDRESS_SPACE_MEMORY, &s->range);
    s->exit.notify = tell_changes;
    qemu_add_exit_notifier(&s->exit);
}

static void unrealize(PCIDevice *device)
{
    ApeiErst *s = ACPI_ERST(device);

    apei_erst_close(&s->erst);
    close(s->file);
}

static void reset(DeviceState *device)
{
    ApeiErst *s = ACPI_ERST(device);

    keep_up(s);
    apei_erst_reset(&s->erst);
    keep_up(s);
}

static Property properties[] = {
    DEFINE_PROP_STRING("medium", ApeiErst, path),
    DEFINE_PROP_INT32("stop", ApeiErst, stop, NO_STOP),
    DEFINE_PROP_END_OF_LIST(),
};

static const VMStateDescription not_migrated = { .name = "acpi-erst", .unmigratable = 1 };

static void class_init(ObjectClass *class, void *data)
{
    DeviceClass *device = DEVICE_CLASS(class);
    PCIDeviceClass *pci = PCI_DEVICE_CLASS(class);

    pci->realize = realize;
    pci->exit = unrealize;
    pci->vendor_id = PCI_VENDOR_ID_REDHAT;
    pci->device_id = PCI_DEVICE_ID_REDHAT_ACPI_ERST;
    pci->class_id = PCI_CLASS_OTHERS;
    device->reset = reset;
    device->vmsd = &not_migrated;
    device->hotpluggable = false;
    device->desc = "ACPI error record device (ERST) over apei";
    device_class_set_props(device, properties);
    set_bit(DEVICE_CATEGORY_MISC, device->categories);
}

static const TypeInfo type = {
    .name = TYPE_ACPI_ERST,
    .parent = TYPE_PCI_DEVICE,
    .instance_size = sizeof(ApeiErst),
    .class_init = class_init,
    .interfaces = (InterfaceInfo[]) { { INTERFACE_CONVENTIONAL_PCI_DEVICE }, { } },
};

static void register_types(void)
{
    type_register_static(&type);
}

type_init(register_types)
