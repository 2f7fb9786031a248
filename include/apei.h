/*
 * apei.h - an ACPI error record device (ERST) whose records survive any loss of power, error sources (HEST, GHESv2) and a boot
 * error region (BERT) in a guest's memory, checks of ACPI error tables, UEFI error records and error status blocks, and makers
 * of records and blocks. For C99 or C++11, and later ones.
 *
 * A device keeps error records in flash. Your program owns the flash's medium (a chip, a file, a block device), and the
 * device holds a copy of its bytes in memory. So there are three duties, and nothing else is asked of you:
 *
 *   1. After each call that may act (apei_erst_open, _open_raw, _load, _load_raw, _failed, _write, _settle, _reset): while apei_erst_change tells a
 *      change, make it on the medium, wait until it is durable, and say so by apei_erst_done. The changes come one after
 *      another, and none may be skipped or overtaken. Until the last one is done the device takes no action (APEI_DUE).
 *   2. Where the medium fails a change, read the medium again and hand its bytes to apei_erst_failed: the device goes on over
 *      them, and the guest is told that its operation failed. After a loss of power, read the medium and open it anew.
 *      Nothing that was told as done is lost.
 *   3. Nothing else writes the medium, and a device is used by one thread at a time (it may move between threads).
 *
 * What is promised for that: whenever power is lost, also within a change, opening the medium gives the records after the
 * first so many writes and clears that were carried out, with each one whose status the guest was told, every identifier
 * once, with identical bytes.
 *
 * Units: offsets, sizes and lengths are bytes; addresses are guest-physical (or physical) bytes; numbers are little-endian
 * in memory and plain numbers in calls. All memory is taken by apei_erst_open, _open_raw, _load and _load_raw, apei_ghes_open
 * and apei_boot_open; of the other calls only apei_erst_failed and the checks of a Hardware Error Source Table take any. None
 * waits. Each call answers a status; where it is not APEI_OK,
 * nothing has changed, and no out-parameter is written, unless its comment says otherwise.
 */
#ifndef APEI_H
#define APEI_H

#include <stddef.h>
#include <stdint.h>

#ifdef __cplusplus
extern "C" {
#endif

enum apei_status {
    APEI_OK = 0,
    APEI_POINTER = 1,    /* a pointer is null, or not aligned for its type */
    APEI_CLOSED = 2,     /* the handle holds nothing: no device, no sources, no region */
    APEI_OPEN = 3,       /* the handle is open already */
    APEI_WINDOW = 4,     /* the window is none of enum apei_window */
    APEI_ACCESS = 5,     /* nothing stands at this offset, or not of this size */
    APEI_DUE = 6,        /* a change is due on the medium */
    APEI_NONE = 7,       /* no change is due; there is no part or change of this number; a source or region rests */
    APEI_SHORT = 8,      /* the buffer is too small */
    APEI_BUSY = 9,       /* an execution runs; a region is cleared, or has a block laid */
    APEI_FLASH = 10,     /* the flash failed: no further change can be counted */
    APEI_MEMORY = 11,    /* there was no memory */
    APEI_GEOMETRY = 12,  /* sectors, sectors a slot or slots are outside their limits, or are not the device's */
    APEI_FOREIGN = 13,   /* the medium does not begin with the library's own sector */
    APEI_VERSION = 14,   /* it does, with a version that this library does not know */
    APEI_SIZE = 15,      /* it does, for another size; an image of another size than its geometry */
    APEI_ADDRESSES = 16, /* a window does not end below 2^64, or the two overlap */
    APEI_BAD = 17,       /* a check found a fault: struct apei_fault says which and where */
    APEI_UNSAVED = 18,   /* the bytes are not those of a saved device, or not all of them */
    APEI_SAVED_VERSION = 19, /* they are of a version that this library does not know */
    APEI_SAVED_FLASH = 20,   /* the flash of the saved device was divided otherwise */

    /* of error sources and boot error regions */
    APEI_SOURCE = 32,           /* there is no source of this number */
    APEI_COUNT = 33,            /* there are no sources, or more than APEI_SOURCES_MAX */
    APEI_SOURCE_TYPE = 34,      /* a source is of neither type, 9 or 10 */
    APEI_RESERVED = 35,         /* its flags are not 0, or `enabled` is neither 0 nor 1 */
    APEI_PREALLOCATION = 36,    /* no record or no section is pre-allocated */
    APEI_NOTIFICATION = 37,     /* its notification has another length than 28, or a type above 11 */
    APEI_LENGTH = 38,           /* its window has fewer than 20 or more than 65,536 bytes */
    APEI_PLACES = 39,           /* it has no place for a block, or more than 65,536 */
    APEI_ADDRESS_REGISTER = 40, /* the register of its block's address is none */
    APEI_ADDRESS = 41,          /* its block's address does not fit this register's field */
    APEI_ACK_REGISTER = 42,     /* its acknowledge register is none */
    APEI_MASK = 43,             /* no bit acknowledges, or one lies outside the register's access */
    APEI_ZERO = 44,             /* its block stands at 0 */
    APEI_ALIGNMENT = 45,        /* its block's address is no multiple of 4, or a register's none of its access */
    APEI_LATE = 46,             /* a part ends past 2^64 - 1, or past port 65,535 */
    APEI_CLASH = 47,            /* two parts have a byte in common: of this source, or of it and an earlier one */
    APEI_IDENTIFIER = 48,       /* an earlier source has the same identifier */
    APEI_FULL = 49,             /* as many blocks wait as the source has places for */
    APEI_LONG = 50,             /* the block is longer than the window, or than what is left of the region; an item has 2^32 bytes */
    APEI_BLOCK = 51,            /* the bytes are not exactly one error status block */
    APEI_WAITS = 52,            /* the guest has not acknowledged yet: leave this source till later */
    APEI_CHOICE = 53,           /* the number is none of enum apei_unacknowledged, or of enum apei_severity */
    APEI_REGION = 54,           /* the region stands at 0 or at no multiple of 4, has fewer than 20 bytes, or ends past 2^64 - 1 */

    /* of clients */
    APEI_TABLE = 64,            /* the bytes begin with no sealed, well-formed ERST */
    APEI_UNATTACHED = 65,       /* the client has not attached to the firmware, or not yet */
    APEI_NON_VOLATILE = 66,     /* the range is non-volatile memory itself, which no command of a client serves */
    APEI_NO_RANGE = 67,         /* the range has fewer bytes than an error record's header */
    APEI_NO_SPACE = 68,         /* command status 1 of the firmware: its store is full */
    APEI_HARDWARE = 69,         /* 2: its store is not there, or it has answered a count or an identifier that is none */
    APEI_FAILED = 70,           /* 3 */
    APEI_EMPTY = 71,            /* 4: it has no record */
    APEI_NOT_FOUND = 72,        /* 5: it has no such record */
    APEI_FRAME = 73,            /* the bytes do not begin with an error record */
    APEI_TOO_LONG = 74,         /* the record is longer than the range */
    APEI_SMALL = 75,            /* the buffer is shorter than the record, which the firmware has read all the same */
    APEI_BAD_LENGTH = 76,       /* the record that was read says a length below its header's, or above the range's */
    APEI_STATUS = 77,           /* the firmware answered a command status that ACPI does not define */
    APEI_TRAILING = 78,         /* bytes follow the record */
    APEI_TOO_LATE = 79,         /* the firmware stayed busy for the greatest time that it names */
    APEI_STEPS = 80,            /* a program of the table was still running after the steps that a command has */
    APEI_NO_ACTION = 81,        /* the table has no program for an action */
    APEI_FAULT = 82,            /* what was to be done failed */
    APEI_PROGRAM_FAULT = 83,    /* a program of the table has an entry that is none: no register, no instruction, a jump out of it */
    APEI_LIST_FULL = 84         /* the buffer has no room for one identifier more */
};

/* The status in words, for a log. */
static inline const char *apei_status_text(enum apei_status status);

/* ---- The medium --------------------------------------------------------------------------------------------------- */

/* How the flash is divided: bytes a sector (a power of two from 256 to 32,768), sectors a slot (2 to 16), slots (2 to
 * 1,024). The flash has sector * sectors_per_slot * slots bytes, 64 MiB at most; a slot at most 65,600 bytes. */
typedef struct apei_geometry {
    uint32_t sector;
    uint32_t sectors_per_slot;
    uint32_t slots;
} apei_geometry;

enum apei_change_kind {
    APEI_PROGRAM = 0, /* program `length` bytes, which are erased (but for the first change of a format), at `offset`; all lie in one
                       * page, 256 bytes from a multiple of 256 on */
    APEI_ERASE = 1    /* make the `length` bytes of the sector at `offset` 0xFF */
};

typedef struct apei_change {
    uint64_t offset; /* of the medium */
    uint32_t length;
    uint32_t kind;   /* enum apei_change_kind */
} apei_change;

/* The most bytes that one program has. */
#define APEI_PROGRAM_MAX 256

/* The size of a medium of this geometry: the library's own sector and behind it the flash. APEI_GEOMETRY. */
static inline enum apei_status apei_medium_size(const apei_geometry *geometry, uint64_t *size);

/* The bytes of the 12 blocks of memory that an opening of a device of this geometry takes. APEI_GEOMETRY. */
static inline enum apei_status apei_memory_size(const apei_geometry *geometry, uint64_t *bytes);

/* Change number `step`, from 0, of a format of a medium: `change`, and the bytes of a program in `bytes`, which has room
 * for APEI_PROGRAM_MAX. APEI_NONE from the end on. Make each durable before the next. A medium on which a format was
 * interrupted is APEI_FOREIGN; format it again. APEI_GEOMETRY, APEI_NONE. */
static inline enum apei_status apei_format_change(const apei_geometry *geometry, uint64_t step, apei_change *change,
                                                  uint8_t bytes[APEI_PROGRAM_MAX]);

/* ---- The device --------------------------------------------------------------------------------------------------- */

/* A handle. Zero its bytes once (= {0}); it is then closed. What it holds is the library's. It owns the device until
 * apei_erst_close; a copy of an open handle is no handle. */
typedef struct apei_erst {
    void *device;
    uint8_t is_open;
} apei_erst;

/* Where the guest finds the device: its registers (APEI_REGISTERS_SIZE bytes), and the log range (apei_erst_range_size). */
typedef struct apei_addresses {
    uint64_t registers;
    uint64_t range;
} apei_addresses;

#define APEI_REGISTERS_SIZE 16

enum apei_window {
    APEI_REGISTERS = 0, /* ACTION: 4 bytes at 0. VALUE: 8 bytes at 8, or its halves, 4 bytes at 8 and at 12 */
    APEI_RANGE = 1      /* the log range: 1, 2, 4 or 8 bytes at any offset */
};

/* Opens the device of a formatted medium. `medium` has all its bytes; they are copied. A few changes may be due behind it
 * (records that a loss of power had left twice). APEI_OPEN, APEI_FOREIGN, APEI_VERSION, APEI_SIZE, APEI_ADDRESSES,
 * APEI_MEMORY. */
static inline enum apei_status apei_erst_open(apei_erst *erst, const uint8_t *medium, size_t size,
                                              const apei_addresses *addresses);

/* The same over a flash that has no sector to spare: the caller says the geometry, and nothing says that it is the right
 * one. APEI_OPEN, APEI_GEOMETRY, APEI_SIZE, APEI_ADDRESSES, APEI_MEMORY. */
static inline enum apei_status apei_erst_open_raw(apei_erst *erst, const uint8_t *flash, size_t size,
                                                  const apei_geometry *geometry, const apei_addresses *addresses);

/* Closes the device and frees its memory. A change that is still due is lost to the medium, which is then as after a loss
 * of power. APEI_CLOSED. */
static inline enum apei_status apei_erst_close(apei_erst *erst);

/* An access of the guest: `size` is 1, 2, 4 or 8. APEI_CLOSED, APEI_WINDOW, APEI_ACCESS. */
static inline enum apei_status apei_erst_read(apei_erst *erst, enum apei_window window, uint64_t offset, uint32_t size,
                                              uint64_t *value);

/* A write to ACTION carries out one serialization action, which makes at most one change due. APEI_CLOSED, APEI_WINDOW,
 * APEI_ACCESS, APEI_DUE (ACTION alone). */
static inline enum apei_status apei_erst_write(apei_erst *erst, enum apei_window window, uint64_t offset, uint32_t size,
                                               uint64_t value);

/* Bytes of the log range. APEI_CLOSED, APEI_ACCESS. */
static inline enum apei_status apei_erst_get(apei_erst *erst, uint64_t offset, uint8_t *bytes, size_t size);
static inline enum apei_status apei_erst_put(apei_erst *erst, uint64_t offset, const uint8_t *bytes, size_t size);

/* The change that the medium has to make next: `change`, and for a program its bytes in `bytes`, which has room for
 * APEI_PROGRAM_MAX. A program that would cross a page is told in two parts, one after the other, each as a change. It tells the
 * same until apei_erst_done. APEI_CLOSED, APEI_NONE. */
static inline enum apei_status apei_erst_change(apei_erst *erst, apei_change *change, uint8_t bytes[APEI_PROGRAM_MAX]);

/* Says that the medium has made that change, durably. APEI_CLOSED, APEI_NONE. */
static inline enum apei_status apei_erst_done(apei_erst *erst);

/* The medium failed the change that apei_erst_change told; `medium` has all bytes that the medium holds now (of a device that
 * was opened by apei_erst_open_raw or _load_raw, those of its flash). The device goes on over them: its records are those of
 * the medium, what the guest had begun has ended, and GET_COMMAND_STATUS tells FAILED (3) until the guest begins an operation or
 * is reset. The other registers, the addresses and the log range stay. A few changes may be due behind it, as behind an opening.
 * It takes 11 blocks of memory, as an opening does for all but the handle's own, and then gives back as many. Where there is no
 * memory the change stays due. APEI_CLOSED, APEI_FOREIGN, APEI_VERSION, APEI_SIZE, APEI_GEOMETRY (the medium's first sector
 * tells another geometry than the device's), APEI_MEMORY. */
static inline enum apei_status apei_erst_failed(apei_erst *erst, const uint8_t *medium, size_t size);

/* The guest was reset: all registers are as at first, and an execution that runs is abandoned. A change may be due behind
 * it. APEI_CLOSED, APEI_DUE; APEI_FLASH, with the registers as at first then too. */
static inline enum apei_status apei_erst_reset(apei_erst *erst);

/* Other addresses, as when a PCI device's windows are moved: the table is another then. APEI_CLOSED, APEI_ADDRESSES. */
static inline enum apei_status apei_erst_move(apei_erst *erst, const apei_addresses *addresses);

/* The Error Record Serialization Table (ACPI 6.4, section 18.5.1) for these addresses, sealed: give it to the guest. `size`
 * tells its size, also where the answer is APEI_SHORT; APEI_TABLE_SIZE is enough. APEI_CLOSED, APEI_SHORT. */
#define APEI_TABLE_SIZE 1024
static inline enum apei_status apei_erst_table(apei_erst *erst, uint8_t *table, size_t room, size_t *size);

/* The size of the log range: that of the longest record. APEI_CLOSED. */
static inline enum apei_status apei_erst_range_size(apei_erst *erst, uint64_t *size);

/* Bytes of the medium as they stand once every change that is due is made. The library's own sector is not among them.
 * APEI_CLOSED, APEI_ACCESS. */
static inline enum apei_status apei_erst_image(apei_erst *erst, uint64_t offset, uint8_t *bytes, size_t size);

/* Has the execution that runs go on, as one poll of the guest would, and leaves VALUE as it is. So a program ends the execution
 * of a guest that is paused: call it, make the change that is due, and call it again, until the answer is APEI_NONE, no
 * execution runs. The guest then finds at its next poll that its execution has ended, with the status that it would have had.
 * APEI_CLOSED, APEI_NONE, APEI_DUE. */
static inline enum apei_status apei_erst_settle(apei_erst *erst);

/* ---- Migration ----------------------------------------------------------------------------------------------------- */

/* What a device is beside its medium, as bytes: the addresses of its windows, its registers and its log range. apei_erst_load
 * makes a device of them over the same medium, and that one answers every access as this one. The device stays open, and
 * may go on. `size` tells how many bytes they are, APEI_SAVED_HEAD and the size of the log range, also where the answer is
 * APEI_SHORT. APEI_CLOSED; APEI_BUSY: end the execution by apei_erst_settle, or let the guest end it; APEI_DUE;
 * APEI_SHORT. */
#define APEI_SAVED_HEAD 80
static inline enum apei_status apei_erst_save(apei_erst *erst, uint8_t *bytes, size_t room, size_t *size);

/* Opens the device of a medium, as apei_erst_open does, and goes on where a saved one stopped: its addresses, registers and
 * log range are those of `saved`. The medium has to hold what the saved one's held. APEI_OPEN, APEI_UNSAVED,
 * APEI_SAVED_VERSION, APEI_SAVED_FLASH, APEI_FOREIGN, APEI_VERSION, APEI_SIZE, APEI_ADDRESSES, APEI_MEMORY. */
static inline enum apei_status apei_erst_load(apei_erst *erst, const uint8_t *medium, size_t size, const uint8_t *saved,
                                              size_t saved_size);

/* The same over a flash that has no sector to spare. APEI_OPEN, APEI_UNSAVED, APEI_SAVED_VERSION, APEI_SAVED_FLASH,
 * APEI_GEOMETRY, APEI_SIZE, APEI_ADDRESSES, APEI_MEMORY. */
static inline enum apei_status apei_erst_load_raw(apei_erst *erst, const uint8_t *flash, size_t size,
                                                  const apei_geometry *geometry, const uint8_t *saved, size_t saved_size);

/* ---- Error sources -------------------------------------------------------------------------------------------------- */

/*
 * Generic hardware error sources (ACPI 6.4, sections 18.3.2.7 and 18.3.2.8), the firmware's side. The guest's memory is yours:
 * the library tells one access after another, and you make each. For each source that a block was submitted to:
 *
 *     apei_access access;
 *     uint8_t bytes[APEI_ACCESS_MAX];
 *     while (apei_ghes_access(&ghes, source, &access, bytes) == APEI_OK)
 *         if (apei_ghes_done(&ghes, source, make(&access, bytes)) == APEI_WAITS)
 *             break;
 *
 * APEI_NONE: the source rests. APEI_WAITS: look again later; the other sources go on meanwhile. Your duties:
 *
 *   1. Make the accesses of a source in their order, and each before apei_ghes_done. A read, and a write of 1, 2, 4 or 8 bytes at
 *      a multiple of them, is one access of the machine: the guest sees it whole or not. Any other write is made as you like.
 *   2. All that was written before is visible to the guest when such a write is, and when it is notified (a store with release
 *      order). A read reads the memory, and nothing that was kept of it (a load with acquire order).
 *   3. A source's first accesses, up to the first answer other than APEI_OK, are made before its guest runs, and again after
 *      apei_ghes_reset. Only one thread at a time uses a handle.
 *
 * What is promised for that: a guest that keeps to the reader's side takes the blocks whole, each once, in the order of
 * apei_ghes_submit. Whatever any other guest does, no access leaves its source's window and registers.
 */
#define APEI_SOURCES_MAX 64
#define APEI_ACCESS_MAX 64 /* the most bytes of a write */

/* A handle of all sources of a guest. Zero its bytes once (= {0}); it is then closed. It owns the sources until
 * apei_ghes_close; a copy of an open handle is no handle. */
typedef struct apei_ghes {
    void *sources;
    uint8_t is_open;
} apei_ghes;

/* A register, as a Generic Address Structure describes it (section 5.2.3.2). */
typedef struct apei_register {
    uint8_t space;  /* 0 memory, 1 I/O ports */
    uint8_t width;  /* bits of its field */
    uint8_t offset; /* the field's first bit */
    uint8_t access; /* 1, 2, 3, 4: an access of 1, 2, 4, 8 bytes at least; 0: the least that has the field */
    uint32_t reserved;
    uint64_t address;
} apei_register;

/* How a source notifies the guest (section 18.3.2.9). The library reads `type` and `length` alone; all of it stands in the table. */
typedef struct apei_notification {
    uint8_t type;   /* table 18-13: 0 polled, 1 external interrupt, 3 SCI, 4 NMI, 10 GSIV, .. 11 */
    uint8_t length; /* 28 */
    uint16_t configuration;
    uint32_t poll_interval; /* milliseconds */
    uint32_t vector;
    uint32_t polling_threshold;
    uint32_t polling_window;
    uint32_t error_threshold;
    uint32_t error_window;
} apei_notification;

/* A source: its structure in the table, where its block stands, and how many blocks may wait. */
typedef struct apei_source {
    uint16_t type;    /* 9, or with an acknowledge register 10 */
    uint16_t id;
    uint16_t related; /* 0xFFFF: none */
    uint8_t flags;    /* 0 */
    uint8_t enabled;  /* 1 */
    uint32_t records;  /* to pre-allocate, 1 at least */
    uint32_t sections; /* the most of a record, 1 at least */
    uint32_t raw;      /* the most bytes of raw data */
    uint32_t length;   /* bytes of the block's window */
    apei_notification notification;
    uint32_t places;      /* blocks that are not acknowledged; the memory for them is taken by apei_ghes_open */
    apei_register address; /* where the guest finds the block's address */
    uint64_t block;        /* the block's window: memory of the guest that it may not use for anything else */
    apei_register ack;     /* the acknowledge register, and the bits that an acknowledgement keeps and sets, in its field */
    uint64_t preserve;
    uint64_t write;
} apei_source;

enum apei_access_kind {
    APEI_READ = 0,  /* read `length` bytes, and give the number that they are to apei_ghes_done */
    APEI_WRITE = 1, /* write the first `length` bytes of the buffer */
    APEI_NOTIFY = 2 /* notify the guest as the source's notification says */
};

typedef struct apei_access {
    uint64_t address; /* of the guest's memory, or a port */
    uint32_t length;
    uint32_t kind;  /* enum apei_access_kind */
    uint32_t space; /* 0 memory, 1 I/O ports */
    uint32_t reserved;
} apei_access;

/* What becomes of the blocks that a guest has not acknowledged when it starts again. */
enum apei_unacknowledged {
    APEI_TELL_AGAIN = 0,
    APEI_FORGET = 1
};

/* Opens 1 to APEI_SOURCES_MAX sources, which are numbered from 0 in this order. `refused` tells the number of the source that is
 * the reason of a refusal; it is as before where no source is. APEI_OPEN, APEI_SOURCE_TYPE, APEI_COUNT, and APEI_RESERVED to
 * APEI_IDENTIFIER: the first reason of the first source that has one; APEI_MEMORY. */
static inline enum apei_status apei_ghes_open(apei_ghes *ghes, const apei_source *sources, size_t count, uint64_t *refused);

/* Closes the sources and frees their memory. Blocks that were not acknowledged are lost. APEI_CLOSED. */
static inline enum apei_status apei_ghes_close(apei_ghes *ghes);

/* The Hardware Error Source Table (section 18.3.2) of the sources, sealed: give it to the guest. `size` tells its size, also where
 * the answer is APEI_SHORT; APEI_HEST_SIZE is enough. APEI_CLOSED, APEI_SHORT. */
#define APEI_HEST_SIZE (40 + 92 * APEI_SOURCES_MAX)
static inline enum apei_status apei_ghes_table(apei_ghes *ghes, uint8_t *table, size_t room, size_t *size);

/* Takes a copy of an error status block (section 18.3.2.7.1), to be told behind those that wait. APEI_CLOSED, APEI_SOURCE, APEI_LONG,
 * APEI_BLOCK, APEI_FULL. */
static inline enum apei_status apei_ghes_submit(apei_ghes *ghes, uint32_t source, const uint8_t *block, size_t size);

/* What is to be done next for a source: `access`, and of a write the bytes in `bytes`. It tells the same until apei_ghes_done.
 * APEI_CLOSED, APEI_SOURCE, APEI_NONE. */
static inline enum apei_status apei_ghes_access(apei_ghes *ghes, uint32_t source, apei_access *access,
                                                uint8_t bytes[APEI_ACCESS_MAX]);

/* Says that it is done. Of a read `value` is the number that was read, the low byte first; any number is taken. APEI_CLOSED,
 * APEI_SOURCE, APEI_NONE (nothing was to be done), APEI_WAITS. */
static inline enum apei_status apei_ghes_done(apei_ghes *ghes, uint32_t source, uint64_t value);

/* The guest was reset: the source is before its first access, and its blocks are told again, the oldest first, or are forgotten. One
 * that the guest has acknowledged is among them until the access that reads it: make it first, if the guest's memory is as it left it.
 * APEI_CLOSED, APEI_CHOICE, APEI_SOURCE. */
static inline enum apei_status apei_ghes_reset(apei_ghes *ghes, uint32_t source, enum apei_unacknowledged blocks);

/* ---- The boot error region ------------------------------------------------------------------------------------------ */

/*
 * A region of memory that keeps its bytes over a reset (section 18.3.1): the block of a fatal error is laid there before the reset,
 * and the next operating system reads it. The accesses are told and made as those of a source, and each is a write to memory.
 * What power that is lost in one of them leaves is the blocks that were laid before, each whole.
 */

/* A handle of a region. Zero its bytes once (= {0}); it is then closed. */
typedef struct apei_boot {
    void *region;
    uint8_t is_open;
} apei_boot;

/* Opens a region of `length` bytes, whose first accesses make it empty: let the operating system read it before you make them.
 * APEI_OPEN, APEI_REGION, APEI_MEMORY. */
static inline enum apei_status apei_boot_open(apei_boot *boot, uint64_t address, uint32_t length);

/* Closes it and frees its memory; the region's bytes stay. APEI_CLOSED. */
static inline enum apei_status apei_boot_close(apei_boot *boot);

/* Begins to lay a copy of an error status block behind those that were laid. APEI_CLOSED, APEI_BUSY (an access is to be made),
 * APEI_LONG, APEI_BLOCK. */
static inline enum apei_status apei_boot_lay(apei_boot *boot, const uint8_t *block, size_t size);

/* The next access, as apei_ghes_access tells it: a write. The block is laid when the answer is APEI_NONE. APEI_CLOSED, APEI_NONE. */
static inline enum apei_status apei_boot_access(apei_boot *boot, apei_access *access, uint8_t bytes[APEI_ACCESS_MAX]);

/* Says that it was made. APEI_CLOSED, APEI_NONE. */
static inline enum apei_status apei_boot_done(apei_boot *boot);

/* The Boot Error Record Table (section 18.3.1) of a region, sealed: give it to the operating system. APEI_REGION. */
#define APEI_BERT_SIZE 48
static inline enum apei_status apei_boot_table(uint64_t address, uint32_t length, uint8_t table[APEI_BERT_SIZE]);

/* ---- The client ----------------------------------------------------------------------------------------------------- */

/*
 * The operating system's side: a client of a firmware's ERST (section 18.5) reads, writes, clears and lists records by the table's
 * programs. It makes no access: it tells each, and takes its answer. So it has no callback and takes no lock, and after
 * apei_client_open no memory: it may be used where a kernel panics. A command of `n` steps tells at most 302 + 4 n demands, a listing
 * into `room` places (room + 2) * 4 n. `n` is 65,536 before the firmware has named its times and where it names none, and else
 * 1,024 and 8 for each 10 microseconds of the greatest time, 1,048,576 at most.
 */

/* A handle of a client. Zero its bytes once (= {0}); it is then closed. */
typedef struct apei_client {
    void *session;
    uint8_t is_open;
} apei_client;

enum apei_demand_kind {
    APEI_LOAD = 0,        /* read `length` bytes at `address` in one access; answer the number */
    APEI_STORE = 1,       /* write the low `length` bytes of `value` at `address` in one access */
    APEI_PAUSE = 2,       /* wait `value` microseconds, which may be 0 */
    APEI_COPY = 3,        /* copy `length` bytes from `address` to address `value`; the two may overlap */
    APEI_PUT_RECORD = 4,  /* write the bytes of the record that is being written at `address` */
    APEI_PUT_MARK = 5,    /* then write the 2 bytes of `value`, "ER", at `address` */
    APEI_TAKE_LENGTH = 6, /* read the 4 bytes at `address`; answer the number */
    APEI_TAKE_RECORD = 7  /* read `length` bytes at `address` into the buffer of the read: that is the record */
};

typedef struct apei_demand {
    uint64_t address; /* in memory, or a port where `space` is 1, as only of kinds 0 and 1 */
    uint64_t value;
    uint64_t length;
    uint32_t kind;    /* enum apei_demand_kind */
    uint32_t space;
} apei_demand;

typedef struct apei_range {
    uint64_t address; /* of the error log address range, in memory */
    uint64_t length;
    uint32_t greatest; /* microseconds that a command takes at most, and nominally; 0 where the firmware names none */
    uint32_t nominal;
} apei_range;

enum apei_command {
    APEI_READ_RECORD = 0, /* of identifier `id`, into a buffer of `room` bytes; the result is how many it has */
    APEI_CLEAR = 1,       /* the record of identifier `id` */
    APEI_DUMMY_WRITE = 2,
    APEI_COUNT_RECORDS = 3,
    APEI_NEXT = 4         /* the identifier at the firmware's cursor; APEI_NONE where there is none */
};

/* Opens a client over a copy of an ERST, and begins to attach: make what apei_client_demand tells, up to its end, before the first
 * command. APEI_OPEN, APEI_TABLE, APEI_MEMORY. */
static inline enum apei_status apei_client_open(apei_client *client, const uint8_t *table, size_t size);

/* Closes it and frees its memory. APEI_CLOSED. */
static inline enum apei_status apei_client_close(apei_client *client);

/* What attaching found. APEI_CLOSED, APEI_UNATTACHED. */
static inline enum apei_status apei_client_range(apei_client *client, apei_range *range);

/* Begins to write a record, whose bytes stay with the caller. One that is none, or too long, is the command's result. APEI_CLOSED,
 * APEI_UNATTACHED, APEI_BUSY (a command is under way). */
static inline enum apei_status apei_client_write(apei_client *client, const uint8_t *record, size_t size);

/* Begins another command. The same, and APEI_CHOICE. */
static inline enum apei_status apei_client_begin(apei_client *client, enum apei_command command, uint64_t id, uint64_t room);

/* Begins to list all identifiers, each once, into a buffer that stays with the caller. The result is how many there are. The same. */
static inline enum apei_status apei_client_list(apei_client *client, uint64_t *ids, size_t room);

/* What is to be done next. APEI_CLOSED, APEI_NONE: the command has ended. */
static inline enum apei_status apei_client_demand(apei_client *client, apei_demand *demand);

/* Says that it was done, with the number that was read or 0; or, where `failed` is not 0, that it failed. APEI_CLOSED. */
static inline enum apei_status apei_client_answer(apei_client *client, int failed, uint64_t value);

/* The same of a listing, whose buffer it takes each time. APEI_CLOSED, APEI_SHORT (more identifiers are listed than it has places). */
static inline enum apei_status apei_client_list_answer(apei_client *client, int failed, uint64_t value, uint64_t *ids,
                                                       size_t room);

/* The command's answer, once it has ended, and its number or 0: APEI_OK or the reason that it was refused. APEI_CLOSED, APEI_BUSY. */
static inline enum apei_status apei_client_result(apei_client *client, uint64_t *value);

/* ---- Checks -------------------------------------------------------------------------------------------------------- */

/* What is checked. */
enum apei_item {
    APEI_ITEM_ERST = 0,   /* Error Record Serialization Table (ACPI 6.4, section 18.5.1): parts are instruction entries */
    APEI_ITEM_HEST = 1,   /* Hardware Error Source Table (section 18.3.2): parts are error sources */
    APEI_ITEM_BERT = 2,   /* Boot Error Record Table (section 18.3.1): no parts */
    APEI_ITEM_RECORD = 3, /* error record (UEFI 2.8, appendix N.2): parts are sections */
    APEI_ITEM_BLOCK = 4   /* generic error status block (section 18.3.2.7.1): parts are its data entries */
};

/* Which fault. A table's own bytes are those up to its length. */
enum apei_fault_kind {
    APEI_FAULT_ITEM = 0,              /* there is no item of this number */
    APEI_FAULT_TABLE_SHORT = 1,       /* ERST, HEST, BERT: fewer bytes than a header has; at their end */
    APEI_FAULT_TABLE_SIGNATURE = 2,   /* the signature is another one */
    APEI_FAULT_TABLE_LENGTH = 3,      /* the length is below the table's fixed part, or above the bytes that are there */
    APEI_FAULT_TABLE_SUM = 4,         /* the bytes do not add to 0 modulo 256; at the checksum */
    APEI_FAULT_HEADER_SIZE = 5,       /* ERST: the serialization header size is neither 48 nor 12 */
    APEI_FAULT_ENTRY_COUNT = 6,       /* ERST: the length is not 48 bytes and 32 more for each counted entry; at the count */
    APEI_FAULT_SOURCE_TYPE = 7,       /* HEST: a source of a type whose length is not known */
    APEI_FAULT_SOURCE_CUT = 8,        /* HEST: a source leaves the table */
    APEI_FAULT_SOURCE_COUNT = 9,      /* HEST: more or fewer sources than the count says; at the count */
    APEI_FAULT_RECORD_SHORT = 10,     /* record: bytes are missing; at their end */
    APEI_FAULT_RECORD_START = 11,     /* record: it does not begin with "CPER" */
    APEI_FAULT_RECORD_END = 12,       /* record: the signature's end is not 0xFFFFFFFF */
    APEI_FAULT_RECORD_LENGTH = 13,    /* record: the length is too small for header and descriptors */
    APEI_FAULT_RECORD_SECTION = 14,   /* record: a section is not between the descriptors and the end; at its descriptor */
    APEI_FAULT_RECORD_LIMIT = 15,     /* record: the length is above what is taken (never told by apei_check) */
    APEI_FAULT_BLOCK_SHORT = 16,      /* block: bytes are missing; at their end */
    APEI_FAULT_BLOCK_STATUS = 17,     /* block: the block status is 0 */
    APEI_FAULT_BLOCK_RAW = 18,        /* block: the raw data begins before the entries end; at its offset's field */
    APEI_FAULT_BLOCK_ENTRY = 19,      /* block: an entry leaves the data length; at the entry */
    APEI_FAULT_BLOCK_REST = 20        /* block: too few bytes for an entry behind the last one; at the data length's field */
};

/* The first fault of an item: where it stands, and which (a number of enum apei_fault_kind). */
typedef struct apei_fault {
    uint64_t offset;
    uint32_t kind;
    uint32_t reserved;
} apei_fault;

/* A part of an item: the offset and length of its header (an entry or source as a whole; the descriptor of a section; the
 * header of a data entry), and those of the bytes that it describes (0 and 0 for entries and sources of tables). `type` is
 * the action of an instruction entry, the type of an error source, 0 for others. */
typedef struct apei_part {
    uint64_t offset;
    uint64_t length;
    uint64_t body;
    uint64_t body_length;
    uint32_t type;
    uint32_t reserved;
} apei_part;

/* Whether bytes are a whole, well-formed item; `parts` tells how many parts it has. The bytes may go on behind the item.
 * APEI_BAD, and `fault` then says the first fault; `parts` is 0. A Hardware Error Source Table takes memory while it is
 * checked, and gives it back: APEI_MEMORY. An item of another number is APEI_BAD with APEI_FAULT_ITEM. */
static inline enum apei_status apei_check(enum apei_item item, const uint8_t *bytes, size_t size, uint32_t *parts,
                                          apei_fault *fault);

/* Part number `index`, from 0, of an item that apei_check found well. APEI_BAD where it is not well, APEI_NONE behind the
 * last part, APEI_MEMORY as apei_check. */
static inline enum apei_status apei_part_at(enum apei_item item, const uint8_t *bytes, size_t size, uint32_t index,
                                            apei_part *part);

/* apei_check by the name of what is checked. */
static inline enum apei_status apei_check_erst(const uint8_t *table, size_t size, uint32_t *parts, apei_fault *fault);
static inline enum apei_status apei_check_hest(const uint8_t *table, size_t size, uint32_t *parts, apei_fault *fault);
static inline enum apei_status apei_check_bert(const uint8_t *table, size_t size, uint32_t *parts, apei_fault *fault);
static inline enum apei_status apei_check_record(const uint8_t *record, size_t size, uint32_t *parts, apei_fault *fault);
static inline enum apei_status apei_check_block(const uint8_t *block, size_t size, uint32_t *parts, apei_fault *fault);

/* ---- Makers -------------------------------------------------------------------------------------------------------- */

/* How severe an error is. */
enum apei_severity {
    APEI_SEVERITY_RECOVERABLE = 0,
    APEI_SEVERITY_FATAL = 1,
    APEI_SEVERITY_CORRECTED = 2,
    APEI_SEVERITY_INFORMATIONAL = 3
};

/* What a block says of its section. A GUID is 16 bytes as tables have it: fields of 4, 2 and 2 bytes with their low byte first,
 * and 8 bytes. `timestamp` has, from its low byte on, seconds, minutes, hours, a flag (1: precise), day, month, year and
 * century, each in binary coded decimal (UEFI 2.8, section N.2.1). `reserved` is not read. */
typedef struct apei_block_fields {
    uint64_t timestamp;
    uint32_t severity;     /* enum apei_severity */
    uint8_t flags;         /* of the section (UEFI 2.8, section N.2.2) */
    uint8_t has_timestamp; /* 0 where there is none; of the two below too */
    uint8_t has_fru;
    uint8_t has_fru_text;
    uint8_t type[16];      /* of the section: a GUID */
    uint8_t fru[16];       /* the unit to be replaced: a GUID */
    uint8_t fru_text[20];  /* and its name, with zeros behind it */
    uint32_t reserved;
} apei_block_fields;

/* What a record says of itself and of its section, which has the record's severity. */
typedef struct apei_record_fields {
    uint64_t id;
    uint64_t timestamp;
    uint32_t severity;      /* enum apei_severity */
    uint32_t flags;         /* of the record (section N.2.1) */
    uint32_t section_flags; /* of the section (section N.2.2) */
    uint8_t has_timestamp;  /* 0 where there is none; of the two below too */
    uint8_t has_fru;
    uint8_t has_fru_text;
    uint8_t reserved;
    uint8_t creator[16];      /* a GUID */
    uint8_t notification[16]; /* how the operating system was told: a GUID */
    uint8_t type[16];
    uint8_t fru[16];
    uint8_t fru_text[20];
    uint32_t unused;
} apei_record_fields;

/* The bytes before the section. */
#define APEI_BLOCK_HEAD 92
#define APEI_RECORD_HEAD 200

/* Makes an error status block (ACPI 6.4, section 18.3.2.7.1) around one section of any bytes: one data entry of revision
 * 0x0300, no raw data. `size` tells its bytes; where the answer is APEI_SHORT too: those that it would have. The status says
 * one uncorrected or one corrected error, or for an informational one neither. Section and block have no byte in common.
 * APEI_CHOICE, APEI_LONG, APEI_SHORT. */
static inline enum apei_status apei_make_block(const apei_block_fields *fields, const uint8_t *section, size_t length,
                                               uint8_t *block, size_t room, size_t *size);

/* Makes an error record (UEFI 2.8, section N.2) around one section, likewise. */
static inline enum apei_status apei_make_record(const apei_record_fields *fields, const uint8_t *section, size_t length,
                                                uint8_t *record, size_t room, size_t *size);

/* ---- The calls above, over the archive's ---------------------------------------------------------------------------- */

/* The archive's own calls take any pointer for one that is not null and is aligned, so the ones above look first. */
uint32_t apei_c_medium_size(const apei_geometry *geometry, uint64_t *size);
uint32_t apei_c_memory_size(const apei_geometry *geometry, uint64_t *bytes);
uint32_t apei_c_format_change(const apei_geometry *geometry, uint64_t step, apei_change *change, uint8_t *bytes, size_t room);
uint32_t apei_c_erst_open(apei_erst *erst, const uint8_t *medium, size_t size, const apei_addresses *addresses);
uint32_t apei_c_erst_open_raw(apei_erst *erst, const uint8_t *flash, size_t size, const apei_geometry *geometry,
                              const apei_addresses *addresses);
uint32_t apei_c_erst_close(apei_erst *erst);
uint32_t apei_c_erst_read(apei_erst *erst, uint32_t window, uint64_t offset, uint32_t size, uint64_t *value);
uint32_t apei_c_erst_write(apei_erst *erst, uint32_t window, uint64_t offset, uint32_t size, uint64_t value);
uint32_t apei_c_erst_get(apei_erst *erst, uint64_t offset, uint8_t *bytes, size_t size);
uint32_t apei_c_erst_put(apei_erst *erst, uint64_t offset, const uint8_t *bytes, size_t size);
uint32_t apei_c_erst_change(apei_erst *erst, apei_change *change, uint8_t *bytes, size_t room);
uint32_t apei_c_erst_done(apei_erst *erst);
uint32_t apei_c_erst_failed(apei_erst *erst, const uint8_t *medium, size_t size);
uint32_t apei_c_erst_reset(apei_erst *erst);
uint32_t apei_c_erst_settle(apei_erst *erst);
uint32_t apei_c_erst_move(apei_erst *erst, const apei_addresses *addresses);
uint32_t apei_c_erst_table(apei_erst *erst, uint8_t *table, size_t room, uint64_t *size);
uint32_t apei_c_erst_range_size(apei_erst *erst, uint64_t *size);
uint32_t apei_c_erst_image(apei_erst *erst, uint64_t offset, uint8_t *bytes, size_t size);
uint32_t apei_c_erst_save(apei_erst *erst, uint8_t *bytes, size_t room, uint64_t *size);
uint32_t apei_c_erst_load(apei_erst *erst, const uint8_t *medium, size_t size, const uint8_t *saved, size_t saved_size);
uint32_t apei_c_erst_load_raw(apei_erst *erst, const uint8_t *flash, size_t size, const apei_geometry *geometry,
                              const uint8_t *saved, size_t saved_size);
uint32_t apei_c_ghes_open(apei_ghes *ghes, const apei_source *sources, size_t count, uint64_t *refused);
uint32_t apei_c_ghes_close(apei_ghes *ghes);
uint32_t apei_c_ghes_table(apei_ghes *ghes, uint8_t *table, size_t room, uint64_t *size);
uint32_t apei_c_ghes_submit(apei_ghes *ghes, uint32_t source, const uint8_t *block, size_t size);
uint32_t apei_c_ghes_access(apei_ghes *ghes, uint32_t source, apei_access *access, uint8_t *bytes, size_t room);
uint32_t apei_c_ghes_done(apei_ghes *ghes, uint32_t source, uint64_t value);
uint32_t apei_c_ghes_reset(apei_ghes *ghes, uint32_t source, uint32_t blocks);
uint32_t apei_c_boot_open(apei_boot *boot, uint64_t address, uint32_t length);
uint32_t apei_c_boot_close(apei_boot *boot);
uint32_t apei_c_boot_lay(apei_boot *boot, const uint8_t *block, size_t size);
uint32_t apei_c_boot_access(apei_boot *boot, apei_access *access, uint8_t *bytes, size_t room);
uint32_t apei_c_boot_done(apei_boot *boot);
uint32_t apei_c_boot_table(uint64_t address, uint32_t length, uint8_t *table, size_t room);
uint32_t apei_c_client_open(apei_client *client, const uint8_t *table, size_t size);
uint32_t apei_c_client_close(apei_client *client);
uint32_t apei_c_client_write(apei_client *client, const uint8_t *record, size_t size);
uint32_t apei_c_client_begin(apei_client *client, uint32_t command, uint64_t id, uint64_t room, uint64_t *ids, size_t places);
uint32_t apei_c_client_demand(apei_client *client, apei_demand *demand);
uint32_t apei_c_client_answer(apei_client *client, uint32_t failed, uint64_t value, uint64_t *ids, size_t places);
uint32_t apei_c_client_result(apei_client *client, uint64_t *value);
uint32_t apei_c_client_range(apei_client *client, apei_range *range);
uint32_t apei_c_check(uint32_t item, const uint8_t *bytes, size_t size, uint32_t *parts, apei_fault *fault);
uint32_t apei_c_part_at(uint32_t item, const uint8_t *bytes, size_t size, uint32_t index, apei_part *part);
uint32_t apei_c_make_block(const apei_block_fields *fields, const uint8_t *section, size_t length, uint8_t *block, size_t room,
                           uint64_t *size);
uint32_t apei_c_make_record(const apei_record_fields *fields, const uint8_t *section, size_t length, uint8_t *record,
                            size_t room, uint64_t *size);

#ifdef __cplusplus
#define APEI_ALIGNMENT(type) alignof(type)
#else
#define APEI_ALIGNMENT(type) (sizeof(struct { char before; type it; }) - sizeof(type))
#endif
#define APEI_IS(pointer, type) ((pointer) != NULL && (uintptr_t)(pointer) % APEI_ALIGNMENT(type) == 0)
/* No bytes may have no address. */
#define APEI_ARE(bytes, size) ((bytes) != NULL || (size) == 0)
#define APEI_BYTES(bytes) ((bytes) != NULL ? (bytes) : (const uint8_t *)"")
#define APEI_ROOM(bytes, nothing) ((bytes) != NULL ? (bytes) : (nothing))

static inline const char *apei_status_text(enum apei_status status)
{
    switch (status) {
    case APEI_OK: return "done";
    case APEI_POINTER: return "a pointer is null or not aligned";
    case APEI_CLOSED: return "the handle is closed";
    case APEI_OPEN: return "the handle is open already";
    case APEI_WINDOW: return "there is no such window";
    case APEI_ACCESS: return "nothing stands there, or not of this size";
    case APEI_DUE: return "a change is due on the medium";
    case APEI_NONE: return "there is none";
    case APEI_SHORT: return "the buffer is too small";
    case APEI_BUSY: return "an execution runs, or a region is written";
    case APEI_FLASH: return "the flash failed";
    case APEI_MEMORY: return "out of memory";
    case APEI_GEOMETRY: return "sectors or slots are outside their limits, or another device's";
    case APEI_FOREIGN: return "the bytes are not the library's own";
    case APEI_VERSION: return "the bytes have a version that is not known";
    case APEI_SIZE: return "the bytes are not as many as the geometry has";
    case APEI_ADDRESSES: return "the windows overlap or do not end below 2^64";
    case APEI_BAD: return "the item is not well formed";
    case APEI_UNSAVED: return "the bytes are not those of a saved device";
    case APEI_SAVED_VERSION: return "the device was saved in a version that is not known";
    case APEI_SAVED_FLASH: return "the device was saved over a flash that is divided otherwise";
    case APEI_SOURCE: return "there is no source of this number";
    case APEI_COUNT: return "there are no sources, or more than 64";
    case APEI_SOURCE_TYPE: return "the source is of neither type 9 nor type 10";
    case APEI_RESERVED: return "the source's flags are not 0, or it is neither enabled nor disabled";
    case APEI_PREALLOCATION: return "the source has no record or no section pre-allocated";
    case APEI_NOTIFICATION: return "the source's notification has another length than 28 or no known type";
    case APEI_LENGTH: return "the source's window has fewer than 20 or more than 65536 bytes";
    case APEI_PLACES: return "the source has no place for a block, or more than 65536";
    case APEI_ADDRESS_REGISTER: return "the register of the block's address is none";
    case APEI_ADDRESS: return "the block's address does not fit its register";
    case APEI_ACK_REGISTER: return "the acknowledge register is none";
    case APEI_MASK: return "no bit acknowledges, or one outside the register";
    case APEI_ZERO: return "the block stands at 0";
    case APEI_ALIGNMENT: return "the block or a register is not aligned";
    case APEI_LATE: return "a part of the source ends past 2^64 - 1 or past port 65535";
    case APEI_CLASH: return "two parts of sources have a byte in common";
    case APEI_IDENTIFIER: return "an earlier source has the same identifier";
    case APEI_FULL: return "the source has no place for a further block";
    case APEI_LONG: return "the block or record is too long";
    case APEI_BLOCK: return "the bytes are not one error status block";
    case APEI_WAITS: return "the guest has not acknowledged yet";
    case APEI_CHOICE: return "the number is none of its list";
    case APEI_REGION: return "no region may stand there";
    case APEI_TABLE: return "the bytes are no error record serialization table";
    case APEI_UNATTACHED: return "the client has not attached";
    case APEI_NON_VOLATILE: return "the range is non-volatile memory";
    case APEI_NO_RANGE: return "the range has no room for a record";
    case APEI_NO_SPACE: return "the firmware's store is full";
    case APEI_HARDWARE: return "the firmware's store is not available";
    case APEI_FAILED: return "the firmware failed";
    case APEI_EMPTY: return "the firmware's store is empty";
    case APEI_NOT_FOUND: return "there is no such record";
    case APEI_FRAME: return "the bytes begin with no error record";
    case APEI_TOO_LONG: return "the record is longer than the range";
    case APEI_SMALL: return "the buffer is shorter than the record";
    case APEI_BAD_LENGTH: return "the record says a length that can't be";
    case APEI_STATUS: return "the firmware answered an unknown status";
    case APEI_TRAILING: return "bytes follow the record";
    case APEI_TOO_LATE: return "the firmware stayed busy";
    case APEI_STEPS: return "a program of the table took too many steps";
    case APEI_NO_ACTION: return "the table has no program for an action";
    case APEI_FAULT: return "an access failed";
    case APEI_PROGRAM_FAULT: return "a program of the table is not well formed";
    case APEI_LIST_FULL: return "there are more identifiers than room";
    }
    return "no status";
}

static inline enum apei_status apei_medium_size(const apei_geometry *geometry, uint64_t *size)
{
    if (!APEI_IS(geometry, apei_geometry) || !APEI_IS(size, uint64_t))
        return APEI_POINTER;
    return (enum apei_status)apei_c_medium_size(geometry, size);
}

static inline enum apei_status apei_memory_size(const apei_geometry *geometry, uint64_t *bytes)
{
    if (!APEI_IS(geometry, apei_geometry) || !APEI_IS(bytes, uint64_t))
        return APEI_POINTER;
    return (enum apei_status)apei_c_memory_size(geometry, bytes);
}

static inline enum apei_status apei_format_change(const apei_geometry *geometry, uint64_t step, apei_change *change,
                                                  uint8_t bytes[APEI_PROGRAM_MAX])
{
    if (!APEI_IS(geometry, apei_geometry) || !APEI_IS(change, apei_change) || bytes == NULL)
        return APEI_POINTER;
    return (enum apei_status)apei_c_format_change(geometry, step, change, bytes, APEI_PROGRAM_MAX);
}

static inline enum apei_status apei_erst_open(apei_erst *erst, const uint8_t *medium, size_t size,
                                              const apei_addresses *addresses)
{
    if (!APEI_IS(erst, apei_erst) || !APEI_ARE(medium, size) || !APEI_IS(addresses, apei_addresses))
        return APEI_POINTER;
    return (enum apei_status)apei_c_erst_open(erst, APEI_BYTES(medium), size, addresses);
}

static inline enum apei_status apei_erst_open_raw(apei_erst *erst, const uint8_t *flash, size_t size,
                                                  const apei_geometry *geometry, const apei_addresses *addresses)
{
    if (!APEI_IS(erst, apei_erst) || !APEI_ARE(flash, size) || !APEI_IS(geometry, apei_geometry)
        || !APEI_IS(addresses, apei_addresses))
        return APEI_POINTER;
    return (enum apei_status)apei_c_erst_open_raw(erst, APEI_BYTES(flash), size, geometry, addresses);
}

static inline enum apei_status apei_erst_close(apei_erst *erst)
{
    return APEI_IS(erst, apei_erst) ? (enum apei_status)apei_c_erst_close(erst) : APEI_POINTER;
}

static inline enum apei_status apei_erst_read(apei_erst *erst, enum apei_window window, uint64_t offset, uint32_t size,
                                              uint64_t *value)
{
    if (!APEI_IS(erst, apei_erst) || !APEI_IS(value, uint64_t))
        return APEI_POINTER;
    return (enum apei_status)apei_c_erst_read(erst, (uint32_t)window, offset, size, value);
}

static inline enum apei_status apei_erst_write(apei_erst *erst, enum apei_window window, uint64_t offset, uint32_t size,
                                               uint64_t value)
{
    if (!APEI_IS(erst, apei_erst))
        return APEI_POINTER;
    return (enum apei_status)apei_c_erst_write(erst, (uint32_t)window, offset, size, value);
}

static inline enum apei_status apei_erst_get(apei_erst *erst, uint64_t offset, uint8_t *bytes, size_t size)
{
    uint8_t nothing = 0;
    if (!APEI_IS(erst, apei_erst) || !APEI_ARE(bytes, size))
        return APEI_POINTER;
    return (enum apei_status)apei_c_erst_get(erst, offset, APEI_ROOM(bytes, &nothing), size);
}

static inline enum apei_status apei_erst_put(apei_erst *erst, uint64_t offset, const uint8_t *bytes, size_t size)
{
    if (!APEI_IS(erst, apei_erst) || !APEI_ARE(bytes, size))
        return APEI_POINTER;
    return (enum apei_status)apei_c_erst_put(erst, offset, APEI_BYTES(bytes), size);
}

static inline enum apei_status apei_erst_change(apei_erst *erst, apei_change *change, uint8_t bytes[APEI_PROGRAM_MAX])
{
    if (!APEI_IS(erst, apei_erst) || !APEI_IS(change, apei_change) || bytes == NULL)
        return APEI_POINTER;
    return (enum apei_status)apei_c_erst_change(erst, change, bytes, APEI_PROGRAM_MAX);
}

static inline enum apei_status apei_erst_done(apei_erst *erst)
{
    return APEI_IS(erst, apei_erst) ? (enum apei_status)apei_c_erst_done(erst) : APEI_POINTER;
}

static inline enum apei_status apei_erst_failed(apei_erst *erst, const uint8_t *medium, size_t size)
{
    if (!APEI_IS(erst, apei_erst) || !APEI_ARE(medium, size))
        return APEI_POINTER;
    return (enum apei_status)apei_c_erst_failed(erst, APEI_BYTES(medium), size);
}

static inline enum apei_status apei_erst_reset(apei_erst *erst)
{
    return APEI_IS(erst, apei_erst) ? (enum apei_status)apei_c_erst_reset(erst) : APEI_POINTER;
}

static inline enum apei_status apei_erst_move(apei_erst *erst, const apei_addresses *addresses)
{
    if (!APEI_IS(erst, apei_erst) || !APEI_IS(addresses, apei_addresses))
        return APEI_POINTER;
    return (enum apei_status)apei_c_erst_move(erst, addresses);
}

static inline enum apei_status apei_erst_settle(apei_erst *erst)
{
    return APEI_IS(erst, apei_erst) ? (enum apei_status)apei_c_erst_settle(erst) : APEI_POINTER;
}

static inline enum apei_status apei_erst_table(apei_erst *erst, uint8_t *table, size_t room, size_t *size)
{
    uint8_t nothing = 0;
    uint64_t found = 0;
    enum apei_status status;
    if (!APEI_IS(erst, apei_erst) || !APEI_ARE(table, room) || !APEI_IS(size, size_t))
        return APEI_POINTER;
    status = (enum apei_status)apei_c_erst_table(erst, APEI_ROOM(table, &nothing), room, &found);
    if (status == APEI_OK || status == APEI_SHORT)
        *size = (size_t)found;
    return status;
}

static inline enum apei_status apei_erst_range_size(apei_erst *erst, uint64_t *size)
{
    if (!APEI_IS(erst, apei_erst) || !APEI_IS(size, uint64_t))
        return APEI_POINTER;
    return (enum apei_status)apei_c_erst_range_size(erst, size);
}

static inline enum apei_status apei_erst_image(apei_erst *erst, uint64_t offset, uint8_t *bytes, size_t size)
{
    uint8_t nothing = 0;
    if (!APEI_IS(erst, apei_erst) || !APEI_ARE(bytes, size))
        return APEI_POINTER;
    return (enum apei_status)apei_c_erst_image(erst, offset, APEI_ROOM(bytes, &nothing), size);
}

static inline enum apei_status apei_erst_save(apei_erst *erst, uint8_t *bytes, size_t room, size_t *size)
{
    uint8_t nothing = 0;
    uint64_t found = 0;
    enum apei_status status;
    if (!APEI_IS(erst, apei_erst) || !APEI_ARE(bytes, room) || !APEI_IS(size, size_t))
        return APEI_POINTER;
    status = (enum apei_status)apei_c_erst_save(erst, APEI_ROOM(bytes, &nothing), room, &found);
    if (status == APEI_OK || status == APEI_SHORT)
        *size = (size_t)found;
    return status;
}

static inline enum apei_status apei_erst_load(apei_erst *erst, const uint8_t *medium, size_t size, const uint8_t *saved,
                                              size_t saved_size)
{
    if (!APEI_IS(erst, apei_erst) || !APEI_ARE(medium, size) || !APEI_ARE(saved, saved_size))
        return APEI_POINTER;
    return (enum apei_status)apei_c_erst_load(erst, APEI_BYTES(medium), size, APEI_BYTES(saved), saved_size);
}

static inline enum apei_status apei_erst_load_raw(apei_erst *erst, const uint8_t *flash, size_t size,
                                                  const apei_geometry *geometry, const uint8_t *saved, size_t saved_size)
{
    if (!APEI_IS(erst, apei_erst) || !APEI_ARE(flash, size) || !APEI_IS(geometry, apei_geometry)
        || !APEI_ARE(saved, saved_size))
        return APEI_POINTER;
    return (enum apei_status)apei_c_erst_load_raw(erst, APEI_BYTES(flash), size, geometry, APEI_BYTES(saved), saved_size);
}

static inline enum apei_status apei_ghes_open(apei_ghes *ghes, const apei_source *sources, size_t count, uint64_t *refused)
{
    static apei_source none;
    if (!APEI_IS(ghes, apei_ghes) || (!APEI_IS(sources, apei_source) && count != 0) || !APEI_IS(refused, uint64_t))
        return APEI_POINTER;
    return (enum apei_status)apei_c_ghes_open(ghes, count != 0 ? sources : &none, count, refused);
}

static inline enum apei_status apei_ghes_close(apei_ghes *ghes)
{
    return APEI_IS(ghes, apei_ghes) ? (enum apei_status)apei_c_ghes_close(ghes) : APEI_POINTER;
}

static inline enum apei_status apei_ghes_table(apei_ghes *ghes, uint8_t *table, size_t room, size_t *size)
{
    uint8_t nothing = 0;
    uint64_t found = 0;
    enum apei_status status;
    if (!APEI_IS(ghes, apei_ghes) || !APEI_ARE(table, room) || !APEI_IS(size, size_t))
        return APEI_POINTER;
    status = (enum apei_status)apei_c_ghes_table(ghes, APEI_ROOM(table, &nothing), room, &found);
    if (status == APEI_OK || status == APEI_SHORT)
        *size = (size_t)found;
    return status;
}

static inline enum apei_status apei_ghes_submit(apei_ghes *ghes, uint32_t source, const uint8_t *block, size_t size)
{
    if (!APEI_IS(ghes, apei_ghes) || !APEI_ARE(block, size))
        return APEI_POINTER;
    return (enum apei_status)apei_c_ghes_submit(ghes, source, APEI_BYTES(block), size);
}

static inline enum apei_status apei_ghes_access(apei_ghes *ghes, uint32_t source, apei_access *access,
                                                uint8_t bytes[APEI_ACCESS_MAX])
{
    if (!APEI_IS(ghes, apei_ghes) || !APEI_IS(access, apei_access) || bytes == NULL)
        return APEI_POINTER;
    return (enum apei_status)apei_c_ghes_access(ghes, source, access, bytes, APEI_ACCESS_MAX);
}

static inline enum apei_status apei_ghes_done(apei_ghes *ghes, uint32_t source, uint64_t value)
{
    return APEI_IS(ghes, apei_ghes) ? (enum apei_status)apei_c_ghes_done(ghes, source, value) : APEI_POINTER;
}

static inline enum apei_status apei_ghes_reset(apei_ghes *ghes, uint32_t source, enum apei_unacknowledged blocks)
{
    return APEI_IS(ghes, apei_ghes) ? (enum apei_status)apei_c_ghes_reset(ghes, source, (uint32_t)blocks) : APEI_POINTER;
}

static inline enum apei_status apei_boot_open(apei_boot *boot, uint64_t address, uint32_t length)
{
    return APEI_IS(boot, apei_boot) ? (enum apei_status)apei_c_boot_open(boot, address, length) : APEI_POINTER;
}

static inline enum apei_status apei_boot_close(apei_boot *boot)
{
    return APEI_IS(boot, apei_boot) ? (enum apei_status)apei_c_boot_close(boot) : APEI_POINTER;
}

static inline enum apei_status apei_boot_lay(apei_boot *boot, const uint8_t *block, size_t size)
{
    if (!APEI_IS(boot, apei_boot) || !APEI_ARE(block, size))
        return APEI_POINTER;
    return (enum apei_status)apei_c_boot_lay(boot, APEI_BYTES(block), size);
}

static inline enum apei_status apei_boot_access(apei_boot *boot, apei_access *access, uint8_t bytes[APEI_ACCESS_MAX])
{
    if (!APEI_IS(boot, apei_boot) || !APEI_IS(access, apei_access) || bytes == NULL)
        return APEI_POINTER;
    return (enum apei_status)apei_c_boot_access(boot, access, bytes, APEI_ACCESS_MAX);
}

static inline enum apei_status apei_boot_done(apei_boot *boot)
{
    return APEI_IS(boot, apei_boot) ? (enum apei_status)apei_c_boot_done(boot) : APEI_POINTER;
}

static inline enum apei_status apei_boot_table(uint64_t address, uint32_t length, uint8_t table[APEI_BERT_SIZE])
{
    return table != NULL ? (enum apei_status)apei_c_boot_table(address, length, table, APEI_BERT_SIZE) : APEI_POINTER;
}

static inline enum apei_status apei_client_open(apei_client *client, const uint8_t *table, size_t size)
{
    if (!APEI_IS(client, apei_client) || !APEI_ARE(table, size))
        return APEI_POINTER;
    return (enum apei_status)apei_c_client_open(client, APEI_BYTES(table), size);
}

static inline enum apei_status apei_client_close(apei_client *client)
{
    return APEI_IS(client, apei_client) ? (enum apei_status)apei_c_client_close(client) : APEI_POINTER;
}

static inline enum apei_status apei_client_range(apei_client *client, apei_range *range)
{
    if (!APEI_IS(client, apei_client) || !APEI_IS(range, apei_range))
        return APEI_POINTER;
    return (enum apei_status)apei_c_client_range(client, range);
}

static inline enum apei_status apei_client_write(apei_client *client, const uint8_t *record, size_t size)
{
    if (!APEI_IS(client, apei_client) || !APEI_ARE(record, size))
        return APEI_POINTER;
    return (enum apei_status)apei_c_client_write(client, APEI_BYTES(record), size);
}

static inline enum apei_status apei_client_begin(apei_client *client, enum apei_command command, uint64_t id, uint64_t room)
{
    uint64_t none = 0;
    if (!APEI_IS(client, apei_client))
        return APEI_POINTER;
    if ((uint32_t)command > APEI_NEXT)
        return APEI_CHOICE;
    return (enum apei_status)apei_c_client_begin(client, (uint32_t)command, id, room, &none, 0);
}

static inline enum apei_status apei_client_list(apei_client *client, uint64_t *ids, size_t room)
{
    uint64_t none = 0;
    if (!APEI_IS(client, apei_client) || (room > 0 && !APEI_IS(ids, uint64_t)))
        return APEI_POINTER;
    return (enum apei_status)apei_c_client_begin(client, 5, 0, 0, room > 0 ? ids : &none, room);
}

static inline enum apei_status apei_client_demand(apei_client *client, apei_demand *demand)
{
    if (!APEI_IS(client, apei_client) || !APEI_IS(demand, apei_demand))
        return APEI_POINTER;
    return (enum apei_status)apei_c_client_demand(client, demand);
}

static inline enum apei_status apei_client_answer(apei_client *client, int failed, uint64_t value)
{
    return apei_client_list_answer(client, failed, value, NULL, 0);
}

static inline enum apei_status apei_client_list_answer(apei_client *client, int failed, uint64_t value, uint64_t *ids,
                                                       size_t room)
{
    uint64_t none = 0;
    if (!APEI_IS(client, apei_client) || (room > 0 && !APEI_IS(ids, uint64_t)))
        return APEI_POINTER;
    return (enum apei_status)apei_c_client_answer(client, failed != 0, value, room > 0 ? ids : &none, room);
}

static inline enum apei_status apei_client_result(apei_client *client, uint64_t *value)
{
    if (!APEI_IS(client, apei_client) || !APEI_IS(value, uint64_t))
        return APEI_POINTER;
    return (enum apei_status)apei_c_client_result(client, value);
}

static inline enum apei_status apei_check(enum apei_item item, const uint8_t *bytes, size_t size, uint32_t *parts,
                                          apei_fault *fault)
{
    if (!APEI_ARE(bytes, size) || !APEI_IS(parts, uint32_t) || !APEI_IS(fault, apei_fault))
        return APEI_POINTER;
    return (enum apei_status)apei_c_check((uint32_t)item, APEI_BYTES(bytes), size, parts, fault);
}

static inline enum apei_status apei_part_at(enum apei_item item, const uint8_t *bytes, size_t size, uint32_t index,
                                            apei_part *part)
{
    if (!APEI_ARE(bytes, size) || !APEI_IS(part, apei_part))
        return APEI_POINTER;
    return (enum apei_status)apei_c_part_at((uint32_t)item, APEI_BYTES(bytes), size, index, part);
}

static inline enum apei_status apei_check_erst(const uint8_t *table, size_t size, uint32_t *parts, apei_fault *fault)
{
    return apei_check(APEI_ITEM_ERST, table, size, parts, fault);
}

static inline enum apei_status apei_check_hest(const uint8_t *table, size_t size, uint32_t *parts, apei_fault *fault)
{
    return apei_check(APEI_ITEM_HEST, table, size, parts, fault);
}

static inline enum apei_status apei_check_bert(const uint8_t *table, size_t size, uint32_t *parts, apei_fault *fault)
{
    return apei_check(APEI_ITEM_BERT, table, size, parts, fault);
}

static inline enum apei_status apei_check_record(const uint8_t *record, size_t size, uint32_t *parts, apei_fault *fault)
{
    return apei_check(APEI_ITEM_RECORD, record, size, parts, fault);
}

static inline enum apei_status apei_check_block(const uint8_t *block, size_t size, uint32_t *parts, apei_fault *fault)
{
    return apei_check(APEI_ITEM_BLOCK, block, size, parts, fault);
}

static inline enum apei_status apei_make_block(const apei_block_fields *fields, const uint8_t *section, size_t length,
                                               uint8_t *block, size_t room, size_t *size)
{
    uint8_t nothing = 0;
    uint64_t made = 0;
    enum apei_status status;
    if (!APEI_IS(fields, apei_block_fields) || !APEI_ARE(section, length) || !APEI_ARE(block, room) || !APEI_IS(size, size_t))
        return APEI_POINTER;
    status = (enum apei_status)apei_c_make_block(fields, APEI_BYTES(section), length, APEI_ROOM(block, &nothing), room, &made);
    if (status == APEI_OK || status == APEI_SHORT)
        *size = (size_t)made;
    return status;
}

static inline enum apei_status apei_make_record(const apei_record_fields *fields, const uint8_t *section, size_t length,
                                                uint8_t *record, size_t room, size_t *size)
{
    uint8_t nothing = 0;
    uint64_t made = 0;
    enum apei_status status;
    if (!APEI_IS(fields, apei_record_fields) || !APEI_ARE(section, length) || !APEI_ARE(record, room)
        || !APEI_IS(size, size_t))
        return APEI_POINTER;
    status = (enum apei_status)apei_c_make_record(fields, APEI_BYTES(section), length, APEI_ROOM(record, &nothing), room, &made);
    if (status == APEI_OK || status == APEI_SHORT)
        *size = (size_t)made;
    return status;
}

#undef APEI_ALIGNMENT
#undef APEI_IS
#undef APEI_ARE
#undef APEI_BYTES
#undef APEI_ROOM

#ifdef __cplusplus
}
#endif

#endif
