/*
 * print.c - has Linux print error status blocks.
 *
 * Standard input is blocks one behind another, each behind its length in four little-endian bytes. Each is printed as the
 * kernel prints it, with a line `end` behind it. A machine check of Linux's, which the kernel keeps in records of its own and
 * prints elsewhere, is a block of a section type of Linux's: its fields are written by the names and places of the kernel's header.
 */
#include "environment.h"
#include <asm/mce.h>
#include <linux/cper.h>
#include <acpi/ghes.h>
#include <stdlib.h>

enum { BLOCK_ROOM = 1 << 20 };

static const guid_t machine_check =
    GUID_INIT(0xfe08ffbe, 0x95e4, 0x4be7, 0xbc, 0x73, 0x40, 0x96, 0x04, 0x4a, 0x38, 0xfc);

#define PRINT(name) printf("%s: 0x%llx\n", #name, (u64)check.name)

static void print_machine_check(const void *body, size_t size)
{
    struct mce check;

    if (size < sizeof check) {
        puts("too short");
        return;
    }
    memcpy(&check, body, sizeof check);
    PRINT(status), PRINT(misc), PRINT(addr), PRINT(mcgstatus), PRINT(ip), PRINT(tsc), PRINT(time), PRINT(cpuvendor), PRINT(inject_flags);
    PRINT(severity), PRINT(cpuid), PRINT(cs), PRINT(bank), PRINT(cpu), PRINT(finished), PRINT(extcpu), PRINT(socketid), PRINT(apicid);
    PRINT(mcgcap), PRINT(synd), PRINT(ipid), PRINT(ppin), PRINT(microcode), PRINT(kflags);
}

static void print_block(struct acpi_hest_generic_status *block)
{
    struct acpi_hest_generic_data *first = (struct acpi_hest_generic_data *)(block + 1);

    if (cper_estatus_check(block))
        puts("Linux takes no such block");
    else if (guid_equal((const guid_t *)first->section_type, &machine_check))
        print_machine_check(acpi_hest_get_payload(first), first->error_data_length);
    else
        cper_estatus_print("", block);
    puts("end");
}

int main(void)
{
    u8 *room = malloc(BLOCK_ROOM);
    u32 length;

    if (!room)
        return 1;
    while (fread(&length, sizeof length, 1, stdin) == 1) {
        if (length > BLOCK_ROOM || fread(room, 1, length, stdin) != length) {
            fputs("a block is cut off\n", stderr);
            return 1;
        }
        print_block((struct acpi_hest_generic_status *)room);
    }
    return 0;
}
