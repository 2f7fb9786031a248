/* qemu.h - the table of QEMU's device `acpi-erst`, as QEMU 7.2 and later ones build it (`build_erst`). */
#ifndef QEMU_H
#define QEMU_H

#include <stdint.h>
#include <string.h>

enum { QEMU_TABLE = 48 + 32 * 27 };

/* Writes it for registers that begin at `registers`. */
static inline void qemu_table(uint64_t registers, uint8_t table[QEMU_TABLE])
{
    enum { READ = 0, READ_VALUE = 1, WRITE = 2, WRITE_VALUE = 3, ACTION = 0, VALUE = 8 };
    static const struct {
        uint8_t action, instruction, width, offset;
        uint8_t value;
    } entries[] = {
        {0x0, WRITE_VALUE, 32, ACTION, 0x0}, {0x1, WRITE_VALUE, 32, ACTION, 0x1}, {0x2, WRITE_VALUE, 32, ACTION, 0x2},
        {0x3, WRITE_VALUE, 32, ACTION, 0x3}, {0x4, WRITE, 32, VALUE, 0}, {0x4, WRITE_VALUE, 32, ACTION, 0x4},
        {0x5, WRITE_VALUE, 32, VALUE, 0x9C}, {0x5, WRITE_VALUE, 32, ACTION, 0x5}, {0x6, WRITE_VALUE, 32, ACTION, 0x6},
        {0x6, READ_VALUE, 32, VALUE, 1}, {0x7, WRITE_VALUE, 32, ACTION, 0x7}, {0x7, READ, 32, VALUE, 0},
        {0x8, WRITE_VALUE, 32, ACTION, 0x8}, {0x8, READ, 64, VALUE, 0}, {0x9, WRITE, 64, VALUE, 0},
        {0x9, WRITE_VALUE, 32, ACTION, 0x9}, {0xA, WRITE_VALUE, 32, ACTION, 0xA}, {0xA, READ, 32, VALUE, 0},
        {0xB, WRITE_VALUE, 32, ACTION, 0xB}, {0xD, WRITE_VALUE, 32, ACTION, 0xD}, {0xD, READ, 64, VALUE, 0},
        {0xE, WRITE_VALUE, 32, ACTION, 0xE}, {0xE, READ, 64, VALUE, 0}, {0xF, WRITE_VALUE, 32, ACTION, 0xF},
        {0xF, READ, 32, VALUE, 0}, {0x10, WRITE_VALUE, 32, ACTION, 0x10}, {0x10, READ, 64, VALUE, 0},
    };
    size_t count = sizeof entries / sizeof entries[0], i, k;
    uint8_t sum = 0;
    memset(table, 0, QEMU_TABLE);
    memcpy(table, "ERST", 4);
    table[4] = (uint8_t)QEMU_TABLE;
    table[5] = QEMU_TABLE >> 8;
    table[8] = 1;
    table[36] = 48;
    table[44] = (uint8_t)count;
    for (i = 0; i < count; i++) {
        uint8_t *entry = table + 48 + 32 * i;
        uint64_t address = registers + entries[i].offset;
        entry[0] = entries[i].action;
        entry[1] = entries[i].instruction;
        entry[5] = entries[i].width;
        entry[7] = entries[i].width == 32 ? 3 : 4;
        for (k = 0; k < 8; k++)
            entry[8 + k] = (uint8_t)(address >> 8 * k);
        entry[16] = entries[i].value;
        memset(entry + 24, 0xFF, entries[i].width / 8);
    }
    for (i = 0; i < QEMU_TABLE; i++)
        sum += table[i];
    table[9] = (uint8_t)-sum;
}

#endif
