/*
 * Boot error regions, over memories of any bytes:
 *
 *   - blocks are laid behind one another, and stand in the region, each whole and in order, with zeros behind them;
 *   - power that is lost in any access, also within it, leaves those that were laid before, and the one that is laid at most;
 *   - a block that is too long for what is left, or is none, is refused, and nothing changes.
 *
 * The last line says how many regions there were.
 */
#include "guests.h"

#include <stdio.h>
#include <string.h>

enum { REGIONS = 10000, AT = 64, ROOM = 2000, BLOCKS = 64 };

static _Alignas(8) uint8_t keeps[AT + ROOM + AT];
static struct block laid[BLOCKS];
static unsigned count;

/* An access is made, or power is lost in it: of a write of more than 4 bytes any first bytes may stand then. */
static bool make(apei_boot *boot, uint32_t length, bool is_cut)
{
    apei_access access;
    uint8_t bytes[APEI_ACCESS_MAX];
    size_t n;
    if (apei_boot_access(boot, &access, bytes) != APEI_OK)
        return false;
    tally.steps++;
    expect(access.kind == APEI_WRITE && access.space == 0 && access.address >= AT && access.length <= APEI_ACCESS_MAX
            && access.address + access.length <= AT + length,
        "an access leaves the region");
    n = !is_cut ? access.length : access.length > 4 ? below(access.length) : below(2) * access.length;
    memcpy(keeps + access.address, bytes, n);
    if (!is_cut)
        expect(apei_boot_done(boot) == APEI_OK, "an access is not done");
    return true;
}

/* The blocks of the region, as an operating system reads it: those that were laid, and `more` others at most. */
static void expect_blocks(uint32_t length, unsigned more)
{
    size_t at = AT, end = AT + length;
    unsigned found = 0, parts;
    apei_fault fault;
    while (end - at >= 20 && apei_check_block(keeps + at, end - at, &parts, &fault) == APEI_OK) {
        size_t size = block_length(keeps + at);
        expect(found < count + more && size == laid[found].size && memcmp(keeps + at, laid[found].bytes, size) == 0,
            "another block stands in the region");
        found++;
        at += size;
    }
    expect(found >= count, "a block is lost");
    expect(end - at < 4 || memcmp(keeps + at, "\0\0\0\0", 4) == 0, "something stands behind the last block");
}

static void lay(apei_boot *boot, uint32_t length, size_t *left)
{
    struct block *block = &laid[count];
    make_block(block, WINDOW);
    if (block->size > *left) {
        expect(apei_boot_lay(boot, block->bytes, block->size) == APEI_LONG, "a block is laid that is too long");
        return;
    }
    expect(apei_boot_lay(boot, block->bytes, block->size - 1) == APEI_BLOCK, "a part of a block is laid");
    expect(apei_boot_lay(boot, block->bytes, block->size) == APEI_OK, "a block is refused");
    expect(apei_boot_lay(boot, block->bytes, block->size) == APEI_BUSY, "two blocks are laid at a time");
    while (make(boot, length, false))
        expect_blocks(length, 1);
    *left -= block->size;
    count++;
    tally.blocks++;
}

static void expect_zeros(uint32_t length)
{
    for (uint32_t i = 0; i < length; i++)
        expect(keeps[AT + i] == 0, "an empty region is not zero");
}

static void lay_some(uint64_t number)
{
    apei_boot boot = {0};
    uint32_t length;
    size_t left;
    unsigned rounds;
    seed(number);
    left = length = (uint32_t)(20 + below(ROOM - 20));
    rounds = 1 + (unsigned)below(12);
    count = 0;
    for (size_t i = 0; i < sizeof keeps; i++)
        keeps[i] = (uint8_t)below(256);
    expect(apei_boot_open(&boot, AT, length) == APEI_OK, "a region is refused");
    expect(apei_boot_lay(&boot, keeps, 20) == APEI_BUSY, "a block is laid before the region is empty");
    while (make(&boot, length, false))
        ;
    expect_zeros(length);
    while (rounds-- > 0)
        lay(&boot, length, &left);
    make_block(&laid[count], WINDOW);
    if (apei_boot_lay(&boot, laid[count].bytes, laid[count].size) == APEI_OK) {
        unsigned steps = (unsigned)below(8);
        while (steps-- > 0 && make(&boot, length, false))
            ;
        make(&boot, length, true);
        expect_blocks(length, 1);
    }
    expect(apei_boot_close(&boot) == APEI_OK && apei_boot_close(&boot) == APEI_CLOSED, "a region is not closed once");
}

static void refuse(void)
{
    static const struct {
        uint64_t address;
        uint32_t length;
    } misplaced[] = {{0, 64}, {2, 64}, {64, 19}, {UINT64_MAX - 63, 65}};
    apei_boot boot = {0};
    uint8_t table[APEI_BERT_SIZE];
    uint32_t parts;
    apei_fault fault;
    for (size_t i = 0; i < sizeof misplaced / sizeof *misplaced; i++) {
        expect(apei_boot_open(&boot, misplaced[i].address, misplaced[i].length) == APEI_REGION, "a misplaced region is opened");
        expect(apei_boot_table(misplaced[i].address, misplaced[i].length, table) == APEI_REGION, "a misplaced region has a table");
    }
    expect(apei_boot_lay(&boot, table, sizeof table) == APEI_CLOSED, "a block is laid in no region");
    expect(apei_boot_table(AT, 64, table) == APEI_OK && apei_check_bert(table, sizeof table, &parts, &fault) == APEI_OK, "there is no table");
    expect(table[36] == 64 && table[40] == AT && table[41] == 0, "the table tells another region");
}

int main(void)
{
    refuse();
    for (uint64_t i = 0; i < REGIONS; i++)
        lay_some(i);
    printf("%d regions, %llu accesses, %llu blocks laid, %llu wrong\n", REGIONS, tally.steps, tally.blocks, tally.wrong);
    return tally.wrong == 0 ? 0 : 1;
}
