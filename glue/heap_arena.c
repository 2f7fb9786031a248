/* Where the archive takes its memory in a program without malloc: an arena. heap_arena.h says how. */
#include "heap_arena.h"

#include <stdbool.h>

#ifndef APEI_ARENA
#define APEI_ARENA (2u << 20)
#endif

struct answer {
    bool is_there;
    void *at;
};

struct answer rattle_alloc(size_t size, size_t alignment);
struct answer rattle_realloc(void *old, size_t kept, size_t size, size_t alignment);
void rattle_dealloc(void *old);

/*
 * The arena is cut into blocks, one after another, up to its end. A block begins with its size, a multiple of UNIT, and with
 * whether it is held; what is taken of it follows at UNIT.
 */
enum { UNIT = 16, LEAST = 4 * UNIT };

struct block {
    size_t size;
    size_t is_held;
};

#if APEI_ARENA > 0
static _Alignas(UNIT) unsigned char array[APEI_ARENA];
#endif
static unsigned char nowhere[UNIT];
static unsigned char *arena; /* null until there is one */
static size_t length;        /* its bytes, a multiple of UNIT */
static size_t held;          /* how many blocks are held */
static size_t taken, most;   /* bytes of the blocks that are held, and the most that there were */

static struct block *block_at(size_t offset)
{
    return (struct block *)(void *)(arena + offset);
}

static void begin(unsigned char *memory, size_t size)
{
    size_t skipped = (UNIT - (uintptr_t)memory % UNIT) % UNIT;
    arena = memory + skipped;
    length = (size - skipped) / UNIT * UNIT;
    taken = most = 0;
    block_at(0)->size = length;
    block_at(0)->is_held = false;
}

static bool is_there(void)
{
#if APEI_ARENA > 0
    if (arena == NULL)
        begin(array, sizeof array);
#endif
    return arena != NULL;
}

enum apei_status apei_arena(void *memory, size_t size)
{
    if (memory == NULL)
        return APEI_POINTER;
    if (size < LEAST)
        return APEI_SHORT;
    if (held > 0)
        return APEI_OPEN;
    begin(memory, size);
    return APEI_OK;
}

size_t apei_arena_most(void)
{
    return most;
}

/* Makes one block of a free one and the free ones after it. */
static void join(size_t offset)
{
    struct block *block = block_at(offset);
    while (offset + block->size < length && !block_at(offset + block->size)->is_held)
        block->size += block_at(offset + block->size)->size;
}

/* Holds a block that has room enough, and leaves the rest of it free. */
static void hold(size_t offset, size_t size)
{
    struct block *block = block_at(offset);
    if (block->size - size >= UNIT) {
        block_at(offset + size)->size = block->size - size;
        block_at(offset + size)->is_held = false;
        block->size = size;
    }
    block->is_held = true;
    held++;
    taken += block->size;
    if (taken > most)
        most = taken;
}

static void let_go(struct block *block)
{
    block->is_held = false;
    held--;
    taken -= block->size;
}

static struct block *block_of(void *at)
{
    return (struct block *)(void *)((unsigned char *)at - UNIT);
}

/* The size of a block for so many bytes; 0 where no arena is that long. */
static size_t size_for(size_t size)
{
    return size < length ? UNIT + (size + UNIT - 1) / UNIT * UNIT : 0;
}

struct answer rattle_alloc(size_t size, size_t alignment)
{
    struct answer none = {false, nowhere};
    size_t wanted, offset;
    if (!is_there() || alignment > UNIT || size_for(size) == 0)
        return none;
    wanted = size_for(size);
    for (offset = 0; offset < length; offset += block_at(offset)->size) {
        if (block_at(offset)->is_held)
            continue;
        join(offset);
        if (block_at(offset)->size >= wanted) {
            struct answer found = {true, arena + offset + UNIT};
            hold(offset, wanted);
            return found;
        }
    }
    return none;
}

struct answer rattle_realloc(void *old, size_t kept, size_t size, size_t alignment)
{
    unsigned char *from = old;
    struct answer found;
    size_t i;
    if (size_for(size) != 0 && block_of(old)->size >= size_for(size)) {
        found.is_there = true;
        found.at = old;
        return found;
    }
    found = rattle_alloc(size, alignment);
    if (!found.is_there)
        return found;
    for (i = 0; i < kept && i < size; i++)
        ((unsigned char *)found.at)[i] = from[i];
    let_go(block_of(old));
    return found;
}

void rattle_dealloc(void *old)
{
    let_go(block_of(old));
}
