#include "heap.h"

#include <limits.h>
#include <stdbool.h>
#include <stddef.h>
#include <stdlib.h>

enum { LISTED = 64, ALIGNMENT = 16 };

struct answer {
    bool is_there;
    void *at;
};

struct answer rattle_alloc(size_t size, size_t alignment);
struct answer rattle_realloc(void *old, size_t kept, size_t size, size_t alignment);
void rattle_dealloc(void *old);

struct heap heap = {.answered = UINT_MAX};

static void *list[LISTED];

/* Where a block is listed; that of NULL is a free place. */
static void **place_of(const void *block)
{
    for (int at = 0; at < LISTED; at++)
        if (list[at] == block)
            return &list[at];
    return NULL;
}

static struct answer answer_to(void *old, size_t size, size_t alignment)
{
    static unsigned char nowhere[ALIGNMENT];
    struct answer answer = {false, nowhere};
    void **place = place_of(old), *block;
    heap.requests++;
    heap.bytes += size;
    heap.strange += place == NULL;
    if (place == NULL || heap.answered == 0 || alignment > ALIGNMENT)
        return answer;
    if (heap.answered != UINT_MAX)
        heap.answered--;
    block = realloc(old, size != 0 ? size : 1);
    if (block == NULL)
        return answer;
    heap.held += old == NULL;
    *place = block;
    answer.is_there = true;
    answer.at = block;
    return answer;
}

struct answer rattle_alloc(size_t size, size_t alignment)
{
    return answer_to(NULL, size, alignment);
}

struct answer rattle_realloc(void *old, size_t kept, size_t size, size_t alignment)
{
    (void)kept;
    return answer_to(old, size, alignment);
}

void rattle_dealloc(void *old)
{
    void **place = old != NULL ? place_of(old) : NULL;
    heap.strange += place == NULL;
    if (place == NULL)
        return;
    *place = NULL;
    heap.held--;
    free(old);
}
