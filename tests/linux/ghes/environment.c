/* environment.c - the kernel's services that reach neither memory of both sides nor interrupts. */
#include "environment.h"
#include "linux.h"
#include <stdarg.h>
#include <stdlib.h>

enum { HEAP = 1 << 23 };

bool kernel_is_verbose;
static _Alignas(16) u8 heap[HEAP];
static size_t heap_used;
static u64 clock_now, draws;

/* Numbers of the kernel's own, so that a schedule does not depend on how the driver is compiled. */
static u64 draw(u64 below)
{
    draws = draws * 6364136223846793005u + 1442695040888963407u;
    return (draws >> 33) % below;
}

void environment_start(uint64_t number)
{
    heap_used = 0;
    draws = number;
}

void kernel_log(const char *format, ...)
{
    va_list values;

    if (!kernel_is_verbose)
        return;
    va_start(values, format);
    vfprintf(stderr, format, values);
    va_end(values);
}

void kernel_bug(const char *condition)
{
    fprintf(stderr, "BUG: %s\n", condition);
    abort();
}

void *kmalloc(size_t size, int flags)
{
    void *found = heap + heap_used;

    (void)flags;
    heap_used += (size + 15) & ~(size_t)15;
    BUG_ON(heap_used > HEAP);
    return found;
}

void kfree(const void *block)
{
    (void)block;
}

/* A pool is as large as the driver makes it; what it gives is new each time. */
struct gen_pool *gen_pool_create(int order, int node)
{
    (void)order, (void)node;
    return kzalloc(sizeof(struct gen_pool), GFP_KERNEL);
}

unsigned long gen_pool_alloc(struct gen_pool *pool, size_t size)
{
    if (size > pool->left)
        return 0;
    pool->left -= size;
    return (unsigned long)kmalloc(size, GFP_KERNEL);
}

void gen_pool_free(struct gen_pool *pool, unsigned long address, size_t size)
{
    (void)address;
    pool->left += size;
}

void llist_add(struct llist_node *node, struct llist_head *list)
{
    node->next = list->first;
    list->first = node;
}

struct llist_node *llist_del_all(struct llist_head *list)
{
    struct llist_node *first = list->first;

    list->first = NULL;
    return first;
}

struct llist_node *llist_reverse_order(struct llist_node *node)
{
    struct llist_node *turned = NULL;

    while (node) {
        struct llist_node *next = node->next;
        node->next = turned;
        turned = node;
        node = next;
    }
    return turned;
}

/* One block in eight is printed, and some seconds may pass before the next one. */
bool kernel_prints(void)
{
    return draw(8) == 0;
}

unsigned long long sched_clock(void)
{
    return clock_now += draw(4) == 0 ? 11000000000ull : 1000;
}

/* What the prints call. */
int kernel_print(const char *format, ...)
{
    (void)format;
    return 0;
}

void print_hex_dump(const char *level, const char *prefix, int kind, int row, int group, const void *bytes, size_t size, bool letters)
{
    (void)level, (void)prefix, (void)kind, (void)row, (void)group, (void)bytes, (void)size, (void)letters;
}

int scnprintf(char *to, size_t size, const char *format, ...)
{
    va_list values;
    int length;

    va_start(values, format);
    length = vsnprintf(to, size, format, values);
    va_end(values);
    return length < (int)size ? length : size ? (int)size - 1 : 0;
}

ssize_t strscpy(char *to, const char *from, size_t size)
{
    return snprintf(to, size, "%s", from);
}
