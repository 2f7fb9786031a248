/* Where the archive takes its memory: malloc, realloc and free. */
#include <stdbool.h>
#include <stddef.h>
#include <stdlib.h>

/* What a call for memory answers: whether there was any, and where it stands. The place is never null. */
struct answer {
    bool is_there;
    void *at;
};

struct answer rattle_alloc(size_t size, size_t alignment);
struct answer rattle_realloc(void *old, size_t kept, size_t size, size_t alignment);
void rattle_dealloc(void *old);

static unsigned char nowhere[16];

static struct answer answer_of(void *at)
{
    struct answer answer = {at != NULL, at != NULL ? at : nowhere};
    return answer;
}

/* The archive asks for no alignment above that of malloc. */
struct answer rattle_alloc(size_t size, size_t alignment)
{
    if (alignment > sizeof nowhere)
        return answer_of(NULL);
    return answer_of(malloc(size != 0 ? size : 1));
}

struct answer rattle_realloc(void *old, size_t kept, size_t size, size_t alignment)
{
    (void)kept;
    if (alignment > sizeof nowhere)
        return answer_of(NULL);
    return answer_of(realloc(old, size != 0 ? size : 1));
}

void rattle_dealloc(void *old)
{
    free(old);
}
