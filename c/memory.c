/* The memory of the proved core, from malloc. What these calls are is fixed by the Rattle kit. */
#include <stdint.h>
#include <stdlib.h>

/* `at` is never NULL. */
typedef struct {
    uintptr_t ok;
    void *at;
} memory;

static char nothing;

static memory memory_of(void *at)
{
    return (memory){at != NULL, at != NULL ? at : &nothing};
}

/* Nothing that is asked for needs a larger alignment than malloc's. */
memory rattle_alloc(size_t size, size_t align);
memory rattle_realloc(void *at, size_t old_size, size_t size, size_t align);
void rattle_dealloc(void *at, size_t size, size_t align);

memory rattle_alloc(size_t size, size_t align)
{
    return memory_of(malloc(size > 0 ? size : align));
}

memory rattle_realloc(void *at, size_t old_size, size_t size, size_t align)
{
    (void)old_size;
    return memory_of(realloc(at, size > 0 ? size : align));
}

void rattle_dealloc(void *at, size_t size, size_t align)
{
    (void)size;
    (void)align;
    free(at);
}
