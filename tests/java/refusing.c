/* Memory for the Java library of which one allocation is refused; Refusals.java says which. The
 * other files are compiled with malloc, calloc and realloc named as here. */
#include <jni.h>
#include <stdatomic.h>
#include <stdlib.h>

void *refusing_malloc(size_t size);
void *refusing_calloc(size_t count, size_t size);
void *refusing_realloc(void *at, size_t size);

static atomic_long left; /* allocations until the one that is refused; none is at 0 */
static atomic_long refused;

static int is_refused(void)
{
    if (atomic_load(&left) <= 0 || atomic_fetch_sub(&left, 1) != 1)
        return 0;
    atomic_fetch_add(&refused, 1);
    return 1;
}

void *refusing_malloc(size_t size)
{
    return is_refused() ? NULL : malloc(size);
}

void *refusing_calloc(size_t count, size_t size)
{
    return is_refused() ? NULL : calloc(count, size);
}

void *refusing_realloc(void *at, size_t size)
{
    return is_refused() ? NULL : realloc(at, size);
}

JNIEXPORT void JNICALL Java_Refusals_refuse(JNIEnv *env, jclass type, jlong which)
{
    (void)env;
    (void)type;
    atomic_store(&left, which);
}

/* How many were refused, which is then counted anew. */
JNIEXPORT jlong JNICALL Java_Refusals_refused(JNIEnv *env, jclass type)
{
    (void)env;
    (void)type;
    return atomic_exchange(&refused, 0);
}
