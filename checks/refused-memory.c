/* For LD_PRELOAD: refuses the memory that is asked for at one place, the first being 1, counted from the start over all threads.
 * REFUSED_PLACE is the place, 0 for none, and REFUSED_TOLD a file descriptor to which a byte is written once it is reached. */
#include <errno.h>
#include <stdatomic.h>
#include <stdlib.h>
#include <unistd.h>

extern void *__libc_malloc(size_t size);
extern void *__libc_realloc(void *held, size_t size);

static atomic_long left;
static int told = -1;

__attribute__((constructor)) static void start(void)
{
    const char *place = getenv("REFUSED_PLACE"), *descriptor = getenv("REFUSED_TOLD");
    told = descriptor ? atoi(descriptor) : -1;
    atomic_store(&left, place ? atol(place) : 0);
}

static int is_refused(void)
{
    if (atomic_fetch_sub(&left, 1) != 1)
        return 0;
    if (write(told, "", 1) != 1)
        abort();
    errno = ENOMEM;
    return 1;
}

void *malloc(size_t size)
{
    return is_refused() ? NULL : __libc_malloc(size);
}

void *realloc(void *held, size_t size)
{
    return is_refused() ? NULL : __libc_realloc(held, size);
}
