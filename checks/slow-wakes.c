/* For LD_PRELOAD: makes wide what lies between a look and the sleep after it, and between a wake and what its caller does next. A thread
 * is late to sleep, and who wakes it is later to go on. So a wake that comes before what it tells of is told, or that is not counted for
 * who is on the way to sleep, is missed. SLOW_TOLD is a file descriptor to which a letter is written at the first sleep, and another
 * at the first wake: so it is seen that both come through here. */
#define _GNU_SOURCE
#include <dlfcn.h>
#include <stdarg.h>
#include <stdatomic.h>
#include <stdlib.h>
#include <sys/syscall.h>
#include <unistd.h>

enum { WAIT = 0, WAKE = 1, COMMAND = 127 };      /* FUTEX_WAIT, FUTEX_WAKE, and what is below FUTEX_PRIVATE_FLAG, of linux/futex.h */
enum { BEFORE_WAIT = 100, AFTER_WAKE = 400 };    /* microseconds */

static int told = -1;
static atomic_int is_told[2];

__attribute__((constructor)) static void start(void)
{
    const char *descriptor = getenv("SLOW_TOLD");
    told = descriptor ? atoi(descriptor) : -1;
}

static void tell(long does)
{
    if (!atomic_exchange(&is_told[does], 1) && write(told, does == WAIT ? "s" : "w", 1) != 1)
        abort();
}

long syscall(long number, ...)
{
    long (*next)(long, ...) = (long (*)(long, ...))dlsym(RTLD_NEXT, "syscall");
    long given[6];
    va_list rest;
    va_start(rest, number);
    for (int place = 0; place < 6; place++)
        given[place] = va_arg(rest, long);
    va_end(rest);
    long does = number == SYS_futex ? given[1] & COMMAND : -1;
    if (does == WAIT || does == WAKE)
        tell(does);
    if (does == WAIT)
        usleep(BEFORE_WAIT);
    long result = next(number, given[0], given[1], given[2], given[3], given[4], given[5]);
    if (does == WAKE)
        usleep(AFTER_WAKE);
    return result;
}
