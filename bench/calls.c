/* Makes calls of one kind on the file hello.txt of a mounted tree, from several threads at once, and prints the microseconds that a call
 * took, by the clock from the first to the last, over all threads.
 *
 *     calls FOLDER KIND COUNT CALLERS
 *
 * KIND is pread, with O_DIRECT, or statx, of what the filesystem knows now: each call is one request. */
#define _GNU_SOURCE
#include <fcntl.h>
#include <pthread.h>
#include <stdio.h>
#include <stdlib.h>
#include <string.h>
#include <sys/stat.h>
#include <time.h>
#include <unistd.h>

enum { PAGE = 4096, GREETING_SIZE = 13, MOST_CALLERS = 64 };

static char path[PAGE];
static int count;

static void fail(const char *what)
{
    perror(what);
    exit(1);
}

static void *read_again_and_again(void *unused)
{
    void *page;
    int file = open(path, O_RDONLY | O_DIRECT);
    if (file < 0 || posix_memalign(&page, PAGE, PAGE) != 0)
        fail(path);
    for (int call = 0; call < count; call++)
        if (pread(file, page, PAGE, 0) != GREETING_SIZE)
            fail("pread");
    close(file);
    free(page);
    return unused;
}

static void *ask_again_and_again(void *unused)
{
    struct statx told;
    for (int call = 0; call < count; call++)
        if (statx(AT_FDCWD, path, AT_STATX_FORCE_SYNC, STATX_SIZE, &told) != 0 || told.stx_size != GREETING_SIZE)
            fail("statx");
    return unused;
}

static double seconds(void)
{
    struct timespec now;
    clock_gettime(CLOCK_MONOTONIC, &now);
    return now.tv_sec + now.tv_nsec / 1e9;
}

int main(int words, char **word)
{
    int callers = words == 5 ? atoi(word[4]) : 0;
    if (callers < 1 || callers > MOST_CALLERS || (count = atoi(word[3])) < 1)
        return 2;
    snprintf(path, sizeof path, "%s/hello.txt", word[1]);
    void *(*calls)(void *) = strcmp(word[2], "statx") == 0 ? ask_again_and_again : read_again_and_again;
    pthread_t caller[MOST_CALLERS];
    double start = seconds();
    for (int place = 0; place < callers; place++)
        if (pthread_create(&caller[place], NULL, calls, NULL) != 0)
            fail("a thread");
    for (int place = 0; place < callers; place++)
        pthread_join(caller[place], NULL);
    printf("%.3f\n", (seconds() - start) * 1e6 / count / callers);
    return 0;
}
