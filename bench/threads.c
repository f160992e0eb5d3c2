// Put before a program by LD_PRELOAD, it writes a byte to the descriptor STARTED for each thread that the program starts.
#define _GNU_SOURCE
#include <dlfcn.h>
#include <pthread.h>
#include <stdlib.h>
#include <unistd.h>

typedef int create(pthread_t *, const pthread_attr_t *, void *(*)(void *), void *);

static create *real;
static int report;

__attribute__((constructor)) static void begin(void)
{
    const char *descriptor = getenv("STARTED");
    real = (create *)dlsym(RTLD_NEXT, "pthread_create");
    report = descriptor ? atoi(descriptor) : -1;
}

int pthread_create(pthread_t *thread, const pthread_attr_t *how, void *(*work)(void *), void *with)
{
    int refused = real(thread, how, work, with);
    if (!refused && write(report, "t", 1) != 1)
        abort();
    return refused;
}
