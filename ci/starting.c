/* Tells of each thread that the program which loads this first has started, by a byte that it writes to the file descriptor 9. */
#define _GNU_SOURCE
#include <dlfcn.h>
#include <pthread.h>
#include <stdlib.h>
#include <unistd.h>

typedef int starts(pthread_t *, const pthread_attr_t *, void *(*)(void *), void *);

enum { TOLD_AT = 9 };

int pthread_create(pthread_t *thread, const pthread_attr_t *attributes, void *(*begin)(void *), void *given) {
    starts *start = (starts *)dlsym(RTLD_NEXT, "pthread_create");
    if (!start)
        abort();
    int refused = start(thread, attributes, begin, given);
    if (!refused && write(TOLD_AT, "", 1) != 1)
        abort();
    return refused;
}
