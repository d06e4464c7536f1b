/* Makes devices poor, for devices.py: at most READ_MOST bytes come by a read, and at most WRITE_MOST go by a write;
 * read number READ_FAILS fails, or write number WRITE_FAILS, counted from 1, with the error ERROR; thread number
 * THREAD_FAILS can't be started. A byte is written to the file descriptor FAILED where one was. Standard error is left
 * alone. The program may use PROCESSORS processors, however many the machine has, and no group of processes has a limit
 * of them. What isn't set is as ever. */
#define _GNU_SOURCE
#include <dlfcn.h>
#include <errno.h>
#include <fcntl.h>
#include <pthread.h>
#include <sched.h>
#include <stdarg.h>
#include <stdatomic.h>
#include <stdlib.h>
#include <string.h>
#include <unistd.h>

static long set(const char *name)
{
    const char *text = getenv(name);
    return text ? atol(text) : 0;
}

static ssize_t (*plain_write)(int, const void *, size_t);

/* Whether this call is the one that fails. */
static int fails(atomic_long *calls, const char *name)
{
    if (atomic_fetch_add(calls, 1) + 1 != set(name)) {
        return 0;
    }
    if (set("FAILED")) {
        plain_write((int)set("FAILED"), "x", 1);
    }
    errno = (int)set("ERROR");
    return 1;
}

static size_t at_most(size_t count, const char *name)
{
    size_t most = (size_t)set(name);
    return most && most < count ? most : count;
}

ssize_t write(int device, const void *bytes, size_t count)
{
    static atomic_long calls;
    if (!plain_write) {
        plain_write = dlsym(RTLD_NEXT, "write");
    }
    if (device == STDERR_FILENO) {
        return plain_write(device, bytes, count);
    }
    return fails(&calls, "WRITE_FAILS") ? -1 : plain_write(device, bytes, at_most(count, "WRITE_MOST"));
}

ssize_t read(int device, void *room, size_t count)
{
    static atomic_long calls;
    static ssize_t (*plain_read)(int, void *, size_t);
    if (!plain_read) {
        plain_read = dlsym(RTLD_NEXT, "read");
    }
    if (!plain_write) {
        plain_write = dlsym(RTLD_NEXT, "write");
    }
    return fails(&calls, "READ_FAILS") ? -1 : plain_read(device, room, at_most(count, "READ_MOST"));
}

int pthread_create(pthread_t *thread, const pthread_attr_t *how, void *(*start)(void *), void *given)
{
    static atomic_long calls;
    static int (*plain_create)(pthread_t *, const pthread_attr_t *, void *(*)(void *), void *);
    if (!plain_create) {
        plain_create = dlsym(RTLD_NEXT, "pthread_create");
    }
    if (!plain_write) {
        plain_write = dlsym(RTLD_NEXT, "write");
    }
    return fails(&calls, "THREAD_FAILS") ? EAGAIN : plain_create(thread, how, start, given);
}

int sched_getaffinity(pid_t process, size_t size, cpu_set_t *processors)
{
    static int (*plain_affinity)(pid_t, size_t, cpu_set_t *);
    long count = set("PROCESSORS");
    if (!count) {
        if (!plain_affinity) {
            plain_affinity = dlsym(RTLD_NEXT, "sched_getaffinity");
        }
        return plain_affinity(process, size, processors);
    }
    CPU_ZERO_S(size, processors);
    for (long number = 0; number < count; number++) {
        CPU_SET_S((size_t)number, size, processors);
    }
    return 0;
}

int open(const char *path, int flags, ...)
{
    static int (*plain_open)(const char *, int, ...);
    va_list more;
    va_start(more, flags);
    mode_t mode = flags & O_CREAT ? va_arg(more, mode_t) : 0;
    va_end(more);
    if (set("PROCESSORS") && strcmp(path, "/sys/fs/cgroup/cpu.max") == 0) {
        errno = ENOENT;
        return -1;
    }
    if (!plain_open) {
        plain_open = dlsym(RTLD_NEXT, "open");
    }
    return plain_open(path, flags, mode);
}
