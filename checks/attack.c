/* Attacks a run of the program, for program_edges.py: before it opens what has a path that ends with NAME (the opening
 * number OPENING of it, counted from 1), or before it first reads from what was opened so (where READING is set), the
 * command ATTACK is run by a shell. */
#define _GNU_SOURCE
#include <dlfcn.h>
#include <fcntl.h>
#include <stdarg.h>
#include <stdlib.h>
#include <string.h>
#include <unistd.h>

static int watched = -1;

static void attack(void)
{
    char *command = getenv("ATTACK");
    unsetenv("LD_PRELOAD");
    unsetenv("ATTACK");
    if (command && system(command)) {
        _exit(99);
    }
}

static int ends_with_name(const char *path)
{
    const char *name = getenv("NAME");
    size_t long_one = strlen(path), short_one = name ? strlen(name) : 0;
    return name && short_one <= long_one && !strcmp(path + long_one - short_one, name);
}

/* Opens what `path` reaches from `folder`. */
static int opened(int folder, const char *path, int flags, mode_t mode)
{
    static int (*plain)(int, const char *, int, ...);
    static long openings;
    if (!plain) {
        plain = dlsym(RTLD_NEXT, "openat");
    }
    int is_watched = ends_with_name(path) && ++openings == atol(getenv("OPENING"));
    if (is_watched && !getenv("READING")) {
        attack();
    }
    int device = plain(folder, path, flags, mode);
    if (is_watched && getenv("READING")) {
        watched = device;
    }
    return device;
}

#define OPENS(flags, mode) \
    mode_t mode = 0; \
    if (flags & O_CREAT) { \
        va_list more; \
        va_start(more, flags); \
        mode = va_arg(more, mode_t); \
        va_end(more); \
    }

int open(const char *path, int flags, ...)
{
    OPENS(flags, mode)
    return opened(AT_FDCWD, path, flags, mode);
}

int openat(int folder, const char *path, int flags, ...)
{
    OPENS(flags, mode)
    return opened(folder, path, flags, mode);
}

ssize_t read(int device, void *room, size_t count)
{
    static ssize_t (*plain)(int, void *, size_t);
    if (!plain) {
        plain = dlsym(RTLD_NEXT, "read");
    }
    if (device >= 0 && device == watched) {
        watched = -1;
        attack();
    }
    return plain(device, room, count);
}
