/* Loaded in front of the C library, it refuses the request for memory whose number REFUSE_AT gives, counted from 1 over
   all threads, and those after it up to so many as REFUSE_TIMES says, where that is set. For each it writes a byte to
   the file descriptor REFUSED. How many there were so far stands in the file COUNTED, where that is set, as a number in
   the machine's own form. */
#include <errno.h>
#include <fcntl.h>
#include <stdatomic.h>
#include <stddef.h>
#include <stdlib.h>
#include <sys/mman.h>
#include <unistd.h>

extern void *__libc_malloc(size_t size);
extern void *__libc_calloc(size_t count, size_t size);
extern void *__libc_realloc(void *old, size_t size);

static atomic_long own_count;
static atomic_long *requests = &own_count;

__attribute__((constructor)) static void share_count(void)
{
    const char *path = getenv("COUNTED");
    int file = path == NULL ? -1 : open(path, O_RDWR);
    if (file >= 0) {
        void *shared = mmap(NULL, sizeof own_count, PROT_READ | PROT_WRITE, MAP_SHARED, file, 0);
        if (shared != MAP_FAILED) {
            requests = shared;
        }
        close(file);
    }
}

static int is_refused(void)
{
    const char *at = getenv("REFUSE_AT");
    const char *times = getenv("REFUSE_TIMES");
    const char *refused = getenv("REFUSED");
    long number = atomic_fetch_add(requests, 1) + 1;
    if (at == NULL || refused == NULL || number < atol(at) || number >= atol(at) + (times ? atol(times) : 1)) {
        return 0;
    }
    (void)!write(atoi(refused), "x", 1);
    errno = ENOMEM;
    return 1;
}

void *malloc(size_t size)
{
    return is_refused() ? NULL : __libc_malloc(size);
}

void *calloc(size_t count, size_t size)
{
    return is_refused() ? NULL : __libc_calloc(count, size);
}

void *realloc(void *old, size_t size)
{
    return is_refused() ? NULL : __libc_realloc(old, size);
}
