/* Loaded before the C library, refuses one request for memory or for the start of a thread: the one
 * whose number REFUSE_ALLOCATION gives, counted from 1. Where REFUSE_LATER is set, to anything but
 * nothing, it refuses all later ones too. When it refuses one it writes into the file that
 * REFUSE_MET names whether it was in the first thread or in another. Number 0 refuses none; in the
 * end the file that REFUSE_COUNTED names has how many requests there were. */
#define _GNU_SOURCE
#include <dlfcn.h>
#include <errno.h>
#include <fcntl.h>
#include <pthread.h>
#include <stddef.h>
#include <stdio.h>
#include <stdlib.h>
#include <string.h>
#include <sys/syscall.h>
#include <unistd.h>

extern void *__libc_malloc(size_t);
extern void *__libc_calloc(size_t, size_t);
extern void *__libc_realloc(void *, size_t);
extern void *__libc_memalign(size_t, size_t);

typedef int start_thread(pthread_t *, const pthread_attr_t *, void *(*)(void *), void *);

static long asked;
static start_thread *start;

__attribute__((constructor)) static void find_start(void) { start = (start_thread *)dlsym(RTLD_NEXT, "pthread_create"); }

static void note(const char *file, const char *where)
{
    int to = open(file, O_WRONLY | O_CREAT | O_TRUNC, 0600);
    if (to < 0 || write(to, where, strlen(where)) < 0)
        abort();
    close(to);
}

static void tell_count(void)
{
    const char *file = getenv("REFUSE_COUNTED");
    char count[32];
    if (file == NULL)
        return;
    snprintf(count, sizeof count, "%ld", asked);
    note(file, count);
}

static int refused(void)
{
    const char *number = getenv("REFUSE_ALLOCATION");
    const char *later = getenv("REFUSE_LATER");
    const char *met = getenv("REFUSE_MET");
    if (number == NULL)
        return 0;
    long first = strtol(number, NULL, 10);
    long now = __sync_add_and_fetch(&asked, 1);
    int all = later != NULL && *later != 0;
    if (first == 0 || now < first || (now > first && !all))
        return 0;
    if (met != NULL)
        note(met, gettid() == getpid() ? "the first thread" : "another thread");
    errno = ENOMEM;
    return 1;
}

void *malloc(size_t size) { return refused() ? NULL : __libc_malloc(size); }
void *calloc(size_t count, size_t size) { return refused() ? NULL : __libc_calloc(count, size); }
void *realloc(void *old, size_t size) { return refused() ? NULL : __libc_realloc(old, size); }
void *memalign(size_t align, size_t size) { return refused() ? NULL : __libc_memalign(align, size); }
void *aligned_alloc(size_t align, size_t size) { return memalign(align, size); }

int posix_memalign(void **to, size_t align, size_t size)
{
    void *made = memalign(align, size);
    if (made == NULL)
        return ENOMEM;
    *to = made;
    return 0;
}

/* The programs end by this. */
void _exit(int status)
{
    tell_count();
    syscall(SYS_exit_group, status);
    __builtin_unreachable();
}

int pthread_create(pthread_t *thread, const pthread_attr_t *how, void *(*run)(void *), void *with)
{
    return refused() ? EAGAIN : start(thread, how, run, with);
}
