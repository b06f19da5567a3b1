// Refuses allocations, to see what a program does then, and counts what it leaves. Preloaded, it stands before the C
// library's malloc, calloc, realloc and free, and before pthread_create and pthread_join. What it is to do stands in the
// environment:
//
//   REFUSED_AT, REFUSED_TO   the first and the last request to refuse, counted from 1 over all threads
//   REFUSED_EVERY            N, to refuse every Nth request of each thread that the program starts
//   REFUSED_COUNTS           a file of four words, which become the count of all requests, of those refused, of the blocks
//                            that are out, and of the threads that are started and not joined. It is mapped, so they are
//                            there after a program that leaves by _exit. Without it none is refused.
#define _GNU_SOURCE
#include <dlfcn.h>
#include <errno.h>
#include <fcntl.h>
#include <pthread.h>
#include <stdatomic.h>
#include <stdlib.h>
#include <sys/mman.h>
#include <unistd.h>

enum { NOT_MAPPED = 99 }; // the status where the file can't be mapped

void *__libc_malloc(size_t);
void *__libc_calloc(size_t, size_t);
void *__libc_realloc(void *, size_t);
void __libc_free(void *);

struct counts {
    atomic_ulong asked, refused;
    atomic_long blocks, threads;
};

static struct counts *counts; // none before the program begins
static unsigned long first, last, every;
// (a thread has these from its start, so to count needs no memory)
static _Thread_local unsigned long asked_here __attribute__((tls_model("initial-exec")));
static _Thread_local int is_first __attribute__((tls_model("initial-exec")));
// (it keeps blocks for threads that are gone, so what it takes and gives back there is its own)
static _Thread_local int is_in_library __attribute__((tls_model("initial-exec")));
static int (*create)(pthread_t *, const pthread_attr_t *, void *(*)(void *), void *);
static int (*join)(pthread_t, void **);

static unsigned long number(const char *name)
{
    const char *text = getenv(name);
    return text ? strtoul(text, NULL, 10) : 0;
}

__attribute__((constructor)) static void begin(void)
{
    *(void **)&create = dlsym(RTLD_NEXT, "pthread_create");
    *(void **)&join = dlsym(RTLD_NEXT, "pthread_join");
    const char *path = getenv("REFUSED_COUNTS");
    if (!path)
        return;
    first = number("REFUSED_AT");
    last = number("REFUSED_TO");
    every = number("REFUSED_EVERY");
    int file = open(path, O_RDWR | O_CLOEXEC);
    void *mapped = mmap(NULL, sizeof *counts, PROT_READ | PROT_WRITE, MAP_SHARED, file, 0);
    if (mapped == MAP_FAILED)
        _exit(NOT_MAPPED);
    close(file);
    is_first = 1;
    counts = mapped;
}

static int is_refused(void)
{
    if (!counts)
        return 0;
    unsigned long asked = atomic_fetch_add(&counts->asked, 1) + 1;
    int is_nth = every && !is_first && ++asked_here % every == 0;
    if ((asked < first || last < asked) && !is_nth)
        return 0;
    atomic_fetch_add(&counts->refused, 1);
    errno = ENOMEM; // as the C library does, which asks for it where it starts a thread
    return 1;
}

static void *counted(void *block)
{
    if (block && counts && !is_in_library)
        atomic_fetch_add(&counts->blocks, 1);
    return block;
}

void *malloc(size_t size)
{
    return is_refused() ? NULL : counted(__libc_malloc(size));
}

void *calloc(size_t many, size_t size)
{
    return is_refused() ? NULL : counted(__libc_calloc(many, size));
}

void *realloc(void *block, size_t size)
{
    if (is_refused())
        return NULL;
    return block ? __libc_realloc(block, size) : counted(__libc_malloc(size));
}

void free(void *block)
{
    if (block && counts && !is_in_library)
        atomic_fetch_sub(&counts->blocks, 1);
    __libc_free(block);
}

int pthread_create(pthread_t *thread, const pthread_attr_t *how, void *(*start)(void *), void *given)
{
    is_in_library = 1;
    int refusal = create(thread, how, start, given);
    is_in_library = 0;
    if (counts && !refusal)
        atomic_fetch_add(&counts->threads, 1);
    return refusal;
}

int pthread_join(pthread_t thread, void **result)
{
    is_in_library = 1;
    int refusal = join(thread, result);
    is_in_library = 0;
    if (counts && !refusal)
        atomic_fetch_sub(&counts->threads, 1);
    return refusal;
}
