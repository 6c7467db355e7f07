/* Refuses what a program asks of the system, one call at a time. Loaded before the program (LD_PRELOAD) by
   yard/hostile.py and yard/runs.py; the variables of the environment say which call:
   REFUSE_MEMORY=N, REFUSE_THREAD=N, REFUSE_READ=N, REFUSE_WRITE=N: call N (from 0 on) is refused; N and all
   behind it where the value ends with +. PIECE=N: reads and writes do at most N bytes.
   ROOM=N: writes take N bytes in all, each as many as there is room for; one that finds no room is refused.
   HOLD=N: the second look at the clock lasts N thousandths of a second, and then ten seconds have passed. With
   ANDORRA_PROGRESS=1 that is the look of the first reduction, which tells then how many reductions there were.
   REFUSE_COUNTS=FILE: the file holds how often each of the four was called (four numbers of 64 bits). */
#define _GNU_SOURCE
#include <dlfcn.h>
#include <errno.h>
#include <fcntl.h>
#include <pthread.h>
#include <stdatomic.h>
#include <stdlib.h>
#include <string.h>
#include <sys/mman.h>
#include <time.h>
#include <unistd.h>

enum { MEMORY, THREAD, READ, WRITE, KINDS };
static const char *const names[KINDS] = {"REFUSE_MEMORY", "REFUSE_THREAD", "REFUSE_READ", "REFUSE_WRITE"};
static atomic_long own[KINDS];
static atomic_long *counts = own;
static long refused[KINDS];
static int and_more[KINDS];
static size_t piece;
static atomic_long room;
static int is_bounded;
static long hold;
static atomic_long looks;
static int ready;
static void *(*real_malloc)(size_t);
static void *(*real_realloc)(void *, size_t);
static void *(*real_aligned)(size_t, size_t);
static int (*real_posix)(void **, size_t, size_t);
static int (*real_thread)(pthread_t *, const pthread_attr_t *, void *(*)(void *), void *);
static ssize_t (*real_read)(int, void *, size_t);
static ssize_t (*real_write)(int, const void *, size_t);
static int (*real_clock)(clockid_t, struct timespec *);

static void begin(void)
{
    if (ready)
        return;
    ready = 1;
    for (int kind = 0; kind < KINDS; kind++) {
        const char *told = getenv(names[kind]);
        refused[kind] = told ? atol(told) : -1;
        and_more[kind] = told && strchr(told, '+') != NULL;
    }
    const char *told = getenv("PIECE");
    piece = told ? (size_t)atol(told) : 0;
    told = getenv("ROOM");
    is_bounded = told != NULL;
    room = told ? atol(told) : 0;
    told = getenv("HOLD");
    hold = told ? atol(told) : 0;
    const char *file = getenv("REFUSE_COUNTS");
    if (file) {
        int open_file = open(file, O_RDWR | O_CREAT, 0600);
        if (open_file >= 0 && ftruncate(open_file, 4096) == 0)
            counts = mmap(0, 4096, PROT_READ | PROT_WRITE, MAP_SHARED, open_file, 0);
    }
    real_malloc = dlsym(RTLD_NEXT, "malloc");
    real_realloc = dlsym(RTLD_NEXT, "realloc");
    real_aligned = dlsym(RTLD_NEXT, "aligned_alloc");
    real_posix = dlsym(RTLD_NEXT, "posix_memalign");
    real_thread = dlsym(RTLD_NEXT, "pthread_create");
    real_read = dlsym(RTLD_NEXT, "read");
    real_write = dlsym(RTLD_NEXT, "write");
    real_clock = dlsym(RTLD_NEXT, "clock_gettime");
}

static int refuse(int kind)
{
    begin();
    long number = atomic_fetch_add(&counts[kind], 1);
    return refused[kind] >= 0 && (number == refused[kind] || (and_more[kind] && number > refused[kind]));
}

void *malloc(size_t size)
{
    return refuse(MEMORY) ? NULL : real_malloc(size);
}

void *realloc(void *old, size_t size)
{
    return refuse(MEMORY) ? NULL : real_realloc(old, size);
}

void *aligned_alloc(size_t align, size_t size)
{
    return refuse(MEMORY) ? NULL : real_aligned(align, size);
}

int posix_memalign(void **out, size_t align, size_t size)
{
    return refuse(MEMORY) ? ENOMEM : real_posix(out, align, size);
}

int pthread_create(pthread_t *thread, const pthread_attr_t *attributes, void *(*start)(void *), void *with)
{
    return refuse(THREAD) ? EAGAIN : real_thread(thread, attributes, start, with);
}

ssize_t read(int file, void *into, size_t size)
{
    begin();
    if (file != 0)
        return real_read(file, into, size);
    if (refuse(READ)) {
        errno = EIO;
        return -1;
    }
    return real_read(file, into, piece && size > piece ? piece : size);
}

/* How many bytes of a write are taken; -1 where there is no room for any. */
static long taken(size_t size)
{
    if (!is_bounded)
        return piece && size > piece ? piece : size;
    long take = size < (size_t)room ? (long)size : room;
    room -= take;
    return take || !size ? take : -1;
}

ssize_t write(int file, const void *from, size_t size)
{
    begin();
    if (file != 1)
        return real_write(file, from, size);
    long take = refuse(WRITE) ? -1 : taken(size);
    if (take < 0) {
        errno = EIO;
        return -1;
    }
    return real_write(file, from, take);
}

int clock_gettime(clockid_t clock, struct timespec *now)
{
    begin();
    long number = hold ? atomic_fetch_add(&looks, 1) : 0;
    if (number == 1)
        usleep(hold * 1000);
    int status = real_clock(clock, now);
    if (number)
        now->tv_sec += 10;
    return status;
}
