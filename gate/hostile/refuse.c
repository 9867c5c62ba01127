/* Loaded before the C library, it refuses one call of a program: an allocation, the start of a thread, or a write to standard output.
     REFUSE=T:N        the Nth allocation of thread T: 0 is the caller, then those that it started, in order, from 1
     REFUSE_START=N    the Nth start of a thread
     REFUSE_WRITE=N    the Nth write to standard output; with EMPTY it takes no byte and doesn't fail
     NARROW=1          each write to standard output takes one byte
   With TALLY=FILE it writes at the end: the blocks that are left, the starts, the writes, the caller's allocations behind the last start,
   and the allocations of each thread. */
#define _GNU_SOURCE
#include <dlfcn.h>
#include <errno.h>
#include <fcntl.h>
#include <pthread.h>
#include <stdatomic.h>
#include <stdint.h>
#include <stdio.h>
#include <stdlib.h>
#include <sys/syscall.h>
#include <unistd.h>

enum { THREADS = 64, SLOTS = 1 << 16 };

#define NEXT(name) ((__typeof__(&name))dlsym(RTLD_NEXT, #name))

static __thread int me __attribute__((tls_model("initial-exec")));
static long allocations[THREADS], starts, writes, at_last_start;
static long refused_thread = -1, refused_allocation, refused_start, refused_write;
static int narrow, empty;

/* The blocks that the program holds. What the C library takes for itself isn't asked for by malloc and isn't among them. */
static _Atomic(void *) blocks[SLOTS];
static atomic_long held;

static void keep(void *block) {
    if (block == NULL)
        return;
    for (size_t at = ((uintptr_t)block >> 4) % SLOTS;; at = (at + 1) % SLOTS) {
        void *nothing = NULL;
        if (atomic_compare_exchange_strong(&blocks[at], &nothing, block))
            break;
    }
    ++held;
}

static void give_back(void *block) {
    for (size_t k = 0, at = ((uintptr_t)block >> 4) % SLOTS; block != NULL && k < SLOTS; ++k, at = (at + 1) % SLOTS) {
        void *it = block;
        if (atomic_compare_exchange_strong(&blocks[at], &it, NULL)) {
            --held;
            return;
        }
    }
}

static long number(const char *name) {
    const char *word = getenv(name);
    return word == NULL ? 0 : atol(word);
}

__attribute__((constructor)) static void begin(void) {
    const char *word = getenv("REFUSE");
    if (word != NULL && sscanf(word, "%ld:%ld", &refused_thread, &refused_allocation) != 2)
        abort();
    refused_start = number("REFUSE_START");
    refused_write = number("REFUSE_WRITE");
    narrow = getenv("NARROW") != NULL;
    empty = getenv("EMPTY") != NULL;
}

__attribute__((destructor)) static void tell(void) {
    const char *name = getenv("TALLY");
    int file = name == NULL ? -1 : open(name, O_CREAT | O_TRUNC | O_WRONLY, 0600);
    if (file < 0)
        return;
    dprintf(file, "%ld %ld %ld %ld", (long)held, starts, writes, allocations[0] - at_last_start);
    for (int thread = 0; thread <= starts && thread < THREADS; ++thread)
        dprintf(file, " %ld", allocations[thread]);
    dprintf(file, "\n");
    close(file);
}

/* where the program leaves by itself, and no destructor is called */
void _exit(int status) {
    tell();
    syscall(SYS_exit_group, status);
    __builtin_unreachable();
}

static int is_refused(void) {
    return ++allocations[me] == refused_allocation && me == refused_thread;
}

void *malloc(size_t size) {
    static __typeof__(&malloc) next;
    if (next == NULL)
        next = NEXT(malloc);
    void *block = is_refused() ? NULL : next(size);
    keep(block);
    return block;
}

void *realloc(void *block, size_t size) {
    static __typeof__(&realloc) next;
    if (next == NULL)
        next = NEXT(realloc);
    if (is_refused())
        return NULL;
    /* before, since another thread may be given the place as soon as it is free */
    give_back(block);
    void *other = next(block, size);
    keep(other == NULL ? block : other);
    return other;
}

void free(void *block) {
    static __typeof__(&free) next;
    if (next == NULL)
        next = NEXT(free);
    give_back(block);
    next(block);
}

struct job {
    void *(*run)(void *);
    void *with;
};

static struct job jobs[THREADS];

static void *play(void *number) {
    me = (int)(intptr_t)number;
    return jobs[me].run(jobs[me].with);
}

int pthread_create(pthread_t *thread, const pthread_attr_t *how, void *(*run)(void *), void *with) {
    at_last_start = allocations[0];
    if (++starts == refused_start)
        return EAGAIN;
    if (starts >= THREADS)
        abort();
    jobs[starts] = (struct job){run, with};
    return NEXT(pthread_create)(thread, how, play, (void *)(intptr_t)starts);
}

ssize_t write(int file, const void *bytes, size_t count) {
    if (file != STDOUT_FILENO)
        return NEXT(write)(file, bytes, count);
    if (++writes == refused_write) {
        errno = EIO;
        return empty ? 0 : -1;
    }
    return NEXT(write)(file, bytes, narrow && count > 1 ? 1 : count);
}
