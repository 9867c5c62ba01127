/* Loaded before the C library, it gives each allocation pages of its own, which end where the block ends, and behind them one that can't be
   touched; and what is given back can't be touched any more and is not given out again. So a program that reads or writes behind a block,
   or touches one that it gave back, dies of it. What nobody wrote in a block yet is FRESH, and not zero; the bytes that alignment leaves
   behind a block are SLACK, which is looked at when the block is given back. */
#define _GNU_SOURCE
#include <errno.h>
#include <stddef.h>
#include <stdint.h>
#include <string.h>
#include <sys/mman.h>
#include <unistd.h>

enum { PAGE = 4096, LEAST = 16, SLACK = 0xA5, FRESH = 0xDB };

static const uint64_t MARK = 0x2e3a91c47d5f6b08;

/* What stands in front of a block. */
struct head {
    char *pages;
    size_t whole;
    size_t size;
    uint64_t mark;
};

static _Noreturn void die(const char *why) {
    ssize_t written = write(2, why, strlen(why));
    (void)written;
    _exit(77);
}

static struct head *head_of(void *block) {
    struct head *head = (struct head *)((char *)block - sizeof(struct head));
    if (head->mark != MARK)
        die("guard: what is given back is no block, or the bytes before it were written\n");
    return head;
}

static void *allocate(size_t alignment, size_t size, int byte) {
    if (alignment < LEAST)
        alignment = LEAST;
    if (size > PTRDIFF_MAX - alignment - 3 * PAGE)
        return errno = ENOMEM, NULL;
    size_t whole = (size + alignment + sizeof(struct head) + PAGE - 1) / PAGE * PAGE;
    char *pages = mmap(NULL, whole + PAGE, PROT_NONE, MAP_PRIVATE | MAP_ANONYMOUS | MAP_NORESERVE, -1, 0);
    if (pages == MAP_FAILED)
        return errno = ENOMEM, NULL;
    if (mprotect(pages, whole, PROT_READ | PROT_WRITE) != 0) {
        munmap(pages, whole + PAGE);
        return errno = ENOMEM, NULL;
    }
    char *block = (char *)((uintptr_t)(pages + whole - size) / alignment * alignment);
    struct head *head = (struct head *)(block - sizeof(struct head));
    *head = (struct head){pages, whole, size, MARK};
    memset(block, byte, size);
    memset(block + size, SLACK, (size_t)(pages + whole - (block + size)));
    return block;
}

void *malloc(size_t size) { return allocate(LEAST, size, FRESH); }

void *calloc(size_t count, size_t size) {
    size_t all;
    if (__builtin_mul_overflow(count, size, &all))
        return errno = ENOMEM, NULL;
    return allocate(LEAST, all, 0);
}

void free(void *block) {
    if (block == NULL)
        return;
    struct head head = *head_of(block);
    for (char *at = (char *)block + head.size; at < head.pages + head.whole; at++)
        if (*(unsigned char *)at != SLACK)
            die("guard: bytes behind a block were written\n");
    /* Pages that were never touched become one with those around them, of which the system keeps a list that is limited. */
    int flags = MAP_PRIVATE | MAP_ANONYMOUS | MAP_NORESERVE | MAP_FIXED;
    if (mmap(head.pages, head.whole, PROT_NONE, flags, -1, 0) == MAP_FAILED)
        die("guard: pages can't be taken away\n");
}

void *realloc(void *block, size_t size) {
    if (block == NULL)
        return malloc(size);
    size_t before = head_of(block)->size;
    void *other = malloc(size);
    if (other != NULL) {
        memcpy(other, block, before < size ? before : size);
        free(block);
    }
    return other;
}

void *aligned_alloc(size_t alignment, size_t size) { return allocate(alignment, size, FRESH); }

void *memalign(size_t alignment, size_t size) { return allocate(alignment, size, FRESH); }

int posix_memalign(void **block, size_t alignment, size_t size) {
    void *given = allocate(alignment, size, FRESH);
    if (given == NULL)
        return ENOMEM;
    *block = given;
    return 0;
}

size_t malloc_usable_size(void *block) { return block == NULL ? 0 : head_of(block)->size; }
