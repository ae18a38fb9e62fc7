// Counts the bytes that a program holds, for LD_PRELOAD. Where the program allocates a block of MARK bytes, it tells the most bytes
// held since the mark before, and those held now, less those held at that mark.
#include <malloc.h>
#include <stdio.h>

enum { MARK = 1234567 };

static long held, most, base;

static void *counted(void *block, size_t size) {
    if (block) held += (long)malloc_usable_size(block);
    if (size == MARK) {
        long before = held - (long)malloc_usable_size(block);
        fprintf(stderr, "peak %ld kept %ld\n", most - base, before - base);
        most = base = before;
    } else if (held > most) {
        most = held;
    }
    return block;
}

extern void *__libc_malloc(size_t), *__libc_calloc(size_t, size_t), *__libc_realloc(void *, size_t), *__libc_memalign(size_t, size_t);
extern void __libc_free(void *);

void *malloc(size_t size) { return counted(__libc_malloc(size), size); }
void *calloc(size_t count, size_t size) { return counted(__libc_calloc(count, size), count * size); }
void *aligned_alloc(size_t align, size_t size) { return counted(__libc_memalign(align, size), size); }
void *memalign(size_t align, size_t size) { return counted(__libc_memalign(align, size), size); }
int posix_memalign(void **out, size_t align, size_t size) { return (*out = aligned_alloc(align, size)) ? 0 : 12; }

void free(void *block) {
    if (block) held -= (long)malloc_usable_size(block);
    __libc_free(block);
}

void *realloc(void *block, size_t size) {
    if (block) held -= (long)malloc_usable_size(block);
    return counted(__libc_realloc(block, size), size);
}
