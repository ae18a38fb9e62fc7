/* Loaded before a program (LD_PRELOAD), it counts the program's allocations from the first, and refuses the one whose number REFUSE is, or
   that of REFUSE_FROM and all later ones. The count stands in the file that REFUSE_COUNT names, as an unsigned long, however the program ends. */
#include <errno.h>
#include <fcntl.h>
#include <stdlib.h>
#include <sys/mman.h>
#include <unistd.h>

extern void *__libc_malloc(size_t), *__libc_realloc(void *, size_t);

static unsigned long own, *count = &own;

static unsigned long number_in(const char *name) {
    const char *text = environ ? getenv(name) : NULL;
    return text ? strtoul(text, NULL, 10) : -1ul;
}

static int is_refused(void) {
    unsigned long number = __atomic_add_fetch(count, 1, __ATOMIC_RELAXED);
    if (number != number_in("REFUSE") && number < number_in("REFUSE_FROM"))
        return 0;
    errno = ENOMEM;
    return 1;
}

void *malloc(size_t size) { return is_refused() ? NULL : __libc_malloc(size); }

void *realloc(void *old, size_t size) { return old && size && is_refused() ? NULL : __libc_realloc(old, size); }

__attribute__((constructor)) static void share_count(void) {
    const char *name = getenv("REFUSE_COUNT");
    int file = name ? open(name, O_RDWR | O_CREAT, 0600) : -1;
    if (file < 0 || ftruncate(file, sizeof own))
        return;
    unsigned long *shared = mmap(NULL, sizeof own, PROT_READ | PROT_WRITE, MAP_SHARED, file, 0);
    close(file);
    if (shared == MAP_FAILED)
        return;
    *shared = own;
    count = shared;
}
