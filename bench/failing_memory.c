// Loaded before a program by LD_PRELOAD, over glibc: an allocation of the program fails, the one with the number in FAIL_AT (the first is 1), and
// where FAIL_ON is set each one behind it too. The file that COUNT_TO names keeps, as 8 bytes, how many were asked for.
#include <errno.h>
#include <fcntl.h>
#include <stdatomic.h>
#include <stdlib.h>
#include <sys/mman.h>
#include <unistd.h>

void *__libc_malloc(size_t);
void *__libc_calloc(size_t, size_t);
void *__libc_realloc(void *, size_t);
void *__libc_memalign(size_t, size_t);

static _Atomic unsigned long *asked;
static unsigned long fail_at;
static int fail_on;

__attribute__((constructor)) static void begin(void) {
    const char *to = getenv("COUNT_TO"), *at = getenv("FAIL_AT");
    int file = to ? open(to, O_RDWR | O_CREAT, 0600) : -1;
    if (file < 0 || ftruncate(file, sizeof *asked) != 0)
        _exit(99);
    void *page = mmap(NULL, sizeof *asked, PROT_READ | PROT_WRITE, MAP_SHARED, file, 0);
    if (page == MAP_FAILED)
        _exit(99);
    close(file);
    fail_at = at ? strtoul(at, NULL, 10) : 0;
    fail_on = getenv("FAIL_ON") != NULL;
    asked = page;
    atomic_store(asked, 0);
}

// Whether this allocation is to fail. Those before `begin` are not counted.
static int fails(void) {
    if (!asked)
        return 0;
    unsigned long number = atomic_fetch_add(asked, 1) + 1;
    if (number != fail_at && !(fail_on && fail_at && number > fail_at))
        return 0;
    errno = ENOMEM;
    return 1;
}

void *malloc(size_t size) { return fails() ? NULL : __libc_malloc(size); }

void *calloc(size_t count, size_t size) { return fails() ? NULL : __libc_calloc(count, size); }

void *realloc(void *block, size_t size) { return fails() ? NULL : __libc_realloc(block, size); }

void *memalign(size_t align, size_t size) { return fails() ? NULL : __libc_memalign(align, size); }

void *aligned_alloc(size_t align, size_t size) { return memalign(align, size); }

int posix_memalign(void **block, size_t align, size_t size) {
    void *got = memalign(align, size);
    if (!got)
        return ENOMEM;
    *block = got;
    return 0;
}
