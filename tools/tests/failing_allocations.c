// A library, put before libc by LD_PRELOAD, in which the call FAIL_AT of an allocating function fails, or none if that
// is 0, and with FAIL_ON those after it too.
// Counts the calls from `main` on, and writes a byte to the descriptor FAIL_TOLD for each call that fails. With READ_MOST
// a read takes at most that number of bytes.
#include <errno.h>
#include <stddef.h>
#include <stdlib.h>
#include <unistd.h>

ssize_t __read(int, void *, size_t);
void *__libc_malloc(size_t);
void *__libc_calloc(size_t, size_t);
void *__libc_realloc(void *, size_t);
void *__libc_memalign(size_t, size_t);

static long at, calls;
static int on, told;
static size_t most = (size_t)-1;

__attribute__((constructor)) static void start(void) {
    at = atol(getenv("FAIL_AT"));
    on = atoi(getenv("FAIL_ON"));
    told = atoi(getenv("FAIL_TOLD"));
    if (getenv("READ_MOST"))
        most = strtoul(getenv("READ_MOST"), NULL, 10);
    calls = 0;
}

static int fails(void) {
    calls++;
    if (at == 0 || calls < at || (calls > at && !on))
        return 0;
    if (write(told, "x", 1) != 1)
        _exit(99);
    errno = ENOMEM;
    return 1;
}

ssize_t read(int file, void *bytes, size_t size) { return __read(file, bytes, size < most ? size : most); }
void *malloc(size_t size) { return fails() ? NULL : __libc_malloc(size); }
void *calloc(size_t count, size_t size) { return fails() ? NULL : __libc_calloc(count, size); }
void *realloc(void *block, size_t size) { return fails() ? NULL : __libc_realloc(block, size); }
void *aligned_alloc(size_t align, size_t size) { return fails() ? NULL : __libc_memalign(align, size); }
int posix_memalign(void **block, size_t align, size_t size) {
    *block = fails() ? NULL : __libc_memalign(align, size);
    return *block ? 0 : ENOMEM;
}
