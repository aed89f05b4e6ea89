// Preloaded by tests/failing-world: a read and a write that move few bytes at a time, and that fail where the environment says so.
//   MOST        bytes that a call moves at most
//   FAIL_READ   the number of the read from standard input that fails, from 1
//   FAIL_WRITE  the number of the write to standard output that fails; a write after it ends the program by abort
#include <errno.h>
#include <stdlib.h>
#include <sys/syscall.h>
#include <unistd.h>

static long setting(const char *name) {
    const char *text = getenv(name);
    return text ? atol(text) : 0;
}

static size_t few(size_t count) {
    size_t most = (size_t)setting("MOST");
    return most && most < count ? most : count;
}

// Whether this call of a kind is the one that fails.
static int fails(const char *name, long call) {
    if (call != setting(name)) return 0;
    errno = EIO;
    return 1;
}

ssize_t read(int fd, void *bytes, size_t count) {
    static long calls;
    if (fd == STDIN_FILENO && fails("FAIL_READ", ++calls)) return -1;
    return syscall(SYS_read, fd, bytes, few(count));
}

ssize_t write(int fd, const void *bytes, size_t count) {
    static long calls;
    static int failed;
    if (fd == STDOUT_FILENO) {
        if (failed) abort();
        failed = fails("FAIL_WRITE", ++calls);
        if (failed) return -1;
    }
    return syscall(SYS_write, fd, bytes, few(count));
}
