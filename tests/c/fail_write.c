// Laid over a program by LD_PRELOAD: its write number FAIL_WRITE to standard output fails, and goes to standard error instead.
#define _GNU_SOURCE
#include <errno.h>
#include <stdlib.h>
#include <sys/syscall.h>
#include <unistd.h>

ssize_t write(int file, const void *bytes, size_t length) {
    static long writes;
    const char *number = getenv("FAIL_WRITE");
    if (file != STDOUT_FILENO || ++writes != (number ? atol(number) : 0))
        return syscall(SYS_write, file, bytes, length);
    syscall(SYS_write, STDERR_FILENO, bytes, length);
    errno = EAGAIN;
    return -1;
}
