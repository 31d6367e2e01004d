/*
 * Has every second read and write fail as if a signal had interrupted it. Each such call leaves a byte in the file
 * `interrupted`, so that a test can tell that it happened.
 */
#define _GNU_SOURCE
#include <errno.h>
#include <fcntl.h>
#include <sys/syscall.h>
#include <unistd.h>

static int interrupts(void)
{
    static unsigned calls;
    if (calls++ % 2 != 0)
        return 0;
    int marks = open("interrupted", O_WRONLY | O_CREAT | O_APPEND | O_CLOEXEC, 0600);
    syscall(SYS_write, marks, ".", 1);
    close(marks);
    errno = EINTR;
    return 1;
}

ssize_t read(int descriptor, void *bytes, size_t count)
{
    return interrupts() ? -1 : syscall(SYS_read, descriptor, bytes, count);
}

ssize_t write(int descriptor, const void *bytes, size_t count)
{
    return interrupts() ? -1 : syscall(SYS_write, descriptor, bytes, count);
}
