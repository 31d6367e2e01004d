/*
 * Has every read bring at most 3 bytes and every write take at most 7. Each call that is cut short leaves a byte in the file
 * `pieces`, so that a test can tell that it happened.
 */
#define _GNU_SOURCE
#include <fcntl.h>
#include <sys/syscall.h>
#include <unistd.h>

static size_t piece(size_t count, size_t most)
{
    if (count <= most)
        return count;
    int marks = open("pieces", O_WRONLY | O_CREAT | O_APPEND | O_CLOEXEC, 0600);
    syscall(SYS_write, marks, ".", 1);
    close(marks);
    return most;
}

ssize_t read(int descriptor, void *bytes, size_t count)
{
    return syscall(SYS_read, descriptor, bytes, piece(count, 3));
}

ssize_t write(int descriptor, const void *bytes, size_t count)
{
    return syscall(SYS_write, descriptor, bytes, piece(count, 7));
}
