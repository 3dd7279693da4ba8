/* Trouble for the key program, loaded in front of the C library (LD_PRELOAD): reads of standard input and writes to standard output that are
   short, fail, are lost, or end the program. Each is asked for by a variable with a number; in other programs, as the shell, nothing changes. */
#define _GNU_SOURCE
#include <errno.h>
#include <signal.h>
#include <stdlib.h>
#include <string.h>
#include <sys/syscall.h>
#include <unistd.h>

static long asked(const char *name) {
    const char *value = getenv(name);
    return value && strcmp(program_invocation_short_name, "key") == 0 ? atol(value) : 0;
}

static size_t at_most(size_t count, long most) {
    return most > 0 && (size_t)most < count ? (size_t)most : count;
}

ssize_t read(int fd, void *bytes, size_t count) {
    static long reads;
    if (fd == 0) {
        reads++;
        if (reads == asked("TROUBLE_READ_FAILS")) {
            errno = EIO;
            return -1;
        }
        if (reads == asked("TROUBLE_KILL")) {
            raise(SIGKILL);
        }
        count = at_most(count, asked("TROUBLE_READ_MOST"));
    }
    return syscall(SYS_read, fd, bytes, count);
}

ssize_t write(int fd, const void *bytes, size_t count) {
    static long writes;
    if (fd == 1) {
        writes++;
        if (writes == asked("TROUBLE_WRITE_FAILS")) {
            errno = ENOSPC;
            return -1;
        }
        if (writes == asked("TROUBLE_WRITE_LOST")) {
            return (ssize_t)count;
        }
        count = at_most(count, asked("TROUBLE_WRITE_MOST"));
    }
    return syscall(SYS_write, fd, bytes, count);
}
