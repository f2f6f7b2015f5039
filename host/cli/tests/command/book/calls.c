/* Counts the calls by which a process changes files, and has one of them fail or the process end there. Loaded before the C library
   (LD_PRELOAD). CALLS_LOG names a file that gets the name of each call; CALLS_AT is the number of one, counted from 1, and CALLS_HOW
   says what happens at it:

     before  the process is killed instead of it
     after   the process is killed right after it
     fail    it fails, with the error CALLS_ERROR (no space is left, unless told otherwise)
     full    it fails, and so does every later one but those that take something away
     short   it writes half of what it is to write, and every later write fails
     halves  every write writes half, whatever CALLS_AT
     linked  the file CALLS_FROM gets the name CALLS_TO, too, before it
     nolock  no file can be locked, whatever CALLS_AT */
#define _GNU_SOURCE
#include <dlfcn.h>
#include <errno.h>
#include <fcntl.h>
#include <signal.h>
#include <stdarg.h>
#include <stdlib.h>
#include <string.h>
#include <sys/stat.h>
#include <sys/syscall.h>
#include <sys/types.h>
#include <sys/uio.h>
#include <sys/xattr.h>
#include <unistd.h>

static long count;

static int how(const char *wanted)
{
    const char *given = getenv("CALLS_HOW");
    return given && !strcmp(given, wanted);
}

static long number(const char *name, long otherwise)
{
    const char *given = getenv(name);
    return given ? atol(given) : otherwise;
}

/* Past the functions below: what is logged is not counted. */
static void log_call(const char *name)
{
    const char *path = getenv("CALLS_LOG");
    if (!path)
        return;
    int fd = (int)syscall(SYS_openat, AT_FDCWD, path, O_WRONLY | O_CREAT | O_APPEND, 0600);
    syscall(SYS_write, fd, name, strlen(name));
    syscall(SYS_write, fd, "\n", 1);
    syscall(SYS_close, fd);
}

static void end(void)
{
    kill(getpid(), SIGKILL);
    for (;;)
        pause();
}

/* Counts a call, and says whether it is to fail. */
static int fails(const char *name)
{
    long at = number("CALLS_AT", 0);
    count += 1;
    log_call(name);
    if (count == at && how("before"))
        end();
    if (count == at && how("linked"))
        syscall(SYS_linkat, AT_FDCWD, getenv("CALLS_FROM"), AT_FDCWD, getenv("CALLS_TO"), 0);
    int removes = !strncmp(name, "unlink", 6);
    if ((count == at && how("fail")) || (at && count >= at && how("full") && !removes)) {
        errno = (int)number("CALLS_ERROR", ENOSPC);
        return 1;
    }
    return 0;
}

static void ends_after(void)
{
    if (count == number("CALLS_AT", 0) && how("after"))
        end();
}

#define REAL(type, name, parameters) type (*real) parameters = (type(*) parameters)dlsym(RTLD_NEXT, #name)

#define CHANGES(name, parameters, arguments) \
    int name parameters                      \
    {                                        \
        REAL(int, name, parameters);         \
        if (fails(#name))                    \
            return -1;                       \
        int result = real arguments;         \
        ends_after();                        \
        return result;                       \
    }

CHANGES(fsync, (int fd), (fd))
CHANGES(fdatasync, (int fd), (fd))
CHANGES(ftruncate, (int fd, off_t length), (fd, length))
CHANGES(ftruncate64, (int fd, off64_t length), (fd, length))
CHANGES(fallocate, (int fd, int mode, off_t offset, off_t length), (fd, mode, offset, length))
CHANGES(fallocate64, (int fd, int mode, off64_t offset, off64_t length), (fd, mode, offset, length))
CHANGES(rename, (const char *from, const char *to), (from, to))
CHANGES(renameat, (int a, const char *from, int b, const char *to), (a, from, b, to))
CHANGES(renameat2, (int a, const char *from, int b, const char *to, unsigned flags), (a, from, b, to, flags))
CHANGES(link, (const char *from, const char *to), (from, to))
CHANGES(linkat, (int a, const char *from, int b, const char *to, int flags), (a, from, b, to, flags))
CHANGES(unlink, (const char *path), (path))
CHANGES(unlinkat, (int fd, const char *path, int flags), (fd, path, flags))
CHANGES(symlink, (const char *to, const char *path), (to, path))
CHANGES(chmod, (const char *path, mode_t mode), (path, mode))
CHANGES(fchmod, (int fd, mode_t mode), (fd, mode))
CHANGES(fchmodat, (int fd, const char *path, mode_t mode, int flags), (fd, path, mode, flags))
CHANGES(fchown, (int fd, uid_t user, gid_t group), (fd, user, group))
CHANGES(fsetxattr, (int fd, const char *name, const void *value, size_t size, int flags), (fd, name, value, size, flags))
CHANGES(fremovexattr, (int fd, const char *name), (fd, name))

#define OPENS(name, parameters, arguments)                \
    int name parameters                                   \
    {                                                     \
        REAL(int, name, (const char *, int, ...));        \
        va_list rest;                                     \
        va_start(rest, flags);                            \
        mode_t mode = va_arg(rest, mode_t);               \
        va_end(rest);                                     \
        int changes = (flags & (O_CREAT | O_TRUNC)) != 0; \
        if (changes && fails(#name))                      \
            return -1;                                    \
        int result = real arguments;                      \
        if (changes)                                      \
            ends_after();                                 \
        return result;                                    \
    }

OPENS(open, (const char *path, int flags, ...), (path, flags, mode))
OPENS(open64, (const char *path, int flags, ...), (path, flags, mode))

/* Half of the bytes, where a write is to be short. */
static size_t written(size_t length)
{
    int halved = how("halves") || (how("short") && count == number("CALLS_AT", 0));
    return halved && length > 1 ? length / 2 : length;
}

static int no_more(void)
{
    errno = ENOSPC;
    return how("short") && count > number("CALLS_AT", 0);
}

ssize_t write(int fd, const void *bytes, size_t length)
{
    REAL(ssize_t, write, (int, const void *, size_t));
    if (fails("write") || no_more())
        return -1;
    ssize_t result = real(fd, bytes, written(length));
    ends_after();
    return result;
}

ssize_t pwrite64(int fd, const void *bytes, size_t length, off64_t offset)
{
    REAL(ssize_t, pwrite64, (int, const void *, size_t, off64_t));
    if (fails("pwrite64") || no_more())
        return -1;
    ssize_t result = real(fd, bytes, written(length), offset);
    ends_after();
    return result;
}

ssize_t writev(int fd, const struct iovec *parts, int many)
{
    REAL(ssize_t, writev, (int, const struct iovec *, int));
    if (fails("writev") || no_more())
        return -1;
    ssize_t result = real(fd, parts, many);
    ends_after();
    return result;
}

int flock(int fd, int operation)
{
    REAL(int, flock, (int, int));
    if (how("nolock")) {
        errno = ENOTSUP;
        return -1;
    }
    return real(fd, operation);
}
