/* A disk that is full or fails: preloaded, it fails calls on files under a folder. The environment says:
   DISK_FOLDER  the folder, by its real path; it counts as a file of its own
   DISK_TALLY   a file of two numbers of 8 bytes: the calls so far, and those that failed
   DISK_CALLS   which calls count: "writes", with syncs and truncations; "names", which make, link, move or
                remove a file; or "reads"
   DISK_AT      the place of the first call that fails, from 1 on; 0 fails none
   DISK_ERROR   the number that errno has then
   DISK_LASTS   1 where each later call fails too
   DISK_HALF    1 where the first write that fails writes a half, and the next one fails */
#define _GNU_SOURCE
#include <dlfcn.h>
#include <errno.h>
#include <fcntl.h>
#include <stdarg.h>
#include <stdio.h>
#include <stdlib.h>
#include <string.h>
#include <sys/mman.h>
#include <sys/stat.h>
#include <sys/types.h>
#include <sys/uio.h>
#include <unistd.h>

enum { NONE, WHOLE, HALF };

static const char *folder, *calls;
static long at, lasts, half, wanted_errno;
static long *tally;

static long number(const char *name)
{
    const char *value = getenv(name);
    return value ? atol(value) : 0;
}

__attribute__((constructor)) static void begin(void)
{
    const char *path = getenv("DISK_TALLY");
    int fd = path ? open(path, O_RDWR) : -1;
    void *map = fd < 0 ? MAP_FAILED : mmap(0, 16, PROT_READ | PROT_WRITE, MAP_SHARED, fd, 0);
    if (map == MAP_FAILED) {
        static const char line[] = "disk.c: no tally\n";
        if (write(2, line, sizeof line - 1) < 0 || 1)
            _exit(99);
    }
    close(fd);
    at = number("DISK_AT");
    lasts = number("DISK_LASTS");
    half = number("DISK_HALF");
    wanted_errno = number("DISK_ERROR");
    calls = getenv("DISK_CALLS");
    folder = getenv("DISK_FOLDER");
    tally = map;
}

static int is_under(const char *path)
{
    size_t size = folder ? strlen(folder) : 0;
    return tally && size > 0 && strncmp(path, folder, size) == 0 && (path[size] == '/' || !path[size]);
}

static int is_counted(const char *kind)
{
    return tally && calls && strcmp(calls, kind) == 0;
}

/* One call that counts: whether it fails. */
static int fails(void)
{
    long place = __sync_add_and_fetch(&tally[0], 1);
    long failed = at > 0 && (place == at || (lasts && place > at));
    if (!failed)
        return NONE;
    __sync_add_and_fetch(&tally[1], 1);
    errno = (int)wanted_errno;
    return half && place == at ? HALF : WHOLE;
}

/* The same of a call on an open file. */
static int fails_on(const char *kind, int fd)
{
    char link[64], path[4096];
    ssize_t size;
    int kept = errno;
    if (!is_counted(kind))
        return NONE;
    snprintf(link, sizeof link, "/proc/self/fd/%d", fd);
    size = readlink(link, path, sizeof path - 1);
    errno = kept;
    if (size < 0)
        return NONE;
    path[size] = 0;
    return is_under(path) ? fails() : NONE;
}

/* The same of a call on a name; one that isn't whole is of the working folder. */
static int fails_at(const char *path)
{
    char whole[8192], here[4096];
    if (!is_counted("names"))
        return NONE;
    if (path[0] == '/')
        return is_under(path) ? fails() : NONE;
    if (!getcwd(here, sizeof here))
        return NONE;
    snprintf(whole, sizeof whole, "%s/%s", here, path);
    return is_under(whole) ? fails() : NONE;
}

#define REAL(name) ((__typeof__(&name))real(#name))

static void *real(const char *name)
{
    void *found = dlsym(RTLD_NEXT, name);
    if (!found)
        abort();
    return found;
}

/* Writes of one buffer: a half is written where the call is to fail by half. */
#define WRITES(name, ...)                                                                   \
    do {                                                                                    \
        switch (fails_on("writes", fd)) {                                                   \
        case WHOLE: return -1;                                                              \
        case HALF: if (size < 2) return -1; size /= 2; break;                               \
        }                                                                                   \
        return REAL(name)(__VA_ARGS__);                                                     \
    } while (0)

ssize_t write(int fd, const void *bytes, size_t size) { WRITES(write, fd, bytes, size); }
ssize_t pwrite(int fd, const void *bytes, size_t size, off_t place)
{
    WRITES(pwrite, fd, bytes, size, place);
}
ssize_t pwrite64(int fd, const void *bytes, size_t size, off64_t place)
{
    WRITES(pwrite64, fd, bytes, size, place);
}

/* Calls that fail whole or not at all. */
#define FAILS(kind, name, ...) return fails_on(kind, fd) ? -1 : REAL(name)(__VA_ARGS__)

ssize_t writev(int fd, const struct iovec *parts, int many) { FAILS("writes", writev, fd, parts, many); }
ssize_t pwritev(int fd, const struct iovec *parts, int many, off_t place)
{
    FAILS("writes", pwritev, fd, parts, many, place);
}
ssize_t pwritev64(int fd, const struct iovec *parts, int many, off64_t place)
{
    FAILS("writes", pwritev64, fd, parts, many, place);
}
int fsync(int fd) { FAILS("writes", fsync, fd); }
int fdatasync(int fd) { FAILS("writes", fdatasync, fd); }
int sync_file_range(int fd, off64_t from, off64_t size, unsigned int how)
{
    FAILS("writes", sync_file_range, fd, from, size, how);
}
int ftruncate(int fd, off_t size) { FAILS("writes", ftruncate, fd, size); }
int ftruncate64(int fd, off64_t size) { FAILS("writes", ftruncate64, fd, size); }
int fallocate(int fd, int how, off_t from, off_t size) { FAILS("writes", fallocate, fd, how, from, size); }
int fallocate64(int fd, int how, off64_t from, off64_t size)
{
    FAILS("writes", fallocate64, fd, how, from, size);
}
int posix_fallocate(int fd, off_t from, off_t size)
{
    return fails_on("writes", fd) ? (int)wanted_errno : REAL(posix_fallocate)(fd, from, size);
}
int posix_fallocate64(int fd, off64_t from, off64_t size)
{
    return fails_on("writes", fd) ? (int)wanted_errno : REAL(posix_fallocate64)(fd, from, size);
}

ssize_t read(int fd, void *bytes, size_t size) { FAILS("reads", read, fd, bytes, size); }
ssize_t pread(int fd, void *bytes, size_t size, off_t place)
{
    FAILS("reads", pread, fd, bytes, size, place);
}
ssize_t pread64(int fd, void *bytes, size_t size, off64_t place)
{
    FAILS("reads", pread64, fd, bytes, size, place);
}

/* Only an open that makes a file counts. */
static int makes(const char *path, int flags)
{
    struct stat found;
    int kept = errno, missing = (flags & O_CREAT) && stat(path, &found) != 0;
    errno = kept;
    return missing;
}

#define OPENS(name, ...)                                                                    \
    do {                                                                                    \
        va_list rest;                                                                       \
        mode_t mode;                                                                        \
        va_start(rest, flags);                                                              \
        mode = (flags & (O_CREAT | O_TMPFILE)) ? va_arg(rest, mode_t) : 0;                  \
        va_end(rest);                                                                       \
        return makes(path, flags) && fails_at(path) ? -1 : REAL(name)(__VA_ARGS__, mode);   \
    } while (0)

int open(const char *path, int flags, ...) { OPENS(open, path, flags); }
int open64(const char *path, int flags, ...) { OPENS(open64, path, flags); }
int openat(int from, const char *path, int flags, ...) { OPENS(openat, from, path, flags); }
int openat64(int from, const char *path, int flags, ...) { OPENS(openat64, from, path, flags); }
int link(const char *path, const char *name) { return fails_at(name) ? -1 : REAL(link)(path, name); }
int linkat(int a, const char *path, int b, const char *name, int flags)
{
    return fails_at(name) ? -1 : REAL(linkat)(a, path, b, name, flags);
}
int rename(const char *path, const char *name) { return fails_at(name) ? -1 : REAL(rename)(path, name); }
int unlink(const char *path) { return fails_at(path) ? -1 : REAL(unlink)(path); }
int unlinkat(int from, const char *path, int flags)
{
    return fails_at(path) ? -1 : REAL(unlinkat)(from, path, flags);
}
