/* Preloaded into a program: records what it does to a file and to the file -wal beside it, as a second machine is sent
 * it by a mirror of its disk.
 *
 * RECORD_OF is the path of the file, and RECORD the file at whose end a record is put: of a write or a truncation before
 * the call, of a sync after it, so that what is done after a sync comes after its record. A record is a struct record
 * and the bytes of the write. */
#define _GNU_SOURCE
#include <dlfcn.h>
#include <fcntl.h>
#include <stdarg.h>
#include <stdint.h>
#include <stdlib.h>
#include <string.h>
#include <sys/uio.h>
#include <unistd.h>

enum kind { WRITE = 1, TRUNCATE = 2, SYNC = 3 };
enum { DESCRIPTORS = 1024, NO_FILE = 0, DATABASE = 1, LOG = 2 };

struct record {
    uint32_t kind, file;
    uint64_t offset, length;
};

static unsigned char file_of[DESCRIPTORS];
static int record_file = -1;

static void *next(const char *name)
{
    void *found = dlsym(RTLD_NEXT, name);
    if (!found)
        abort();
    return found;
}

static unsigned char file_at(int descriptor)
{
    return descriptor >= 0 && descriptor < DESCRIPTORS ? file_of[descriptor] : NO_FILE;
}

/* A record that cannot be kept would make the check a wrong one. */
static void put(enum kind kind, int file, uint64_t offset, const void *bytes, uint64_t length)
{
    struct record record = {kind, file, offset, length};
    struct iovec parts[] = {{&record, sizeof record}, {(void *)bytes, bytes ? length : 0}};
    if (writev(record_file, parts, 2) != (ssize_t)(parts[0].iov_len + parts[1].iov_len))
        abort();
}

static int opened(int descriptor, const char *path, int flags)
{
    const char *of = getenv("RECORD_OF"), *name = getenv("RECORD");
    int (*real)(const char *, int, ...) = next("open");
    if (descriptor < 0 || descriptor >= DESCRIPTORS || !of || !name)
        return descriptor;
    file_of[descriptor] = NO_FILE;
    if (strncmp(path, of, strlen(of)))
        return descriptor;
    path += strlen(of);
    file_of[descriptor] = !*path ? DATABASE : !strcmp(path, "-wal") ? LOG : NO_FILE;
    if (record_file < 0 && (record_file = real(name, O_WRONLY | O_APPEND | O_CREAT | O_CLOEXEC, 0600)) < 0)
        abort();
    if (file_of[descriptor] && flags & O_TRUNC)
        put(TRUNCATE, file_of[descriptor], 0, NULL, 0);
    return descriptor;
}

#define MODE(flags, mode)                    \
    mode_t mode = 0;                         \
    if (flags & O_CREAT) {                   \
        va_list rest;                        \
        va_start(rest, flags);               \
        mode = va_arg(rest, mode_t);         \
        va_end(rest);                        \
    }

int open(const char *path, int flags, ...)
{
    int (*real)(const char *, int, ...) = next("open");
    MODE(flags, mode)
    return opened(real(path, flags, mode), path, flags);
}

int open64(const char *path, int flags, ...)
{
    int (*real)(const char *, int, ...) = next("open64");
    MODE(flags, mode)
    return opened(real(path, flags, mode), path, flags);
}

int close(int descriptor)
{
    int (*real)(int) = next("close");
    if (file_at(descriptor))
        file_of[descriptor] = NO_FILE;
    return real(descriptor);
}

ssize_t pwrite64(int descriptor, const void *bytes, size_t length, off64_t offset)
{
    ssize_t (*real)(int, const void *, size_t, off64_t) = next("pwrite64");
    if (file_at(descriptor))
        put(WRITE, file_at(descriptor), offset, bytes, length);
    return real(descriptor, bytes, length, offset);
}

ssize_t pwrite(int descriptor, const void *bytes, size_t length, off_t offset)
{
    return pwrite64(descriptor, bytes, length, offset);
}

int ftruncate64(int descriptor, off64_t length)
{
    int (*real)(int, off64_t) = next("ftruncate64");
    if (file_at(descriptor))
        put(TRUNCATE, file_at(descriptor), length, NULL, 0);
    return real(descriptor, length);
}

int ftruncate(int descriptor, off_t length)
{
    return ftruncate64(descriptor, length);
}

static int synced(int descriptor, int result)
{
    if (!result && file_at(descriptor))
        put(SYNC, file_at(descriptor), 0, NULL, 0);
    return result;
}

int fsync(int descriptor)
{
    int (*real)(int) = next("fsync");
    return synced(descriptor, real(descriptor));
}

int fdatasync(int descriptor)
{
    int (*real)(int) = next("fdatasync");
    return synced(descriptor, real(descriptor));
}

/* No other call changes these files; where one comes to be used, the check would not see its bytes. */
ssize_t write(int descriptor, const void *bytes, size_t length)
{
    ssize_t (*real)(int, const void *, size_t) = next("write");
    if (file_at(descriptor))
        abort();
    return real(descriptor, bytes, length);
}
