/* Stops the program at one call of the file system: the call that comes after A2SHOP_CALLS others fails with an input/output
   error, or, where A2SHOP_KILL is set, the program is killed before it. Where A2SHOP_UNFLUSHED is set, nothing can be put onto the
   disk, and where A2SHOP_UNLOCKED is set, the file system knows no locks. Loaded before the C library, for tests alone. */
#define _GNU_SOURCE
#include <dlfcn.h>
#include <errno.h>
#include <fcntl.h>
#include <signal.h>
#include <stdarg.h>
#include <stdlib.h>
#include <sys/file.h>
#include <sys/stat.h>
#include <sys/types.h>
#include <unistd.h>

static long made;

/* Whether this call is to fail. */
static int stops(void) {
  const char *calls = getenv("A2SHOP_CALLS");
  if (!calls || made++ != atol(calls)) return 0;
  if (getenv("A2SHOP_KILL")) kill(getpid(), SIGKILL);
  errno = EIO;
  return 1;
}

#define NEXT(type, name) \
  static type (*next)(); \
  if (!next) next = (type (*)())dlsym(RTLD_NEXT, name)

#define STOPPED_OPEN(name) \
  int name(const char *path, int flags, ...) { \
    va_list more; \
    va_start(more, flags); \
    mode_t mode = va_arg(more, mode_t); \
    va_end(more); \
    NEXT(int, #name); \
    return stops() ? -1 : next(path, flags, mode); \
  }
STOPPED_OPEN(open)
STOPPED_OPEN(open64)

#define STOPPED_OPEN_AT(name) \
  int name(int folder, const char *path, int flags, ...) { \
    va_list more; \
    va_start(more, flags); \
    mode_t mode = va_arg(more, mode_t); \
    va_end(more); \
    NEXT(int, #name); \
    return stops() ? -1 : next(folder, path, flags, mode); \
  }
STOPPED_OPEN_AT(openat)
STOPPED_OPEN_AT(openat64)

#define STOPPED(type, name, parameters, ...) \
  type name parameters { \
    NEXT(type, #name); \
    return stops() ? (type)-1 : next(__VA_ARGS__); \
  }
STOPPED(ssize_t, read, (int file, void *bytes, size_t count), file, bytes, count)
STOPPED(ssize_t, write, (int file, const void *bytes, size_t count), file, bytes, count)
STOPPED(ssize_t, pread, (int file, void *bytes, size_t count, off_t at), file, bytes, count, at)
STOPPED(ssize_t, pread64, (int file, void *bytes, size_t count, off_t at), file, bytes, count, at)
STOPPED(ssize_t, pwrite, (int file, const void *bytes, size_t count, off_t at), file, bytes, count, at)
STOPPED(ssize_t, pwrite64, (int file, const void *bytes, size_t count, off_t at), file, bytes, count, at)
STOPPED(int, lchown, (const char *path, uid_t owner, gid_t group), path, owner, group)
STOPPED(ssize_t, readlink, (const char *path, char *to, size_t count), path, to, count)
STOPPED(int, rename, (const char *from, const char *to), from, to)
STOPPED(int, unlink, (const char *path), path)
STOPPED(int, unlinkat, (int folder, const char *path, int flags), folder, path, flags)
STOPPED(int, rmdir, (const char *path), path)
STOPPED(int, mkdir, (const char *path, mode_t mode), path, mode)
STOPPED(int, chmod, (const char *path, mode_t mode), path, mode)
STOPPED(int, fstatat, (int folder, const char *path, struct stat *found, int flags), folder, path, found, flags)
STOPPED(int, fchmod, (int file, mode_t mode), file, mode)
STOPPED(int, stat, (const char *path, struct stat *found), path, found)
STOPPED(int, lstat, (const char *path, struct stat *found), path, found)
STOPPED(int, fstat, (int file, struct stat *found), file, found)

char *realpath(const char *path, char *resolved) {
  NEXT(char *, "realpath");
  return stops() ? NULL : next(path, resolved);
}

int flock(int file, int lock) {
  NEXT(int, "flock");
  if (getenv("A2SHOP_UNLOCKED")) {
    errno = ENOTSUP;
    return -1;
  }
  return stops() ? -1 : next(file, lock);
}

int fsync(int file) {
  NEXT(int, "fsync");
  if (getenv("A2SHOP_UNFLUSHED")) {
    errno = EIO;
    return -1;
  }
  return stops() ? -1 : next(file);
}
