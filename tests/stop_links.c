/* As stop_calls.c, and with the calls that make a hard link. Where A2SHOP_UNLINKED is set, the file system knows no
   such links: they fail with that error. Where A2SHOP_TAKEN is set, another program has put a file there meanwhile. */
#include "stop_calls.c"

static int next_open(int folder, const char *path, int flags, mode_t mode) {
  NEXT(int, "openat");
  return next(folder, path, flags, mode);
}

/* Whether a link is not to be made. */
static int no_link(int folder, const char *path) {
  if (getenv("A2SHOP_TAKEN")) {
    int file = next_open(folder, path, O_WRONLY | O_CREAT | O_EXCL, 0644);
    if (file >= 0) close(file);
  }
  const char *error = getenv("A2SHOP_UNLINKED");
  if (!error) return stops();
  errno = atoi(error);
  return 1;
}

int link(const char *from, const char *to) {
  NEXT(int, "link");
  return no_link(AT_FDCWD, to) ? -1 : next(from, to);
}

int linkat(int from_folder, const char *from, int to_folder, const char *to, int flags) {
  NEXT(int, "linkat");
  return no_link(to_folder, to) ? -1 : next(from_folder, from, to_folder, to, flags);
}
