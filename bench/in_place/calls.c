/* Notes each unit that the program reads or writes at a place of a file, a line for each: r or w, the place in bytes, and how many
   bytes; into the file that A2SHOP_CALLS names. Loaded before the C library, for measurements alone. */
#define _GNU_SOURCE
#include <dlfcn.h>
#include <stdio.h>
#include <stdlib.h>
#include <sys/types.h>

static void note(char kind, size_t count, off_t at) {
  static FILE *calls;
  if (!calls) calls = fopen(getenv("A2SHOP_CALLS"), "w");
  if (calls) fprintf(calls, "%c %lld %zu\n", kind, (long long)at, count);
}

#define NOTED(kind, type, name, bytes_type) \
  type name(int file, bytes_type bytes, size_t count, off_t at) { \
    static type (*next)(int, bytes_type, size_t, off_t); \
    if (!next) next = (type (*)(int, bytes_type, size_t, off_t))dlsym(RTLD_NEXT, #name); \
    note(kind, count, at); \
    return next(file, bytes, count, at); \
  }
NOTED('r', ssize_t, pread, void *)
NOTED('r', ssize_t, pread64, void *)
NOTED('w', ssize_t, pwrite, const void *)
NOTED('w', ssize_t, pwrite64, const void *)
