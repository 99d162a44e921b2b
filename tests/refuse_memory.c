/* Refuses one block of memory: the one that comes after A2SHOP_REFUSE others. Loaded before the C library, for tests alone. */
#define _GNU_SOURCE
#include <dlfcn.h>
#include <errno.h>
#include <stdlib.h>

static long asked;
static long refused = -1;

static int refuses_next(void) {
  if (refused == -1) {
    const char *text = getenv("A2SHOP_REFUSE");
    refused = text ? atol(text) : -2;
  }
  return asked++ == refused;
}

void *malloc(size_t size) {
  static void *(*next)(size_t);
  if (!next) next = dlsym(RTLD_NEXT, "malloc");
  return refuses_next() ? NULL : next(size);
}

void *realloc(void *block, size_t size) {
  static void *(*next)(void *, size_t);
  if (!next) next = dlsym(RTLD_NEXT, "realloc");
  return refuses_next() ? NULL : next(block, size);
}

void *aligned_alloc(size_t align, size_t size) {
  static void *(*next)(size_t, size_t);
  if (!next) next = dlsym(RTLD_NEXT, "aligned_alloc");
  return refuses_next() ? NULL : next(align, size);
}

int posix_memalign(void **block, size_t align, size_t size) {
  static int (*next)(void **, size_t, size_t);
  if (!next) next = dlsym(RTLD_NEXT, "posix_memalign");
  return refuses_next() ? ENOMEM : next(block, align, size);
}
