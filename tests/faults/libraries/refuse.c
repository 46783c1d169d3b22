/* Refuses one allocation of a program that it is loaded before (LD_PRELOAD): the one whose number, counted from 1, stands in REFUSED. Where
   ALLOCATIONS names a file, how many there were stands in it at the end. */
#define _GNU_SOURCE
#include <dlfcn.h>
#include <errno.h>
#include <stdio.h>
#include <stdlib.h>

static long count;

static int is_refused(void) {
  const char *refused = getenv("REFUSED");
  count++;
  return refused != NULL && atol(refused) == count;
}

void *malloc(size_t size) {
  static void *(*next)(size_t);
  if (next == NULL) next = (void *(*)(size_t))dlsym(RTLD_NEXT, "malloc");
  return is_refused() ? NULL : next(size);
}

void *realloc(void *block, size_t size) {
  static void *(*next)(void *, size_t);
  if (next == NULL) next = (void *(*)(void *, size_t))dlsym(RTLD_NEXT, "realloc");
  return is_refused() ? NULL : next(block, size);
}

void *aligned_alloc(size_t alignment, size_t size) {
  static void *(*next)(size_t, size_t);
  if (next == NULL) next = (void *(*)(size_t, size_t))dlsym(RTLD_NEXT, "aligned_alloc");
  return is_refused() ? NULL : next(alignment, size);
}

int posix_memalign(void **block, size_t alignment, size_t size) {
  static int (*next)(void **, size_t, size_t);
  if (next == NULL) next = (int (*)(void **, size_t, size_t))dlsym(RTLD_NEXT, "posix_memalign");
  return is_refused() ? ENOMEM : next(block, alignment, size);
}

__attribute__((destructor)) static void tell(void) {
  const char *name = getenv("ALLOCATIONS");
  long all = count;
  FILE *file = name == NULL ? NULL : fopen(name, "w");
  if (file == NULL) return;
  fprintf(file, "%ld\n", all);
  fclose(file);
}
