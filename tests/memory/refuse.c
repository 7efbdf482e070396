// Loaded before the C library. It refuses the allocation whose number, counted from 1, stands in the variable REFUSED, and
// where a + stands behind the number, all later ones too. A mark on descriptor 9 says that it did.
#define _GNU_SOURCE
#include <dlfcn.h>
#include <errno.h>
#include <stdlib.h>
#include <unistd.h>

static unsigned long calls;

static int is_refused(void) {
  const char *wanted = getenv("REFUSED");
  char *rest = NULL;
  unsigned long number = wanted == NULL ? 0 : strtoul(wanted, &rest, 10);
  calls++;
  if (number == 0 || calls < number || (calls > number && *rest != '+')) return 0;
  if (write(9, "!", 1) != 1) abort();
  errno = ENOMEM;
  return 1;
}

void *malloc(size_t size) {
  static void *(*next)(size_t);
  if (next == NULL) next = (void *(*)(size_t))dlsym(RTLD_NEXT, "malloc");
  return is_refused() ? NULL : next(size);
}

void *realloc(void *old, size_t size) {
  static void *(*next)(void *, size_t);
  if (next == NULL) next = (void *(*)(void *, size_t))dlsym(RTLD_NEXT, "realloc");
  return is_refused() ? NULL : next(old, size);
}
