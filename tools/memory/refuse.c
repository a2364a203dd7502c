/* Refuses requests for memory, so that a test sees what a program makes of that.

   A shared object that is loaded before the C library (LD_PRELOAD). Each call of malloc, calloc, realloc, aligned_alloc,
   memalign and posix_memalign is a request, counted from 1. The environment says which ones are refused, and where the
   counts go:

     REFUSE_AT=N         request N
     REFUSE_FROM=N       request N and each one after it
     REFUSE_REPORT=FILE  at exit FILE gets one line: how many requests there were, and how many of them were refused here

   A request that is not refused here is the C library's own, which may refuse it too. The program has one thread. */
#include <errno.h>
#include <fcntl.h>
#include <stddef.h>
#include <stdio.h>
#include <stdlib.h>
#include <unistd.h>

/* The C library's own, under the names that it has for callers which stand before it. */
extern void *__libc_malloc(size_t size);
extern void *__libc_calloc(size_t count, size_t size);
extern void *__libc_realloc(void *block, size_t size);
extern void *__libc_memalign(size_t alignment, size_t size);

static unsigned long at, from, requests, refused;

static unsigned long number_of(const char *name) {
  const char *text = getenv(name);
  return text == NULL ? 0 : strtoul(text, NULL, 10);
}

__attribute__((constructor)) static void begin(void) {
  at = number_of("REFUSE_AT");
  from = number_of("REFUSE_FROM");
  requests = refused = 0;
}

static int is_refused(void) {
  requests++;
  if (requests != at && (from == 0 || requests < from)) return 0;
  refused++;
  errno = ENOMEM;
  return 1;
}

void *malloc(size_t size) { return is_refused() ? NULL : __libc_malloc(size); }

void *calloc(size_t count, size_t size) { return is_refused() ? NULL : __libc_calloc(count, size); }

void *realloc(void *block, size_t size) { return is_refused() ? NULL : __libc_realloc(block, size); }

void *memalign(size_t alignment, size_t size) { return is_refused() ? NULL : __libc_memalign(alignment, size); }

void *aligned_alloc(size_t alignment, size_t size) { return memalign(alignment, size); }

int posix_memalign(void **block, size_t alignment, size_t size) {
  void *found = memalign(alignment, size);
  if (found == NULL) return ENOMEM;
  *block = found;
  return 0;
}

__attribute__((destructor)) static void end(void) {
  const char *file = getenv("REFUSE_REPORT");
  char text[2 * 21 + 1];
  int length = snprintf(text, sizeof text, "%lu %lu\n", requests, refused);
  int target = file == NULL ? -1 : open(file, O_WRONLY | O_CREAT | O_TRUNC, 0666);
  if (target < 0) return;
  if (write(target, text, (size_t)length) < 0) _exit(125);
  close(target);
}
