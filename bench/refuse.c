/* Loaded before the C library (LD_PRELOAD), refuses one allocation of a program: the one whose number, from 1, is in the
   variable REFUSE (0: none). At the end the number of allocations is written to the file that REFUSE_TOLD names. */
#define _GNU_SOURCE
#include <dlfcn.h>
#include <errno.h>
#include <fcntl.h>
#include <stdio.h>
#include <stdlib.h>
#include <string.h>
#include <unistd.h>

extern void *__libc_malloc(size_t);
extern void *__libc_calloc(size_t, size_t);
extern void *__libc_realloc(void *, size_t);
extern void *__libc_memalign(size_t, size_t);

static unsigned long asked, refused;

/* Before `main`, the variables are read, and what was asked for so far isn't counted. */
__attribute__((constructor)) static void begin(void) {
  const char *number = getenv("REFUSE");
  refused = number ? strtoul(number, NULL, 10) : 0;
  asked = 0;
}

__attribute__((destructor)) static void end(void) {
  const char *name = getenv("REFUSE_TOLD");
  char text[32];
  int file = name ? open(name, O_WRONLY | O_CREAT | O_TRUNC, 0600) : -1;
  if (file < 0) return;
  refused = 0;
  int length = snprintf(text, sizeof text, "%lu\n", asked);
  if (write(file, text, length) != length) _exit(99);
  close(file);
}

static int is_refused(void) {
  asked += 1;
  if (refused == 0 || asked != refused) return 0;
  errno = ENOMEM;
  return 1;
}

void *malloc(size_t size) { return is_refused() ? NULL : __libc_malloc(size); }
void *calloc(size_t count, size_t size) { return is_refused() ? NULL : __libc_calloc(count, size); }
void *realloc(void *block, size_t size) { return is_refused() ? NULL : __libc_realloc(block, size); }
void *memalign(size_t bound, size_t size) { return is_refused() ? NULL : __libc_memalign(bound, size); }
void *aligned_alloc(size_t bound, size_t size) { return is_refused() ? NULL : __libc_memalign(bound, size); }

int posix_memalign(void **block, size_t bound, size_t size) {
  if (is_refused()) return ENOMEM;
  *block = __libc_memalign(bound, size);
  return *block ? 0 : ENOMEM;
}
