// Stands before the C library's malloc and realloc, and refuses the call whose number, from 1, the
// variable REFUSE names. At the end the number of all calls goes into the file that COUNT names.
#include <errno.h>
#include <fcntl.h>
#include <stdio.h>
#include <stdlib.h>
#include <unistd.h>

void *__libc_malloc(size_t);
void *__libc_realloc(void *, size_t);

static long calls;

static int is_refused(void) {
  const char *number = getenv("REFUSE");
  calls++;
  if (!number || atol(number) != calls) return 0;
  errno = ENOMEM;
  return 1;
}

void *malloc(size_t size) { return is_refused() ? 0 : __libc_malloc(size); }

void *realloc(void *block, size_t size) { return is_refused() ? 0 : __libc_realloc(block, size); }

__attribute__((destructor)) static void tell(void) {
  const char *name = getenv("COUNT");
  int file = name ? open(name, O_WRONLY | O_CREAT | O_TRUNC, 0600) : -1;
  if (file < 0) return;
  dprintf(file, "%ld\n", calls);
  close(file);
}
