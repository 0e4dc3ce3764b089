/*
 * Makes the allocation with the number REFUSE_AT fail (from 1; 0 for none), and with REFUSE_ALL
 * each later one too. Both are environment variables. It is preloaded (LD_PRELOAD) into a program
 * that is linked to the C library. At the program's end it writes the number of allocations to the
 * file REFUSE_COUNT.
 */
#define _GNU_SOURCE
#include <dlfcn.h>
#include <errno.h>
#include <fcntl.h>
#include <stdio.h>
#include <stdlib.h>
#include <string.h>
#include <unistd.h>

extern void *__libc_malloc(size_t);
extern void *__libc_calloc(size_t, size_t);
extern void *__libc_realloc(void *, size_t);
extern void *__libc_memalign(size_t, size_t);

static unsigned long asked;
static unsigned long refused_at;
static int refuses_all;
static int is_ready;

static int is_refused(void) {
  if (!is_ready) return 0;
  asked += 1;
  if (refused_at == 0 || asked < refused_at) return 0;
  if (asked > refused_at && !refuses_all) return 0;
  errno = ENOMEM;
  return 1;
}

void *malloc(size_t size) { return is_refused() ? NULL : __libc_malloc(size); }

void *calloc(size_t count, size_t size) { return is_refused() ? NULL : __libc_calloc(count, size); }

void *realloc(void *old, size_t size) { return is_refused() ? NULL : __libc_realloc(old, size); }

void *memalign(size_t align, size_t size) { return is_refused() ? NULL : __libc_memalign(align, size); }

void *aligned_alloc(size_t align, size_t size) { return memalign(align, size); }

int posix_memalign(void **made, size_t align, size_t size) {
  void *at = memalign(align, size);
  if (at == NULL) return ENOMEM;
  *made = at;
  return 0;
}

__attribute__((constructor)) static void begin(void) {
  const char *at = getenv("REFUSE_AT");
  refused_at = at == NULL ? 0 : strtoul(at, NULL, 10);
  refuses_all = getenv("REFUSE_ALL") != NULL;
  is_ready = 1;
}

__attribute__((destructor)) static void end(void) {
  const char *path = getenv("REFUSE_COUNT");
  is_ready = 0;
  if (path == NULL) return;
  int file = open(path, O_WRONLY | O_CREAT | O_TRUNC, 0600);
  if (file < 0) return;
  char text[32];
  int length = snprintf(text, sizeof text, "%lu\n", asked);
  if (write(file, text, (size_t)length) < 0) _exit(3);
  close(file);
}
