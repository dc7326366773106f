/* One call for memory fails, and no other: cc -shared -fPIC -O2 -o fail_alloc.so fail_alloc.c, then
   FAIL_ALLOC=n LD_PRELOAD=./fail_alloc.so PROGRAM ..

   Calls count from 1. The failing one puts a byte into the file descriptor FAIL_ALLOC_TOLD, where that is set. With n = 0 none
   fails, and at the end the number of calls goes there in decimal. */
#define _GNU_SOURCE
#include <errno.h>
#include <stddef.h>
#include <stdio.h>
#include <stdlib.h>
#include <unistd.h>

extern void *__libc_malloc(size_t);
extern void *__libc_calloc(size_t, size_t);
extern void *__libc_realloc(void *, size_t);
extern void *__libc_memalign(size_t, size_t);

static unsigned long calls, failing;
static int told = -1, is_ready;

static unsigned long number(const char *name, unsigned long other) {
  const char *text = getenv(name);
  unsigned long n = 0;
  if (text == NULL) return other;
  for (; *text >= '0' && *text <= '9'; text++) n = 10 * n + (unsigned long)(*text - '0');
  return n;
}

static void begin(void) {
  is_ready = 1;
  failing = number("FAIL_ALLOC", 0);
  told = (int)number("FAIL_ALLOC_TOLD", (unsigned long)-1);
}

static int fails(void) {
  if (!is_ready) begin();
  calls++;
  if (calls != failing) return 0;
  if (told >= 0 && write(told, "!", 1) < 0) _exit(99);
  errno = ENOMEM;
  return 1;
}

__attribute__((destructor)) static void end(void) {
  char text[32];
  int length;
  if (!is_ready) begin();
  if (failing != 0 || told < 0) return;
  length = snprintf(text, sizeof text, "%lu", calls);
  if (write(told, text, (size_t)length) < 0) _exit(99);
}

void *malloc(size_t size) { return fails() ? NULL : __libc_malloc(size); }

void *calloc(size_t count, size_t size) { return fails() ? NULL : __libc_calloc(count, size); }

void *realloc(void *old, size_t size) { return fails() ? NULL : __libc_realloc(old, size); }

void *memalign(size_t align, size_t size) { return fails() ? NULL : __libc_memalign(align, size); }

void *aligned_alloc(size_t align, size_t size) { return fails() ? NULL : __libc_memalign(align, size); }

int posix_memalign(void **to, size_t align, size_t size) {
  void *got = fails() ? NULL : __libc_memalign(align, size);
  if (got == NULL) return ENOMEM;
  *to = got;
  return 0;
}
