// Intercepts the allocator of the C library (LD_PRELOAD), for tests/refusals.py. Counting allocations from 1, it refuses
// number REFUSE_AT, or each whose number is a multiple of REFUSE_EVERY, and writes REFUSED to standard error each time.
#define _GNU_SOURCE
#include <errno.h>
#include <stdatomic.h>
#include <stdlib.h>
#include <unistd.h>

extern void *__libc_malloc(size_t);
extern void *__libc_calloc(size_t, size_t);
extern void *__libc_realloc(void *, size_t);
extern void *__libc_memalign(size_t, size_t);

static atomic_long calls;
static long at, every;

__attribute__((constructor)) static void begin(void) {
  const char *a = getenv("REFUSE_AT"), *e = getenv("REFUSE_EVERY");
  at = a ? atol(a) : 0;
  every = e ? atol(e) : 0;
}

static int refuses(void) {
  static const char text[] = "REFUSED\n";
  long number = ++calls;
  if (!(at && number == at) && !(every && number % every == 0))
    return 0;
  ssize_t told = write(2, text, sizeof text - 1);
  (void)told;
  errno = ENOMEM;
  return 1;
}

void *malloc(size_t n) { return refuses() ? NULL : __libc_malloc(n); }
void *calloc(size_t n, size_t m) { return refuses() ? NULL : __libc_calloc(n, m); }
void *realloc(void *p, size_t n) { return refuses() ? NULL : __libc_realloc(p, n); }
void *aligned_alloc(size_t a, size_t n) { return refuses() ? NULL : __libc_memalign(a, n); }
void *memalign(size_t a, size_t n) { return refuses() ? NULL : __libc_memalign(a, n); }
int posix_memalign(void **p, size_t a, size_t n) {
  if (refuses())
    return ENOMEM;
  *p = __libc_memalign(a, n);
  return *p ? 0 : ENOMEM;
}
