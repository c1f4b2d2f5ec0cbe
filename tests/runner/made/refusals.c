#include <stdlib.h>
#include <fcntl.h>
#include <unistd.h>
#include <errno.h>
#include <sys/syscall.h>
extern void *__libc_malloc(size_t); extern void *__libc_calloc(size_t, size_t); extern void *__libc_realloc(void *, size_t); extern void *__libc_memalign(size_t, size_t);
static long count, at = -1, after;
__attribute__((constructor)) static void begin(void) {
  char *a = getenv("REFUSE_AT"); count = 0; if (a) at = atol(a); after = getenv("REFUSE_AFTER") != 0; }
__attribute__((destructor)) static void end(void) {
  char *a = getenv("REFUSE_COUNT"), text[24]; int n = 24, f; long c = count; if (!a) return;
  do text[--n] = '0' + c % 10; while (c /= 10);
  f = open(a, O_WRONLY | O_CREAT | O_TRUNC, 0600); if (f >= 0) { if (write(f, text + n, 24 - n)) {} close(f); } }
void _exit(int status) { end(); for (;;) syscall(SYS_exit_group, status); }
static int refused(void) { long c = __sync_fetch_and_add(&count, 1); if (at >= 0 && (c == at || (after && c > at))) { errno = ENOMEM; return 1; } return 0; }
void *malloc(size_t n) { return refused() ? 0 : __libc_malloc(n); }
void *calloc(size_t n, size_t m) { return refused() ? 0 : __libc_calloc(n, m); }
void *realloc(void *p, size_t n) { return refused() ? 0 : __libc_realloc(p, n); }
void *memalign(size_t a, size_t n) { return refused() ? 0 : __libc_memalign(a, n); }
void *aligned_alloc(size_t a, size_t n) { return memalign(a, n); }
int posix_memalign(void **p, size_t a, size_t n) { void *q = memalign(a, n); if (!q) return ENOMEM; *p = q; return 0; }
