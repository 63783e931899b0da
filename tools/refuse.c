/* Preloaded into a program, it refuses allocations by their number, counted from 1 over all threads. Its two words in the
   environment: REFUSE is N, for the N-th alone, or N.., for each from the N-th on; REFUSE_COUNT names a file in which the count
   stands, as a 64-bit number, however the program ends. */

#define _GNU_SOURCE
#include <errno.h>
#include <fcntl.h>
#include <stdatomic.h>
#include <stddef.h>
#include <stdint.h>
#include <stdlib.h>
#include <string.h>
#include <sys/mman.h>
#include <unistd.h>

extern void *__libc_malloc(size_t);
extern void *__libc_calloc(size_t, size_t);
extern void *__libc_realloc(void *, size_t);
extern void *__libc_memalign(size_t, size_t);

static _Atomic uint64_t before;
static _Atomic uint64_t *count = &before;
static uint64_t first, last;

/* Also what was allocated before it is counted. */
__attribute__((constructor)) static void begin(void) {
  const char *refuse = getenv("REFUSE"), *path = getenv("REFUSE_COUNT");
  if (path) {
    int file = open(path, O_RDWR);
    void *at = file < 0 ? MAP_FAILED : mmap(NULL, sizeof *count, PROT_READ | PROT_WRITE, MAP_SHARED, file, 0);
    if (at == MAP_FAILED) {
      _exit(125);
    }
    close(file);
    count = at;
    atomic_store(count, atomic_load(&before));
  }
  if (refuse) {
    first = strtoull(refuse, NULL, 10);
    last = strstr(refuse, "..") ? UINT64_MAX : first;
  }
}

static int is_refused(void) {
  uint64_t number = atomic_fetch_add(count, 1) + 1;
  return first <= number && number <= last;
}

void *malloc(size_t size) {
  if (is_refused()) {
    errno = ENOMEM;
    return NULL;
  }
  return __libc_malloc(size);
}

void *calloc(size_t items, size_t size) {
  if (is_refused()) {
    errno = ENOMEM;
    return NULL;
  }
  return __libc_calloc(items, size);
}

void *realloc(void *old, size_t size) {
  if (is_refused()) {
    errno = ENOMEM;
    return NULL;
  }
  return __libc_realloc(old, size);
}

void *memalign(size_t align, size_t size) {
  if (is_refused()) {
    errno = ENOMEM;
    return NULL;
  }
  return __libc_memalign(align, size);
}

void *aligned_alloc(size_t align, size_t size) {
  return memalign(align, size);
}

int posix_memalign(void **to, size_t align, size_t size) {
  void *made = is_refused() ? NULL : __libc_memalign(align, size);
  if (made) {
    *to = made;
  }
  return made ? 0 : ENOMEM;
}
