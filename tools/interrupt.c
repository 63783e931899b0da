/* Preloaded into a program, it interrupts its reads and writes as a signal does: each call whose number, counted from 1 over both,
   isn't a multiple of INTERRUPT in the environment ends at once with EINTR, and nothing was read or written. */

#define _GNU_SOURCE
#include <errno.h>
#include <stdatomic.h>
#include <stdint.h>
#include <stdlib.h>
#include <sys/syscall.h>
#include <unistd.h>

static _Atomic uint64_t count;
static uint64_t every;

__attribute__((constructor)) static void begin(void) {
  const char *word = getenv("INTERRUPT");
  every = word ? strtoull(word, NULL, 10) : 1;
}

static int is_interrupted(void) {
  return every && (atomic_fetch_add(&count, 1) + 1) % every != 0;
}

ssize_t read(int file, void *bytes, size_t size) {
  if (is_interrupted()) {
    errno = EINTR;
    return -1;
  }
  return syscall(SYS_read, file, bytes, size);
}

ssize_t write(int file, const void *bytes, size_t size) {
  if (is_interrupted()) {
    errno = EINTR;
    return -1;
  }
  return syscall(SYS_write, file, bytes, size);
}
