/* The runtime below the program where it runs as WebAssembly: memory, streams, arguments, the clock. There are no threads:
   pthread_create refuses, so a run is on one capability. What the page has to give is imported below, under `page`. The addresses are
   64 bits wide here, as the program has them, and are lowered to 32 behind the linker. */
typedef unsigned long word;
typedef long number;
typedef struct { word done, place; } answer;

#define PAGE(name) __attribute__((import_module("page"), import_name(#name))) extern
PAGE(write_piece) number write_piece(int stream, const char *from, number bytes);
PAGE(read_piece) number read_piece(int stream, char *into, number bytes);
PAGE(argument) number argument(number which, char *into, number bytes);
PAGE(milliseconds) double milliseconds(void);
PAGE(pause) void pause_for(double milliseconds);
PAGE(most_memory) double most_memory(void);
PAGE(end) void end_with(int status) __attribute__((noreturn));

/* Memory. Sizes have four steps between powers of two, with a list of free blocks for each, and the rest is taken from the end of the
   heap. Before a block stand its class and its size. Blocks are never joined: a call has a memory of its own, which ends with it. */
enum { CLASSES = 256, HEAD = 16, PAGE_BYTES = 65536 };
static const word MOST = 1ul << 40, SPARE = 16ul << 20;
extern char __heap_base;
static word heap_top, heap_end, heap_limit;
static void *free_blocks[CLASSES];

static word size_of(const void *block) { return ((const word *)block)[-1]; }
static word class_of(const void *block) { return ((const word *)block)[-2]; }

static word round_up(word bytes, word *class) {
  if (bytes < 16) bytes = 16;
  word step = 1ul << (61 - __builtin_clzl(bytes)), size = (bytes + step - 1) / step * step;
  int high = 63 - __builtin_clzl(size);
  *class = (word)(high * 4) + ((size >> (high - 2)) & 3);
  return size;
}

/* Makes sure that the heap reaches as far. */
static int reach(word end) {
  if (end <= heap_end) return 1;
  word wanted = end - heap_end > SPARE ? end - heap_end : SPARE, pages = (wanted + PAGE_BYTES - 1) / PAGE_BYTES;
  if (heap_end + pages * PAGE_BYTES > heap_limit) pages = (end - heap_end + PAGE_BYTES - 1) / PAGE_BYTES;
  if (heap_end + pages * PAGE_BYTES > heap_limit) return 0;
  /* Lowered to 32 bits a refusal is 0xffffffff without a sign, so the low half alone is looked at. */
  if ((int)__builtin_wasm_memory_grow(0, pages) == -1) return 0;
  heap_end = __builtin_wasm_memory_size(0) * (word)PAGE_BYTES;
  return 1;
}

void *malloc(word bytes) {
  word class;
  if (bytes > MOST) return 0;
  word size = round_up(bytes, &class);
  if (free_blocks[class]) {
    void *block = free_blocks[class];
    free_blocks[class] = *(void **)block;
    return block;
  }
  if (!heap_top) {
    heap_top = ((word)&__heap_base + 15) & ~15ul;
    heap_end = __builtin_wasm_memory_size(0) * (word)PAGE_BYTES;
    heap_limit = (word)most_memory();
  }
  word at = heap_top + HEAD, next = (at + size + 15) & ~15ul;
  if (!reach(next)) return 0;
  ((word *)at)[-1] = size;
  ((word *)at)[-2] = class;
  heap_top = next;
  return (void *)at;
}

void free(void *block) {
  if (!block) return;
  *(void **)block = free_blocks[class_of(block)];
  free_blocks[class_of(block)] = block;
}

/* The last block of the heap grows where it stands. */
static int grow_in_place(void *block, word bytes) {
  word class, end = ((word)block + size_of(block) + 15) & ~15ul;
  if (end != heap_top || bytes > MOST) return 0;
  word size = round_up(bytes, &class), next = ((word)block + size + 15) & ~15ul;
  if (!reach(next)) return 0;
  ((word *)block)[-1] = size;
  ((word *)block)[-2] = class;
  heap_top = next;
  return 1;
}

void *memcpy(void *into, const void *from, word bytes);

void *realloc(void *block, word bytes) {
  if (!block) return malloc(bytes);
  if (bytes <= size_of(block) || grow_in_place(block, bytes)) return block;
  void *larger = malloc(bytes);
  if (!larger) return 0;
  memcpy(larger, block, size_of(block));
  free(block);
  return larger;
}

/* As instructions of the machine; -fno-builtin keeps the compiler from making calls of these functions of them again. */
void *memcpy(void *into, const void *from, word bytes) {
  __asm__("local.get %0\nlocal.get %1\nlocal.get %2\nmemory.copy 0,0" ::"r"(into), "r"(from), "r"(bytes) : "memory");
  return into;
}
void *memmove(void *into, const void *from, word bytes) {
  __asm__("local.get %0\nlocal.get %1\nlocal.get %2\nmemory.copy 0,0" ::"r"(into), "r"(from), "r"(bytes) : "memory");
  return into;
}
void *memset(void *into, int byte, word bytes) {
  __asm__("local.get %0\nlocal.get %1\nlocal.get %2\nmemory.fill 0" ::"r"(into), "r"(byte), "r"(bytes) : "memory");
  return into;
}
int memcmp(const void *one, const void *other, word bytes) {
  const unsigned char *a = one, *b = other;
  for (word i = 0; i < bytes; i++) if (a[i] != b[i]) return a[i] < b[i] ? -1 : 1;
  return 0;
}

/* What the program's own library calls. An empty block has a place that isn't null. */
static answer told(void *block) { answer it = {block != 0, block ? (word)block : 16}; return it; }
answer rattle_alloc(word bytes, word align) { return told(malloc(bytes ? bytes : align)); }
answer rattle_realloc(void *block, word old, word bytes, word align) { (void)old; return told(realloc(block, bytes ? bytes : align)); }
void rattle_dealloc(void *block) { free(block); }

static int error_number;
void rattle_set_errno(int number) { error_number = number; }
int rattle_errno(void) { return error_number; }
number rattle_arg(number which, char *into, number bytes) { return argument(which, into, bytes); }
/* There is no environment. */
number rattle_env_at(number which, char *into, number bytes) { (void)which, (void)into, (void)bytes; return -1; }
number rattle_env(const char *key, char *into, number bytes) { (void)key, (void)into, (void)bytes; return -1; }

number write(int stream, const void *from, word bytes) { return write_piece(stream, from, (number)bytes); }
number read(int stream, void *into, word bytes) { return read_piece(stream, into, (number)bytes); }
int clock_gettime(int which, number *into) {
  double now = milliseconds();
  (void)which;
  into[0] = (number)(now / 1000);
  into[1] = (number)((now - (double)into[0] * 1000) * 1e6);
  return 0;
}
int nanosleep(const number *time, number *rest) {
  (void)rest;
  pause_for((double)time[0] * 1000 + (double)time[1] / 1e6);
  return 0;
}
void _exit(int status) { end_with(status); }
void abort(void) { end_with(134); }

/* No threads: 11 is EAGAIN, want of a thread. */
int pthread_create(void *thread, const void *how, void *(*what)(void *), void *with) {
  (void)thread, (void)how, (void)what, (void)with;
  return 11;
}
int pthread_attr_init(void *how) { (void)how; return 0; }
int pthread_attr_setguardsize(void *how, word bytes) { (void)how, (void)bytes; return 0; }
int pthread_attr_setstacksize(void *how, word bytes) { (void)how, (void)bytes; return 0; }
int pthread_attr_destroy(void *how) { (void)how; return 0; }
word pthread_self(void) { return 1; }
int sched_yield(void) { return 0; }
int pthread_detach(word thread) { (void)thread; return 0; }
int pthread_join(word thread, void *into) { (void)thread, (void)into; return 0; }
number syscall(number which, void *a, number b, number c, void *d, void *e) {
  (void)which, (void)a, (void)b, (void)c, (void)d, (void)e;
  return -1;
}
number __sysv_signal(int which, number what) { (void)which, (void)what; return 0; }

int main(void);
__attribute__((export_name("go"))) int go(void) { return main(); }

/* What the compiler calls for numbers of 128 bits. */
typedef __int128 wide;
typedef union { wide all; struct { word low; number high; } half; } halves;

wide __multi3(wide one, wide other) {
  halves a = {one}, b = {other}, product;
  word mask = 0xffffffffu, al = a.half.low & mask, ah = a.half.low >> 32, bl = b.half.low & mask, bh = b.half.low >> 32;
  word low = al * bl, first = al * bh, second = ah * bl, high = ah * bh, middle = (low >> 32) + (first & mask) + (second & mask);
  product.half.low = (low & mask) | (middle << 32);
  product.half.high = (number)(high + (first >> 32) + (second >> 32) + (middle >> 32) + (word)a.half.high * b.half.low +
                               a.half.low * (word)b.half.high);
  return product.all;
}
wide __ashlti3(wide of, int by) {
  halves a = {of}, moved;
  if (by == 0) return of;
  if (by & 64) { moved.half.low = 0; moved.half.high = (number)(a.half.low << (by - 64)); }
  else { moved.half.low = a.half.low << by; moved.half.high = (number)(((word)a.half.high << by) | (a.half.low >> (64 - by))); }
  return moved.all;
}
wide __lshrti3(wide of, int by) {
  halves a = {of}, moved;
  if (by == 0) return of;
  if (by & 64) { moved.half.high = 0; moved.half.low = (word)a.half.high >> (by - 64); }
  else { moved.half.high = (number)((word)a.half.high >> by); moved.half.low = (a.half.low >> by) | ((word)a.half.high << (64 - by)); }
  return moved.all;
}
wide __ashrti3(wide of, int by) {
  halves a = {of}, moved;
  if (by == 0) return of;
  if (by & 64) { moved.half.high = a.half.high >> 63; moved.half.low = (word)(a.half.high >> (by - 64)); }
  else { moved.half.high = a.half.high >> by; moved.half.low = (a.half.low >> by) | ((word)a.half.high << (64 - by)); }
  return moved.all;
}
