// The C library where the program runs in a page: a heap over the module's memory, and the functions
// that the program calls. Files, words and output are the page's: it supplies the imports of the module "page".
typedef unsigned long size;
typedef struct { long is_some; void *at; } allocation;
typedef unsigned __int128 wide;

#define FROM_PAGE(name) __attribute__((import_module("page"), import_name(name)))
FROM_PAGE("word") long page_word(size number, unsigned char *to, size room);
FROM_PAGE("open") int page_open(const char *name, size length, int flags);
FROM_PAGE("read") long page_read(int file, unsigned char *to, size length);
FROM_PAGE("write") long page_write(int file, const unsigned char *from, size length);
FROM_PAGE("close") int page_close(int file);

enum { NO_SEEK = 29, NO_SUCH_CALL = 38, GRAIN = 16, ORDERS = 40, PAGE = 65536, AT_ONCE = 256 };

// The heap: a block of order k has 16 * 2^k bytes and follows 16 bytes that hold k. The free blocks of an order
// are a list, and blocks are not joined.
extern unsigned char __heap_base;
static unsigned char *unused, *end;
static void *free_blocks[ORDERS];

static size block_size(size order) { return (size)GRAIN << order; }

static size order_of(size bytes) {
  size order = 0;
  while (order < ORDERS && block_size(order) < bytes) order++;
  return order;
}

static size *order_word(void *block) { return (size *)((unsigned char *)block - GRAIN); }

// Makes sure that so many bytes are unused, and says whether there are.
static int has_unused(size bytes) {
  if (!unused) {
    unused = (unsigned char *)(((size)&__heap_base + GRAIN - 1) & ~(size)(GRAIN - 1));
    end = (unsigned char *)(__builtin_wasm_memory_size(0) * PAGE);
  }
  if ((size)(end - unused) >= bytes) return 1;
  size pages = (bytes - (size)(end - unused) + PAGE - 1) / PAGE;
  if (pages < AT_ONCE && __builtin_wasm_memory_grow(0, AT_ONCE) != (size)-1) pages = AT_ONCE;
  else if (__builtin_wasm_memory_grow(0, pages) == (size)-1) return 0;
  end += pages * PAGE;
  return 1;
}

static void *taken(size bytes) {
  size order = order_of(bytes);
  if (order == ORDERS) return 0;
  void *block = free_blocks[order];
  if (block) {
    free_blocks[order] = *(void **)block;
    return block;
  }
  if (!has_unused(block_size(order) + GRAIN)) return 0;
  block = unused + GRAIN;
  *order_word(block) = order;
  unused += block_size(order) + GRAIN;
  return block;
}

static void given_back(void *block) {
  size order = *order_word(block);
  *(void **)block = free_blocks[order];
  free_blocks[order] = block;
}

allocation rattle_alloc(size bytes, size alignment) {
  void *block = alignment <= GRAIN ? taken(bytes) : 0;
  return (allocation){block != 0, block};
}

void rattle_dealloc(void *block) {
  if (block) given_back(block);
}

allocation rattle_realloc(void *block, size kept, size bytes, size alignment) {
  if (bytes <= block_size(*order_word(block))) return (allocation){1, block};
  void *other = alignment <= GRAIN ? taken(bytes) : 0;
  if (!other) return (allocation){0, block};
  __builtin_memcpy(other, block, kept < bytes ? kept : bytes);
  given_back(block);
  return (allocation){1, other};
}

// Errors: the page answers with the negative number of the error, the C library with -1 and the number apart.
static int error;
int rattle_errno(void) { return error; }
void rattle_set_errno(int number) { error = number; }

static long answered(long answer) {
  if (answer >= 0) return answer;
  error = -answer;
  return -1;
}

// Files and words.
long read(int file, unsigned char *to, size length) { return answered(page_read(file, to, length)); }
long write(int file, const unsigned char *from, size length) { return answered(page_write(file, from, length)); }
long __write(int file, const unsigned char *from, size length) { return write(file, from, length); }
int close(int file) { return answered(page_close(file)); }

int open(const char *name, int flags, ...) {
  size length = 0;
  while (name[length]) length++;
  return answered(page_open(name, length, flags));
}

long lseek(int file, long to, int from) {
  error = NO_SEEK;
  return -1;
}

// The page has names and texts, and nothing else of a file system: no folders, links, owners, modes or disk. The
// program writes a file in place if it cannot learn what the file is.
static int unknown(void) {
  error = NO_SUCH_CALL;
  return -1;
}

int statx(int folder, const char *name, int flags, unsigned mask, void *to) { return unknown(); }
long readlink(const char *name, char *to, size room) { return unknown(); }
int chown(const char *name, unsigned owner, unsigned group) { return unknown(); }
int fchmod(int file, unsigned mode) { return unknown(); }
int ftruncate(int file, long length) { return unknown(); }
int fsync(int file) { return unknown(); }
int fdatasync(int file) { return unknown(); }
int flock(int file, int operation) { return unknown(); }
int rename(const char *old, const char *new) { return unknown(); }
int unlink(const char *name) { return unknown(); }

long rattle_arg(size number, unsigned char *to, size room) { return page_word(number, to, room); }

// There is no environment, there are no signals, and errors have no texts.
long rattle_env(void *name, unsigned char *to, size room) { return -1; }
long rattle_env_at(size number, unsigned char *to, size room) { return -1; }
long __sysv_signal(int number, long handler) { return 0; }

int __xpg_strerror_r(int number, char *to, size room) {
  if (room) *to = 0;
  return 0;
}

// The product of two numbers of 128 bits, modulo 2^128, which the compiler calls.
wide __multi3(wide a, wide b) {
  size a_low = a, a_high = a >> 64, b_low = b, b_high = b >> 64, half = 0xffffffff;
  size low = (a_low & half) * (b_low & half);
  size middle = (a_low >> 32) * (b_low & half) + (low >> 32);
  size other = (a_low & half) * (b_low >> 32) + (middle & half);
  size high = (a_low >> 32) * (b_low >> 32) + (middle >> 32) + (other >> 32);
  high += a_low * b_high + a_high * b_low;
  return (wide)high << 64 | (other << 32 | (low & half));
}

// Before its main the program asks whether the processor has what it was compiled for. This code is for another one.
static unsigned every_feature[8] = {-1, -1, -1, -1, -1, -1, -1, -1};
unsigned *__x86_get_cpuid_feature_leaf(int number) { return every_feature; }
