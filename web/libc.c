// What the program asks of a C library, for WebAssembly: a heap, files and streams by the host, its words. Nothing
// here is proved.
typedef unsigned char u8;
typedef unsigned long long u64;
typedef long long i64;
typedef unsigned __int128 u128;

#define IMPORT(name) __attribute__((import_module("host"), import_name(#name)))
#define EXPORT(name) __attribute__((export_name(#name)))

// The host's calls answer -1 where a native call would fail.
IMPORT(open) extern int host_open(const char *path, u64 length);
IMPORT(pread) extern i64 host_pread(int file, u8 *to, u64 count, u64 at);
IMPORT(write) extern i64 host_write(int stream, const u8 *from, u64 count);
IMPORT(arg) extern i64 host_arg(u64 number, u8 *to, u64 room);

enum { NO_SUCH_FILE = 2, INPUT_OUTPUT = 5 };
static int error;

int rattle_errno(void) { return error; }
void rattle_set_errno(int value) { error = value; }

int open(const char *path, int flags, ...) {
  u64 length = 0;
  while (path[length]) length++;
  int file = host_open(path, length);
  if (file < 0) error = NO_SUCH_FILE;
  return file;
}

i64 pread(int file, u8 *to, u64 count, u64 at) {
  i64 got = host_pread(file, to, count, at);
  if (got < 0) error = INPUT_OUTPUT;
  return got;
}

i64 write(int stream, const u8 *from, u64 count) {
  i64 put = host_write(stream, from, count);
  if (put < 0) error = INPUT_OUTPUT;
  return put;
}

int close(int file) { return 0; }

// The length of a word, -1 where there is none, -2 where it does not fit. There is no environment.
i64 rattle_arg(u64 number, u8 *to, u64 room) { return host_arg(number, to, room); }
i64 rattle_env(const char *name, u8 *to, u64 room) { return -1; }
i64 rattle_env_at(u64 number, u8 *to, u64 room) { return -1; }
int __xpg_strerror_r(int value, char *to, u64 room) { return 22; }

// ---- the heap: blocks of powers of two, a list of free ones for each power

enum { HEADER = 16, LEAST_POWER = 5, POWERS = 32, PAGE = 65536 };
struct Block {
  u64 power, unused;
  // In a block that is free.
  struct Block *next;
};
extern u8 __heap_base;
static struct Block *free_blocks[POWERS];
static u64 top;

// Whether memory reaches to `end`: it is doubled where that can be had, and else grown by what is needed.
static int reaches(u64 end) {
  u64 pages = __builtin_wasm_memory_size(0), needed = (end + PAGE - 1) / PAGE;
  if (needed <= pages) return 1;
  u64 more = needed - pages;
  if (more < pages && __builtin_wasm_memory_grow(0, pages) != (unsigned long)-1) return 1;
  return needed <= PAGE && __builtin_wasm_memory_grow(0, more) != (unsigned long)-1;
}

static u8 *take(u64 size) {
  int power = LEAST_POWER;
  while ((1ull << power) < size + HEADER)
    if (++power == POWERS) return 0;
  struct Block *block = free_blocks[power];
  if (block) {
    free_blocks[power] = block->next;
    return (u8 *)block + HEADER;
  }
  if (!top) top = ((u64)(unsigned long)&__heap_base + 15) & ~15ull;
  if (!reaches(top + (1ull << power))) return 0;
  block = (struct Block *)(unsigned long)top;
  top += 1ull << power;
  block->power = power;
  return (u8 *)block + HEADER;
}

static struct Block *block_of(u8 *place) { return (struct Block *)(place - HEADER); }

// A block of no bytes has this place.
static u8 *const NOTHING = (u8 *)HEADER;

struct Tried {
  u64 is_had, place;
};

struct Tried rattle_alloc(u64 size, u64 align) {
  u8 *place = align > HEADER ? 0 : size ? take(size) : NOTHING;
  return (struct Tried){place != 0, (unsigned long)place};
}

void rattle_dealloc(u8 *place) {
  if (place <= NOTHING) return;
  struct Block *block = block_of(place);
  block->next = free_blocks[block->power];
  free_blocks[block->power] = block;
}

struct Tried rattle_realloc(u8 *place, u64 kept, u64 size, u64 align) {
  struct Tried tried = {1, (unsigned long)place};
  if (place > NOTHING && size + HEADER <= 1ull << block_of(place)->power) return tried;
  tried = rattle_alloc(size, align);
  if (!tried.is_had) return tried;
  __builtin_memcpy((u8 *)(unsigned long)tried.place, place, kept < size ? kept : size);
  rattle_dealloc(place);
  return tried;
}

// ---- what the compiler calls

typedef u64 __attribute__((aligned(1), may_alias)) word;

void *memcpy(void *to, const void *from, unsigned long count) {
  u8 *a = to;
  const u8 *b = from;
  for (; count >= 8; count -= 8, a += 8, b += 8) *(word *)a = *(const word *)b;
  while (count--) *a++ = *b++;
  return to;
}

void *memmove(void *to, const void *from, unsigned long count) {
  u8 *a = to;
  const u8 *b = from;
  if (a <= b || a >= b + count) return memcpy(to, from, count);
  for (; count >= 8; count -= 8) *(word *)(a + count - 8) = *(const word *)(b + count - 8);
  while (count--) a[count] = b[count];
  return to;
}

void *memset(void *to, int byte, unsigned long count) {
  u8 *a = to;
  u64 eight = (u8)byte * 0x0101010101010101ull;
  for (; count >= 8; count -= 8, a += 8) *(word *)a = eight;
  while (count--) *a++ = byte;
  return to;
}

union Wide {
  u128 whole;
  u64 half[2];
};

static u128 joined(u64 high, u64 low) { return ((union Wide){.half = {low, high}}).whole; }

u128 __multi3(u128 x, u128 y) {
  union Wide a = {x}, b = {y};
  u64 a0 = a.half[0] & 0xffffffff, a1 = a.half[0] >> 32, b0 = b.half[0] & 0xffffffff, b1 = b.half[0] >> 32;
  u64 low = a0 * b0, cross = a1 * b0 + (low >> 32), more = a0 * b1 + (cross & 0xffffffff);
  u64 high = a1 * b1 + (cross >> 32) + (more >> 32);
  return joined(high + a.half[1] * b.half[0] + a.half[0] * b.half[1], more << 32 | (low & 0xffffffff));
}

u128 __ashlti3(u128 x, int by) {
  union Wide a = {x};
  if (by == 0) return x;
  if (by >= 64) return joined(a.half[0] << (by - 64), 0);
  return joined(a.half[1] << by | a.half[0] >> (64 - by), a.half[0] << by);
}

u128 __lshrti3(u128 x, int by) {
  union Wide a = {x};
  if (by == 0) return x;
  if (by >= 64) return joined(0, a.half[1] >> (by - 64));
  return joined(a.half[1] >> by, a.half[0] >> by | a.half[1] << (64 - by));
}

extern int sancus_main(void);
EXPORT(run) int run(void) { return sancus_main(); }
