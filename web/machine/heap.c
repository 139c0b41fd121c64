// The heap of a program in the page: what malloc, realloc and free are to the same program on Linux. Not proved; web/trials
// tries it beside a model.
//
// Memory grows by pages as it is taken. A block has a header of 16 bytes, with the number of its size, and then 16, 32, 48 or 64 bytes,
// or 5, 6, 7 or 8 times a power of two: so at most a fifth of a block is waste. A block that is given back waits, in a list for its
// size, for the next that is as large, and no block is ever parted. The last one grows and is given back in place.

typedef unsigned long long u64;
typedef unsigned char u8;

// What the toolchain's library expects: whether there was memory, and where.
struct tried {
  u64 is_there;
  void *block;
};

struct header {
  u64 size;
  struct header *next;
};

enum { PAGE = 65536, SIZES = 4 * 44 };
// No block is larger: the memory of a program ends far below.
#define LARGEST (1ULL << 40)

extern u8 __heap_base;
static u8 *top, *end;
static struct header *waiting[SIZES];
static u64 nothing;

// The number of the smallest size that has room for `wanted` bytes, which are at most LARGEST.
static u64 size_for(u64 wanted) {
  if (wanted <= 64) return wanted ? (wanted - 1) / 16 : 0;
  u64 shift = 61 - __builtin_clzll(wanted - 1);
  return 4 * (shift - 3) + ((wanted - 1) >> shift) - 4;
}

// How many bytes a block of this number has.
static u64 bytes_of(u64 size) {
  if (size < 4) return 16 * (size + 1);
  return (size % 4 + 5) << (size / 4 + 3);
}

// Whether memory is there up to `wanted`. Sixteen pages are taken at a time, where they are there.
static int reaches(u8 *wanted) {
  if (wanted <= end) return 1;
  u64 pages = ((u64)(wanted - end) + PAGE - 1) / PAGE, more = pages < 16 ? 16 : pages;
  if (__builtin_wasm_memory_grow(0, more) == (u64)-1 && __builtin_wasm_memory_grow(0, pages) == (u64)-1) return 0;
  end = (u8 *)(__builtin_wasm_memory_size(0) * PAGE);
  return 1;
}

static void *take(u64 wanted) {
  if (wanted > LARGEST) return 0;
  u64 size = size_for(wanted);
  struct header *block = waiting[size];
  if (block) {
    waiting[size] = block->next;
    return block + 1;
  }
  if (!top) {
    top = (u8 *)(((u64)&__heap_base + 15) & ~15ULL);
    end = (u8 *)(__builtin_wasm_memory_size(0) * PAGE);
  }
  u8 *after = top + sizeof(struct header) + bytes_of(size);
  if (!reaches(after)) return 0;
  block = (struct header *)top;
  block->size = size;
  top = after;
  return block + 1;
}

static void give(void *taken) {
  if (!taken) return;
  struct header *block = (struct header *)taken - 1;
  if ((u8 *)taken + bytes_of(block->size) == top) {
    top = (u8 *)block;
    return;
  }
  block->next = waiting[block->size];
  waiting[block->size] = block;
}

// Whether the block is the last one, and now has room for `wanted` bytes.
static int grows(struct header *block, u64 wanted) {
  if ((u8 *)(block + 1) + bytes_of(block->size) != top || wanted > LARGEST) return 0;
  u64 size = size_for(wanted);
  u8 *after = (u8 *)(block + 1) + bytes_of(size);
  if (!reaches(after)) return 0;
  block->size = size;
  top = after;
  return 1;
}

static struct tried tried(void *block) {
  return (struct tried){block != 0, block ? block : &nothing};
}

// A block of `bytes` bytes, which is aligned to 16; of `align` bytes where these are none.
struct tried rattle_alloc(u64 bytes, u64 align) { return tried(take(bytes ? bytes : align)); }

// The same bytes in a block of another length; `taken` is as it was where there is no memory.
struct tried rattle_realloc(void *taken, u64 kept, u64 bytes, u64 align) {
  u64 wanted = bytes ? bytes : align;
  struct header *block = (struct header *)taken - 1;
  u64 have = bytes_of(block->size);
  (void)kept;
  if (wanted <= have && 4 * wanted >= have) return tried(taken);
  if (wanted > have && grows(block, wanted)) return tried(taken);
  void *other = take(wanted);
  if (!other) return tried(wanted <= have ? taken : 0);
  __builtin_memcpy(other, taken, have < wanted ? have : wanted);
  give(taken);
  return tried(other);
}

void rattle_dealloc(void *taken) { give(taken); }
