// Lets a trial call the functions of web/machine that compiled code calls.

typedef unsigned long long u64;
typedef unsigned __int128 u128;

struct tried {
  u64 is_there;
  void *block;
};

struct tried rattle_alloc(u64 bytes, u64 align);
struct tried rattle_realloc(void *taken, u64 kept, u64 bytes, u64 align);
void rattle_dealloc(void *taken);
u128 __multi3(u128 one, u128 other);
u128 __lshrti3(u128 number, int count);
u128 __ashlti3(u128 number, int count);

#define EXPORTED(name) __attribute__((export_name(#name)))

// Where a block is, or 0.
static u64 place(struct tried it) { return it.is_there ? (u64)it.block : 0; }

EXPORTED(take) u64 take(u64 bytes, u64 align) { return place(rattle_alloc(bytes, align)); }
EXPORTED(move) u64 move(u64 taken, u64 kept, u64 bytes, u64 align) {
  return place(rattle_realloc((void *)taken, kept, bytes, align));
}
EXPORTED(give) void give(u64 taken) { rattle_dealloc((void *)taken); }

static u64 result[2];

static u64 *told(u128 number) {
  result[0] = (u64)number;
  result[1] = (u64)(number >> 64);
  return result;
}

static u128 wide(u64 low, u64 high) { return (u128)high << 64 | low; }

// Each gives the place of the result's two halves, the lower one first.
EXPORTED(product) u64 *product(u64 low, u64 high, u64 other_low, u64 other_high) {
  return told(__multi3(wide(low, high), wide(other_low, other_high)));
}
EXPORTED(right) u64 *right(u64 low, u64 high, int count) { return told(__lshrti3(wide(low, high), count)); }
EXPORTED(left) u64 *left(u64 low, u64 high, int count) { return told(__ashlti3(wide(low, high), count)); }

// The linker keeps `main`, which a program has.
int main(void) { return 0; }
