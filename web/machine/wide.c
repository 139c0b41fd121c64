// Numbers of 128 bits, for which WebAssembly has no instructions: the compiler calls these functions by their names. Not proved;
// web/trials compares them with BigInt.

typedef unsigned long long u64;
typedef unsigned __int128 u128;

union wide {
  u128 all;
  struct {
    u64 low, high;
  };
};

static u128 from(u64 low, u64 high) {
  union wide it = {.low = low, .high = high};
  return it.all;
}

// `number` shifted to the right by `count`, which is below 128.
u128 __lshrti3(u128 number, int count) {
  union wide it = {.all = number};
  if (count == 0) return number;
  if (count >= 64) return from(it.high >> (count - 64), 0);
  return from(it.low >> count | it.high << (64 - count), it.high >> count);
}

// `number` shifted to the left by `count`, which is below 128.
u128 __ashlti3(u128 number, int count) {
  union wide it = {.all = number};
  if (count == 0) return number;
  if (count >= 64) return from(0, it.low << (count - 64));
  return from(it.low << count, it.high << count | it.low >> (64 - count));
}

// The product of two numbers of 64 bits.
static u128 product(u64 one, u64 other) {
  u64 one_low = (unsigned)one, one_high = one >> 32, other_low = (unsigned)other, other_high = other >> 32;
  u64 low = one_low * other_low, cross = one_high * other_low + (low >> 32);
  u64 crossed = one_low * other_high + (unsigned)cross;
  return from(crossed << 32 | (unsigned)low, one_high * other_high + (cross >> 32) + (crossed >> 32));
}

// The product, modulo 2^128.
u128 __multi3(u128 one, u128 other) {
  union wide left = {.all = one}, right = {.all = other}, it = {.all = product(left.low, right.low)};
  it.high += left.low * right.high + left.high * right.low;
  return it.all;
}
