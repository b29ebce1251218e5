/* Compares foldflake_root64 with the processor's square root, all NaNs as one: of every exponent and either sign, subnormals of every length, numbers
   whose root lies halfway between two floats but for a little, and squares with their neighbours. Then times both. */
#include <stdint.h>
#include <stdio.h>
#include <string.h>
#include <time.h>

double foldflake_root64(double x);

static double of(uint64_t b) { double x; memcpy(&x, &b, 8); return x; }
static uint64_t bits(double x) { uint64_t b; memcpy(&b, &x, 8); return x != x ? 0x7ff8000000000000u : b; }

/* behind a call, as ours is */
__attribute__((noinline)) static double processor_root(double x) {
  double r;
#ifdef __x86_64__
  __asm__("sqrtsd %1, %0" : "=x"(r) : "x"(x));
#else
  __asm__("fsqrt %d0, %d1" : "=w"(r) : "w"(x));
#endif
  return r;
}

static uint64_t seed = 1;

static uint64_t any(void) {
  uint64_t z = seed += 0x9e3779b97f4a7c15u;
  z = (z ^ z >> 30) * 0xbf58476d1ce4e5b9u;
  z = (z ^ z >> 27) * 0x94d049bb133111ebu;
  return z ^ z >> 31;
}

static uint64_t run, wrong;

static void try(uint64_t b) {
  double x = of(b);
  run++;
  if (bits(foldflake_root64(x)) != bits(processor_root(x)) && wrong++ < 10) printf("differs at %016llX\n", (unsigned long long)b);
}

static void told(const char *what) {
  static uint64_t before;
  printf("%s: %llu patterns\n", what, (unsigned long long)(run - before));
  before = run;
}

static const uint64_t FRACTION = 0xfffffffffffffu;

/* a number of 53 digits times an even power of 2, and 2^left */
static uint64_t placed(uint64_t digits, unsigned left) { return (1 + any() % 1022 * 2 + left % 2) << 52 | (digits & FRACTION); }

/* Of each odd number y of 54 digits whose square is c above a multiple of 2^left, that multiple: its root is just beside y, which lies halfway between two
   numbers of 53 digits. c is 1 above a multiple of 8, and one y is found digit by digit. */
static void halfway(unsigned left, uint64_t c) {
  uint64_t y = 1;
  for (unsigned k = 3; k < left; k++)
    if ((y * y - c) >> k & 1) y += 1ull << (k - 1);
  for (unsigned other = 0; other < 4; other++) {
    uint64_t z = (other & 1 ? -y : y) + (other & 2 ? 1ull << (left - 1) : 0);
    z &= (1ull << left) - 1;
    unsigned __int128 multiple = (unsigned __int128)z * z - (unsigned __int128)(__int128)(int64_t)c;
    uint64_t digits = (uint64_t)(multiple >> left);
    if (z >> 53 != 1 || multiple >> (left + 52) != 1) continue;
    for (uint64_t step = 0; step < 3; step++) try(placed(digits, left) + step - 1);
    try(placed(digits, left));
  }
}

static const uint32_t CALLS = 100000000u;

/* of numbers from 1 up to 4 */
static double apart(double (*root)(double)) {
  clock_t start = clock();
  double sum = 0;
  for (uint32_t i = 0; i < CALLS; i++) sum += root(of(0x3ff0000000000000u + i * 0x9e3779b97f4a7c15u % 0x20000000000000u));
  if (sum < 0) puts("?");
  return (double)(clock() - start) / CLOCKS_PER_SEC;
}

int main(void) {
  static const uint64_t SPECIAL[] = {0, 1, FRACTION, FRACTION + 1, 0x3ff0000000000000u, 0x4010000000000000u, 0x7fefffffffffffffu, 0x7ff0000000000000u};
  for (unsigned i = 0; i < sizeof SPECIAL / sizeof *SPECIAL; i++)
    for (uint64_t step = 0; step < 5; step++)
      for (uint64_t sign = 0; sign < 2; sign++) try(SPECIAL[i] + step - 2 + (sign << 63));
  told("special values and their neighbours");
  for (uint64_t exponent = 0; exponent < 4096; exponent++)
    for (unsigned i = 0; i < (exponent < 2048 ? 20000 : 100); i++) try(exponent << 52 | (any() & FRACTION));
  told("every exponent and sign");
  for (unsigned length = 1; length <= 52; length++)
    for (unsigned i = 0; i < 200000; i++) try(1ull << (length - 1) | (any() & ((1ull << (length - 1)) - 1)));
  told("subnormals of every length");
  for (unsigned i = 0; i < 10000000; i++) {
    /* an odd number of 54 digits is twice a halfway point */
    uint64_t twice = 1ull << 53 | any() >> 11 | 1;
    unsigned __int128 square = (unsigned __int128)twice * twice;
    unsigned left = square >> 107 ? 55 : 54;
    uint64_t digits = (uint64_t)(square >> left);
    for (uint64_t step = 0; step < 2; step++) try(placed(digits, left) + step);
  }
  told("either side of halfway");
  for (int64_t i = -2000000; i < 2000000; i++)
    for (unsigned left = 54; left <= 55; left++) halfway(left, (uint64_t)(8 * i + 1));
  told("as near to halfway as there are");
  for (unsigned i = 0; i < 3000000; i++) {
    uint64_t n = (any() >> 38) + 1, b = bits((double)(n * n)) + (any() % 500 << 53);
    for (uint64_t step = 0; step < 3; step++) try(b + step - 1);
  }
  told("squares and their neighbours");
  printf("%llu patterns, %llu differ\n", (unsigned long long)run, (unsigned long long)wrong);
  double ours = apart(foldflake_root64), theirs = apart(processor_root);
  printf("%u roots: ours %.2f s, the processor's %.2f s, ratio %.1f\n", CALLS, ours, theirs, ours / theirs);
  return wrong != 0;
}
