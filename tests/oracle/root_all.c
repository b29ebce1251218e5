/* Compares foldflake_root with the processor's square root over all 2^32 patterns, all NaNs as one, and times both: calls that do not wait for one
   another, and calls each of which takes the answer of the one before. */
#include <stdint.h>
#include <stdio.h>
#include <string.h>
#include <time.h>

float foldflake_root(float x);

static float of(uint32_t b) { float x; memcpy(&x, &b, 4); return x; }
static uint32_t bits(float x) { uint32_t b; memcpy(&b, &x, 4); return x != x ? 0x7fc00000u : b; }

/* behind a call, as ours is */
__attribute__((noinline)) static float processor_root(float x) {
  float r;
#ifdef __x86_64__
  __asm__("sqrtss %1, %0" : "=x"(r) : "x"(x));
#else
  __asm__("fsqrt %s0, %s1" : "=w"(r) : "w"(x));
#endif
  return r;
}

static double now(void) {
  struct timespec t;
  clock_gettime(CLOCK_PROCESS_CPUTIME_ID, &t);
  return (double)t.tv_sec + 1e-9 * (double)t.tv_nsec;
}

static const uint32_t CALLS = 100000000u;

/* of numbers from 1 up to 4 */
static double apart(float (*root)(float)) {
  double start = now();
  float sum = 0;
  for (uint32_t i = 0; i < CALLS; i++) sum += root(of(0x3f800000u + i * 37u % 0x01000000u));
  if (sum < 0) puts("?");
  return now() - start;
}

/* of numbers from 1 up to 4: the root's last bits choose the next number's */
static double chained(float (*root)(float)) {
  double start = now();
  uint32_t b = 0x3f800000u;
  for (uint32_t i = 0; i < CALLS; i++) b = 0x3f800000u + (bits(root(of(b))) * 37u + i) % 0x01000000u;
  if (b == 0) puts("?");
  return now() - start;
}

static void tell(const char *what, double (*seconds)(float (*)(float))) {
  double ours = seconds(foldflake_root), theirs = seconds(processor_root);
  printf("%u roots, %s: ours %.2f s, the processor's %.2f s, ratio %.1f\n", CALLS, what, ours, theirs, ours / theirs);
}

int main(void) {
  uint64_t differ = 0, n = 0;
  do {
    float x = of((uint32_t)n);
    if (bits(foldflake_root(x)) != bits(processor_root(x)) && differ++ < 10) printf("differs at %08X\n", (uint32_t)n);
  } while (++n >> 32 == 0);
  printf("%llu patterns, %llu differ\n", (unsigned long long)n, (unsigned long long)differ);
  tell("apart", apart);
  tell("chained", chained);
  return differ != 0;
}
