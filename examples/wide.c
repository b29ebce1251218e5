/* The blocks of a batch in f64, by the C entry points. Their floats are taken over as doubles, and of each block are printed: its line, as `sheet64` has
   it; D, a distance with B turned as it is at first and its centre seen from that of A, then one at the moves' end from the cache that the first left: the
   answer, the cache and what is told; R, the roots of its 24 numbers. Doubles by their bits, any NaN as 7FF8000000000000. */
#include <inttypes.h>
#include <stdio.h>
#include <string.h>

#include "foldflake.h"

static uint32_t word(const uint8_t *at) { return at[0] | (uint32_t)at[1] << 8 | (uint32_t)at[2] << 16 | (uint32_t)at[3] << 24; }

static void take_over(const uint8_t *at, size_t n, double *out) {
  for (size_t i = 0; i < n; i++) {
    uint32_t bits = word(at + 4 * i);
    float x;
    memcpy(&x, &bits, 4);
    out[i] = x;
  }
}

static void tell(const double *numbers, size_t n) {
  for (size_t i = 0; i < n; i++) {
    uint64_t bits;
    memcpy(&bits, &numbers[i], 8);
    printf(" %016" PRIX64, numbers[i] != numbers[i] ? UINT64_C(0x7FF8000000000000) : bits);
  }
}

static void work(unsigned long long number, const uint8_t *block) {
  double a[32], b[32], numbers[24], contact[5], roots[24];
  size_t in_a = 2u * block[4], in_b = 2u * block[5];
  uint32_t job = word(block), counts[7];
  take_over(block + 104, in_a, a);
  take_over(block + 232, in_b, b);
  take_over(block + 8, 24, numbers);

  uint32_t answer = foldflake_sweep64(a, in_a, b, in_b, numbers, 24, contact, 5, counts, 7);
  printf("%llu %" PRIu32, number, job);
  if (answer < 16) {
    printf(" %" PRIu32, answer);
  } else {
    printf(" 0 %c", "OHSF"[answer - FOLDFLAKE_SWEEP_OVERLAPPED]);
    tell(contact, 5);
    for (int i = 0; i < 7; i++) {
      if (counts[i] == FOLDFLAKE_NO_CORNER) printf(" -");
      else printf(" %" PRIu32, counts[i]);
    }
  }

  uint32_t cache[8] = {0};
  for (int last = 0; last < 2; last++) {
    const double *turn_b = numbers + 20 + 2 * last, *centre_a = numbers + 6 + 2 * last, *centre_b = centre_a + 10;
    const double pose[6] = {turn_b[0], turn_b[1], centre_b[0] - centre_a[0], centre_b[1] - centre_a[1], numbers[0], numbers[1]};
    double measured[7] = {0};
    answer = foldflake_distance64(a, in_a, b, in_b, pose, 6, 1, job, cache, 8, measured, 7);
    printf("\nD %" PRIu32, answer);
    for (int i = 0; i < 8; i++) printf(" %" PRIu32, cache[i]);
    tell(measured, 7);
  }

  for (int i = 0; i < 24; i++) roots[i] = foldflake_root64(numbers[i]);
  printf("\nR");
  tell(roots, 24);
  putchar('\n');
}

int main(void) {
  uint8_t block[512];
  char line[241];
  for (unsigned long long number = 1;; number++) {
    size_t got = fread(block, 1, 512, stdin);
    if (got < 512) {
      if (got != 0) printf("%llu 0 9\n", number);
      break;
    }
    unsigned refusal = 0;
    line[foldflake_line(number, block, 512, (uint8_t *)line, 240)] = 0;
    sscanf(line, "%*s %*s %u", &refusal);
    if (refusal >= 10) fputs(line, stdout); /* 10, 11 and 13 are about the block's bytes, whatever its floats are worked in */
    else work(number, block);
  }
  return ferror(stdin) || fflush(stdout) == EOF;
}
