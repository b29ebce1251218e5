/* Compares foldflake_plate with the rows of `oracle corners` on standard input: corner number, half sizes x y, corner x y, floats by their bits. */
#include <inttypes.h>
#include <stdio.h>
#include <string.h>

#include "foldflake.h"

static float of(uint32_t b) { float x; memcpy(&x, &b, 4); return x; }

int main(void) {
  uint32_t k, half_x, half_y, corner[2];
  unsigned long rows = 0, differ = 0;
  while (scanf("%" SCNu32 " %" SCNx32 " %" SCNx32 " %" SCNx32 " %" SCNx32, &k, &half_x, &half_y, &corner[0], &corner[1]) == 5) {
    float out[8];
    rows++;
    if (k < 4 && foldflake_plate(of(half_x), of(half_y), out, 8) == FOLDFLAKE_BUILT && memcmp(out + 2 * k, corner, 8) == 0) continue;
    if (differ++ < 10) printf("corner %" PRIu32 " of half sizes %08" PRIX32 " %08" PRIX32 " differs\n", k, half_x, half_y);
  }
  printf("%lu corners, %lu differ\n", rows, differ);
  return rows == 0 || differ != 0 || !feof(stdin);
}
