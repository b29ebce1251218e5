/* The sheet of a batch by the C entry points: a line for each block of standard input, then TOTAL. What fails is told on standard error, with exit
   status 1 and no TOTAL; an argument with exit status 2. On standard error too, one distance, one sweep and one look at a
   whole move. */
#include <stdio.h>

#include "foldflake.h"

/* The status of a worked block, its fourth word; 0 for a refused one, whose third word is not 0. */
static int status(const char *line) {
  unsigned long long number, job;
  unsigned refusal = 1;
  char letter = 0;
  sscanf(line, "%llu %llu %u %c", &number, &job, &refusal, &letter);
  return refusal == 0 ? letter : 0;
}

/* Says that a call did not answer what this program is about. */
static int unexpected(const char *call, uint32_t answer) {
  fprintf(stderr, "%s: answer %u: %s\n", call, (unsigned)answer, foldflake_refusal(answer));
  return 0;
}

static int small_calls(void) {
  const float square[8] = {-1, -1, 1, -1, 1, 1, -1, 1};
  const float apart[6] = {1, 0, 4, 0, 0, 0};
  uint32_t cache[8] = {0};
  float measured[7];
  uint32_t answer = foldflake_distance(square, 8, square, 8, apart, 6, 0, 41, cache, 8, measured, 7);
  if (FOLDFLAKE_ENDING(answer) != FOLDFLAKE_DISTANCE_SETTLED) return unexpected("distance", FOLDFLAKE_ENDING(answer));
  fprintf(stderr, "distance: rounds %u, distance %g\n", FOLDFLAKE_ROUNDS(answer), measured[6]);

  const float moves[24] = {0, 0, 1, 0.01f, 0, 0, 0, 0, 4, 0, 1, 0, 1, 0, 0, 0, 4, 0, 4, 0, 1, 0, 1, 0};
  float contact[5];
  uint32_t counts[7];
  answer = foldflake_sweep(square, 8, square, 8, moves, 24, contact, 5, counts, 7);
  if (answer != FOLDFLAKE_SWEEP_HIT) return unexpected("sweep", answer);
  fprintf(stderr, "sweep: fraction %g, calls %u, corners of A %d %d, of B %d %d\n", contact[0], counts[0], (int)counts[3], (int)counts[4], (int)counts[5],
          (int)counts[6]);

  /* the same move turned by a quarter on the way, at every fraction of it */
  const float turns[24] = {0, 0, 1, 0.01f, 0, 0, 0, 0, 4, 0, 1, 0, 0, 1, 0, 0, 4, 0, 4, 0, 1, 0, 1, 0};
  float fractions[2];
  uint32_t pieces[1];
  answer = foldflake_clearance(square, 8, square, 8, turns, 24, 0, fractions, 2, pieces, 1);
  if (answer != FOLDFLAKE_CLEARANCE_TOUCH) return unexpected("clearance", answer);
  fprintf(stderr, "clearance: clear up to %.8g, within by %.8g, pieces %u\n", fractions[0], fractions[1], pieces[0]);
  return 1;
}

/* Says which of the two failed, by errno, which the failed call set. */
static int failed(const char *which) {
  perror(which);
  return 1;
}

int main(int argc, char **argv) {
  (void)argv;
  uint8_t block[512];
  char line[241];
  unsigned long long blocks = 0, clear = 0, contact = 0, undecided = 0, refused = 0;
  if (argc > 1) {
    fputs("sheet: no argument is taken\n", stderr);
    return 2;
  }
  for (;;) {
    size_t got = fread(block, 1, 512, stdin);
    if (ferror(stdin)) return failed("standard input");
    if (got == 0) break;
    blocks++;
    if (got < 512) { /* a rest of fewer than 512 bytes has no line of its own: refusal 9 */
      refused++;
      if (printf("%llu 0 9\n", blocks) < 0) return failed("standard output");
      break;
    }
    size_t n = foldflake_line(blocks, block, 512, (uint8_t *)line, 240);
    line[n] = 0;
    if (fputs(line, stdout) == EOF) return failed("standard output");
    int letter = status(line);
    if (letter == 0) refused++;
    else if (letter == 'S') clear++;
    else if (letter == 'F') undecided++;
    else contact++;
  }
  if (printf("TOTAL %llu %llu %llu %llu %llu\n", blocks, clear, contact, undecided, refused) < 0 || fflush(stdout) == EOF) return failed("standard output");
  return small_calls() ? 0 : 1;
}
