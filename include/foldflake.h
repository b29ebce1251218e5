/* The entry points of libfoldflake.a, for C and C++ on x86-64 Linux; compiled as C99, C11 and C++17. docs/LIBRARY.md has them for Rust and Python too.

   Compile and link, in the repository, after `tools/staticlib.sh`:

     cc -std=c11 -Iinclude -o program program.c target/staticlib/libfoldflake.a

   and where `./foldflake install DIR` put everything into DIR:

     cc -std=c11 -o program program.c $(PKG_CONFIG_PATH=DIR/lib/pkgconfig pkg-config --cflags --libs foldflake)

   That takes DIR/lib/libfoldflake.so, where there is one: LD_LIBRARY_PATH=DIR/lib has it found when the program runs. With g++ -std=c++17 likewise. Nothing
   else is linked. A machine that is not x86-64 needs a compiler that writes for it, as x86_64-linux-gnu-gcc.

   Threads. The library keeps nothing from one call to the next and has no data that is written: a call reads the lists that it is handed, writes those that
   the text below says it writes, and besides uses its stack alone, less than 16 KiB of it. It takes no lock, asks for no memory, sets no errno. So calls may
   run in any number of threads at once, while a list that one call writes (out, counts, cache, where, pieces) is used by no other call or thread. Lists that
   are only read may be shared. A cache belongs to one thread at a time.

   Lists. Each list is a pointer to its first element and then how many elements it has. An outline is a list of numbers, x y x y .., so its length
   counts numbers and not points: a square has 8.

     const float square[8] = {-1, -1, 1, -1, 1, 1, -1, 1};
     const float numbers[6] = {1, 0, 4, 0, 0, 0};           B unturned, moved by (4, 0), no radii
     uint32_t cache[8] = {0};                               to be kept with this pair, number 41
     float out[7];
     uint32_t answer = foldflake_distance(square, 8, square, 8, numbers, 6, 0, 41, cache, 8, out, 7);
     if (FOLDFLAKE_ENDING(answer) == FOLDFLAKE_DISTANCE_SETTLED) printf("%g apart\n", out[6]);

   A list that is written may not overlap another. That apart, every call has an answer, whatever the lists hold.

   Answers. A number below 16 is a refusal, and of a route 16 and 17 too: docs/BATCH.md lists them, and foldflake_refusal has their texts. Each function has
   its own names for the other numbers. The builders answer from 32 on, as functions to come do, so that refusals may go up to 31.

   Floating point. The proofs are for the default environment: rounding to nearest, subnormal numbers kept (no flush-to-zero, no
   denormals-are-zero). A caller that changed it, as fesetround or a compiler's fast-math start-up code does, restores it around a call. */
#ifndef FOLDFLAKE_H
#define FOLDFLAKE_H

#include <stddef.h>
#include <stdint.h>

#ifdef __cplusplus
extern "C" {
#endif

/* The version of this header and of the library beside it. */
#define FOLDFLAKE_VERSION_MAJOR 1
#define FOLDFLAKE_VERSION_MINOR 0
#define FOLDFLAKE_VERSION_PATCH 0
#define FOLDFLAKE_VERSION "1.0.0"

/* A list has not the length that the function asks for: of foldflake_sweep and foldflake_distance, of a pose, a move, and what they are told into; of
   foldflake_route out, where, waypoints and lengths. */
enum { FOLDFLAKE_WRONG_LENGTH = 255 };

/* What foldflake_sweep answers. SEPARATED does not clear a move that turns, and FAILED is no verdict: see docs/SETTER.md. */
enum { FOLDFLAKE_SWEEP_OVERLAPPED = 16, FOLDFLAKE_SWEEP_HIT = 17, FOLDFLAKE_SWEEP_SEPARATED = 18, FOLDFLAKE_SWEEP_FAILED = 19 };

/* What foldflake_sweep tells in place of a corner where there is none. */
#define FOLDFLAKE_NO_CORNER UINT32_MAX

/* How foldflake_distance ends: FOLDFLAKE_ENDING of its answer. A refusal or a wrong length is its own ending, with no rounds. */
enum { FOLDFLAKE_DISTANCE_TOUCHING = 16, FOLDFLAKE_DISTANCE_SETTLED = 17, FOLDFLAKE_DISTANCE_ROUND_LIMIT = 18 };
#define FOLDFLAKE_ENDING(answer) ((answer) % 256u)
#define FOLDFLAKE_ROUNDS(answer) ((answer) / 256u)

/* The text of a refusal, never a null pointer. Of foldflake_distance it is foldflake_refusal(FOLDFLAKE_ENDING(answer)). A route and a sweep both have answers
   of 16 and 17: only of a route are these refusals. */
static inline const char *foldflake_refusal(uint32_t number) {
  switch (number) {
  case 1: return "outline A is empty, of odd length, or above 64 points";
  case 2: return "outline B is empty, of odd length, or above 64 points";
  case 3: return "a point's part or a half size is not finite or above 1048576 in size, or a half size is below 0";
  case 4: return "a radius is not finite, below 0 or above 1048576";
  case 5: return "a rotation is not a cosine and a sine";
  case 6: return "a translation or a centre is not finite or above 1048576 in size";
  case 7: return "a fraction is not in 0 to 1, or a look starts behind the max fraction";
  case 8: return "the slop is not above 0, above 1048576, or not a number";
  case 9: return "fewer than 512 bytes are left";
  case 10: return "the check is wrong";
  case 11: return "the job is 0, a count is outside 1 to 16, or a byte that must be zero is not";
  case 12: return "the cache is of another pair";
  case 13: return "the form is neither 0 nor 2";
  case 14: return "the line is no job, or none of a route";
  case 15: return "the lent list has no room for all corners";
  case 16: return "the route has fewer than 2 or more than 33 waypoints";
  case 17: return "the route has no still outline or more than 32";
  case FOLDFLAKE_WRONG_LENGTH: return "a list has not the length that is asked for";
  default: return "no refusal has this number";
  }
}

/* What the four builders of outlines answer where the corners were written. */
enum { FOLDFLAKE_BUILT = 32 };

/* What foldflake_pose and foldflake_gap answer where out was written. */
enum { FOLDFLAKE_TOLD = 32 };

/* What foldflake_route answers besides refusals. CLEAR is as much as SEPARATED of each sweep, and FAILED is no verdict. */
enum { FOLDFLAKE_ROUTE_CLEAR = 32, FOLDFLAKE_ROUTE_OVERLAPPED = 33, FOLDFLAKE_ROUTE_HIT = 34, FOLDFLAKE_ROUTE_FAILED = 35 };

/* What foldflake_clearance and foldflake_route_clearance answer besides refusals. Each says something of every fraction, and OPEN nothing of those after
   the first of its two. */
enum { FOLDFLAKE_CLEARANCE_CLEAR = 32, FOLDFLAKE_CLEARANCE_TOUCH = 33, FOLDFLAKE_CLEARANCE_OPEN = 34 };

/* The square root, rounded to nearest. */
float foldflake_root(float x);

/* The line of a block of 512 bytes, of either form, as block `number` of a file, newline included, at the start of out; the answer is its length. The
   answer is 0, and out as it was, where block_len is not 512, number is 0 or above 2^63, or out_len is below 240. */
size_t foldflake_line(uint64_t number, const uint8_t *block, size_t block_len, uint8_t *out, size_t out_len);

/* The sweep of two outlines.
   numbers, 24: radius of A, of B, max fraction, slop, then the move of A and of B: local centre x y, first centre x y, last centre x y, first
   rotation c s, last rotation c s (docs/GLOSSARY.md says what each is).
   out, 5: fraction, point x y, normal x y.
   counts, 7: distance calls, separation searches, root steps; then of the last search the corners that lie deepest along its axis, the lowest index
   and the highest whose value equals its, of A and of B; FOLDFLAKE_NO_CORNER twice for a side whose edge the axis is across, and four times where
   no search ran.
   The answer is a refusal, 1 to 8, or FOLDFLAKE_SWEEP_.., or FOLDFLAKE_WRONG_LENGTH. On a refusal or a wrong length out and counts are as they
   were. */
uint32_t foldflake_sweep(const float *points_a, size_t numbers_in_a, const float *points_b, size_t numbers_in_b, const float *numbers,
                         size_t numbers_len, float *out, size_t out_len, uint32_t *counts, size_t counts_len);

/* The distance of two outlines in the frame of A.
   numbers, 6: the rotation c s and the translation x y of B, radius of A, of B; the radii count where use_radii is not 0.
   pair: any number that the caller has for these two outlines, always the same one.
   cache, 8: the number of its pair, how many corner pairs, then three indices of A and three of B (of points, from 0); all 0 for a first call. A
   call that settles or runs out of rounds writes the number and the corner pairs; one that touches leaves all as it was.
   out, 7: point of A x y, point of B x y, normal x y, distance.
   The answer is a refusal, 1 to 6, or 12 where the cache has corner pairs under another number; or FOLDFLAKE_DISTANCE_.. plus 256 times the rounds;
   or first of all FOLDFLAKE_WRONG_LENGTH, also for a count in the cache above 255. On a refusal or a wrong length cache and out are as they were. */
uint32_t foldflake_distance(const float *points_a, size_t numbers_in_a, const float *points_b, size_t numbers_in_b, const float *numbers,
                            size_t numbers_len, uint32_t use_radii, uint32_t pair, uint32_t *cache, size_t cache_len, float *out, size_t out_len);

/* The same in f64: the same lists in the same order with double in the place of float, the same answers and refusals.
   Everything is worked in f64 from the first check on; EPSILON is 2^-52 in the place of 2^-23. The bounds of the domain are the same numbers, but c * c +
   s * s is rounded elsewhere: the rotation of the floats 3F800000 3E000003 passes in f32, and as doubles it is refused by 5.
   A float that is handed over as a double is the same number. If it was rounded to float before it stays so, and what was wanted, 0.1 say, is another
   double: work the lists out in double. A cache holds no float and serves both widths. */
double foldflake_root64(double x);
uint32_t foldflake_sweep64(const double *points_a, size_t numbers_in_a, const double *points_b, size_t numbers_in_b, const double *numbers,
                           size_t numbers_len, double *out, size_t out_len, uint32_t *counts, size_t counts_len);
uint32_t foldflake_distance64(const double *points_a, size_t numbers_in_a, const double *points_b, size_t numbers_in_b, const double *numbers,
                              size_t numbers_len, uint32_t use_radii, uint32_t pair, uint32_t *cache, size_t cache_len, double *out, size_t out_len);

/* Outlines without typing corners. The corners go to the front of out, x y each, and the rest of out stays as it was.

     float cart[8];
     if (foldflake_plate(6, 4, cart, 8) == FOLDFLAKE_BUILT) ..      12 by 8: (6, 4), (-6, 4), (6, -4), (-6, -4)

   A plate has four corners, 8 numbers, numbered from 0: corner k is (half_x, half_y), x negated where bit 0 of k is set, y where bit 1 is. Half
   sizes of 0 keep all four; a zero negated is the other zero, -0 for 0. A bar has its two ends, a and then b, 4 numbers.

   The placed ones move each corner by a pose: turned by the rotation, then shifted by the translation, as B is in foldflake_distance.
   pose, 4: the rotation c s and the translation x y.

   The answer is FOLDFLAKE_BUILT or a refusal, the first that applies of: 3, a half size or an end as for points, or a half size below 0 (-0 is
   not); 5, 6, the pose; 15, out has no room for all corners. Of a placed one it is first of all FOLDFLAKE_WRONG_LENGTH where pose_len is not 4. On
   a refusal or a wrong length out is as it was. An outline that was built unplaced is not refused by 1 to 3 elsewhere; one that was placed can
   be, by 3, if its corners come to lie too far out. */
uint32_t foldflake_plate(float half_x, float half_y, float *out, size_t out_len);
uint32_t foldflake_bar(float ax, float ay, float bx, float by, float *out, size_t out_len);
uint32_t foldflake_placed_plate(float half_x, float half_y, const float *pose, size_t pose_len, float *out, size_t out_len);
uint32_t foldflake_placed_bar(float ax, float ay, float bx, float by, const float *pose, size_t pose_len, float *out, size_t out_len);

/* One moment of planned moves. A move has 10 numbers, as foldflake_sweep takes them: local centre x y, first centre x y, last centre x y, first
   rotation c s, last rotation c s. The fraction lies in 0 to 1, whatever part of the move is planned.

   foldflake_pose: where a body stands there, as a sweep works it. out, 4: the rotation c s and the translation x y. Refusals: 5, 6 for the move,
   7 for the fraction.

   foldflake_gap: how far apart two outlines are there, without radii, as a sweep works it: seen from the first centre of A, the poses not checked
   again, no corners known from before. out, 1: the distance; 0 where they touch or overlap, and where a side is tiny or the rounds run out, although
   they may be apart. Refusals: 1 to 3 for the outlines, 5, 6 for the moves, 7 for the fraction.

   The answer is FOLDFLAKE_TOLD, a refusal, or FOLDFLAKE_WRONG_LENGTH. Unless it is FOLDFLAKE_TOLD, out is as it was. */
uint32_t foldflake_pose(const float *planned, size_t planned_len, float fraction, float *out, size_t out_len);
uint32_t foldflake_gap(const float *points_a, size_t numbers_in_a, const float *move_a, size_t move_a_len, const float *points_b,
                       size_t numbers_in_b, const float *move_b, size_t move_b_len, float fraction, float *out, size_t out_len);

/* The route of a cart past still outlines: sweeps leg by leg, past the outlines in order on each leg, up to the first that is not separated.
   waypoints, four numbers each, 2 to 33 of them: centre x y, rotation c s. Leg i goes from waypoint i to the next; the cart has no radius, and its
   points are given about its centre. stills: the points of all still outlines, one behind another, where they stand; lengths: how many numbers each
   of them has, 1 to 32 outlines.
   out, 5: fraction, point x y, normal x y of the sweep that ends the route. where, 3: leg, outline, both from 1, and the distance calls of all sweeps
   that were run; 0, 0 and the calls where the answer is CLEAR.

     const float bar[4] = {-1, 0, 1, 0}, post[2] = {6, 0};
     const float waypoints[8] = {0, 0, 1, 0, 9, 0, 1, 0};    from (0, 0) to (9, 0), unturned
     const uint32_t lengths[1] = {2};
     float out[5];
     uint32_t where[3];
     if (foldflake_route(bar, 4, waypoints, 8, post, 2, lengths, 1, 0.01f, out, 5, where, 3) == FOLDFLAKE_ROUTE_HIT) ..    leg 1, outline 1

   The answer is the first that applies: FOLDFLAKE_WRONG_LENGTH for out, where or waypoints that are no multiple of four; 16 for fewer than 2 or more
   than 33 waypoints; 17 for no outline or more than 32; FOLDFLAKE_WRONG_LENGTH where lengths do not add up to stills_len; then FOLDFLAKE_ROUTE_.., or the
   refusal of a sweep, 1 to 3, 5, 6 or 8. out is written for OVERLAPPED, HIT and FAILED alone, where for these, for CLEAR and for a sweep's refusal. */
uint32_t foldflake_route(const float *cart, size_t cart_len, const float *waypoints, size_t waypoints_len, const float *stills, size_t stills_len,
                         const uint32_t *lengths, size_t lengths_len, float slop, float *out, size_t out_len, uint32_t *where, size_t where_len);

/* What holds at every fraction of two planned moves, from `from` to the max fraction: proved, in exact arithmetic and not in floats. The distance to keep
   is the larger of the slop and the sum of the radii; a larger slop asks for more room. numbers, 24, as foldflake_sweep takes them.
   CLEAR: at every fraction from `from` to the max fraction the outlines are further apart than the distance to keep.
   TOUCH: so up to the fraction u, where u is after `from`; and at the fraction t they are not further apart: the first contact comes not before u, and
   certainly by t.
   OPEN: so up to the fraction u, where u is after `from`; what comes later was not settled.
   out, 2: u and t of TOUCH, u and the max fraction of OPEN, the max fraction twice of CLEAR. u and t are multiples of 2^-24; a `from` that is none counts
   as the multiple below it, and a look at fraction 1 alone starts at the one before it. pieces, 1: how many pieces of the way were tried, at most 4096.

     const float square[8] = {-5, -5, 5, -5, 5, 5, -5, 5}, wall[8] = {0, -20, 4, -20, 4, 20, 0, 20};
     const float numbers[24] = {0, 0, 1, 0.005f, 0, 0, 0, 0, 0, 0, 1, 0, 0, 1, 0, 0, 6, 0, 6, 0, 1, 0, 1, 0};    a quarter turn beside a wall at 6
     float out[2];
     uint32_t pieces[1];
     if (foldflake_clearance(square, 8, wall, 8, numbers, 24, 0, out, 2, pieces, 1) == FOLDFLAKE_CLEARANCE_TOUCH) ..     0.1872.. twice

   The answer is a refusal, 1 to 8 as of foldflake_sweep, 7 also for a `from` that is not from 0 to the max fraction; or FOLDFLAKE_CLEARANCE_.., or
   FOLDFLAKE_WRONG_LENGTH. On a refusal or a wrong length out and pieces are as they were. */
uint32_t foldflake_clearance(const float *points_a, size_t numbers_in_a, const float *points_b, size_t numbers_in_b, const float *numbers,
                             size_t numbers_len, float from, float *out, size_t out_len, uint32_t *pieces, size_t pieces_len);

/* The route of foldflake_route looked at as a whole: each leg past each still outline, in that order, up to the first that is not clear. What is told holds at
   every moment of a leg, of a cart that turns too, as foldflake_clearance has it; the distance to keep is the slop. cart, waypoints, stills and lengths as
   foldflake_route takes them.
   CLEAR: on every leg, at every moment of it, the cart is further than the slop from every outline.
   TOUCH: so before leg and outline in that order; of the leg past the outline up to the fraction u, and at the fraction t they are not further apart.
   OPEN: so before leg and outline in that order; of the leg past the outline up to the fraction u, and what comes later was not settled.
   out, 2: u and t of TOUCH, u and 1 of OPEN, 1 twice of CLEAR. where, 3: leg, outline, both from 1, and the pieces of all pairs that were looked at; 0, 0 and
   the pieces where the answer is CLEAR.

     const float bar[4] = {-1, 0, 1, 0}, post[2] = {0, 0.9f};
     const float waypoints[8] = {0, 0, 1, 0, 0, 0, -0.8f, 0.6f};    turns by 143 degrees where it stands
     const uint32_t lengths[1] = {2};
     float out[2];
     uint32_t where[3];
     if (foldflake_route_clearance(bar, 4, waypoints, 8, post, 2, lengths, 1, 0.01f, out, 2, where, 3) == FOLDFLAKE_CLEARANCE_TOUCH) ..    leg 1, outline 1

   The answer is the first that applies, as of foldflake_route: FOLDFLAKE_WRONG_LENGTH, 16, 17, FOLDFLAKE_WRONG_LENGTH; then FOLDFLAKE_CLEARANCE_.., or the
   refusal of the pair in hand, 1 to 3, 5, 6 or 8. out is written for CLEAR, TOUCH and OPEN alone, where for these and for a pair's refusal. */
uint32_t foldflake_route_clearance(const float *cart, size_t cart_len, const float *waypoints, size_t waypoints_len, const float *stills, size_t stills_len,
                                   const uint32_t *lengths, size_t lengths_len, float slop, float *out, size_t out_len, uint32_t *where, size_t where_len);

#ifdef __cplusplus
}
#endif

#endif
