/* clearance BATCH LINES COUNT: holds the lines that `clearance` printed of a batch to a dense look in f64: 401 places of each move, and then between the
 * neighbours of each low one. Unsound is a CLEAR, or what comes before the u of a TOUCH or an OPEN, where the look finds a gap that is not above the
 * distance to keep, and a TOUCH whose t is above it; a millionth of a millionth of the size is allowed for the look's own rounding. Prints a row of
 * counts for each COUNT blocks, and one for all; answers 1 where something is unsound, or a line is not as it should be. */
#include <math.h>
#include <stdint.h>
#include <stdio.h>
#include <stdlib.h>
#include <string.h>

enum { BLOCK = 512, PLACES = 400, MOST = 16 };

typedef struct { double x, y; } Point;
typedef struct { int n; Point corner[2 * MOST]; double c1x, c1y, c2x, c2y, q1c, q1s, q2c, q2s; } Body;
typedef struct { double keep, end, size; Body a, b; } Job;

static uint32_t word(const unsigned char *b, int at) { uint32_t w; memcpy(&w, b + at, 4); return w; }
static double number(const unsigned char *b, int at) { float f; memcpy(&f, b + at, 4); return f; }

static int by_place(const void *p, const void *q) {
    const Point *a = p, *b = q;
    if (a->x != b->x) return a->x < b->x ? -1 : 1;
    return a->y < b->y ? -1 : a->y > b->y;
}
static double cross(Point o, Point p, Point q) { return (p.x - o.x) * (q.y - o.y) - (p.y - o.y) * (q.x - o.x); }

/* the corners of the hull, counter-clockwise */
static int hull(Point *p, int n, Point *h) {
    qsort(p, n, sizeof *p, by_place);
    int k = 0;
    for (int i = 0; i < n; i++) {
        while (k >= 2 && cross(h[k - 2], h[k - 1], p[i]) <= 0) k--;
        h[k++] = p[i];
    }
    for (int i = n - 2, low = k + 1; i >= 0; i--) {
        while (k >= low && cross(h[k - 2], h[k - 1], p[i]) <= 0) k--;
        h[k++] = p[i];
    }
    return k > 1 ? k - 1 : k;
}

static void grow(double *size, double x) { if (fabs(x) > *size) *size = fabs(x); }

static Body body(const unsigned char *b, int points, int n, int move, double *size) {
    Body o;
    Point p[MOST];
    double cx = number(b, move), cy = number(b, move + 4);
    for (int i = 0; i < n; i++) {
        grow(size, number(b, points + 8 * i));
        grow(size, number(b, points + 8 * i + 4));
        p[i].x = number(b, points + 8 * i) - cx;
        p[i].y = number(b, points + 8 * i + 4) - cy;
    }
    o.n = hull(p, n, o.corner);
    for (int i = 0; i < 6; i++) grow(size, number(b, move + 4 * i));
    o.c1x = number(b, move + 8), o.c1y = number(b, move + 12), o.c2x = number(b, move + 16), o.c2y = number(b, move + 20);
    o.q1c = number(b, move + 24), o.q1s = number(b, move + 28), o.q2c = number(b, move + 32), o.q2s = number(b, move + 36);
    return o;
}

static Job job(const unsigned char *b) {
    Job j;
    j.size = 0;
    j.a = body(b, 104, b[4], 24, &j.size);
    j.b = body(b, 232, b[5], 64, &j.size);
    double radii = number(b, 8) + number(b, 12), slop = number(b, 20);
    j.keep = slop > radii ? slop : radii;
    j.end = number(b, 16);
    return j;
}

/* the corners at a fraction; 0 in the middle of a half turn, where the plan has no place */
static int placed(const Body *o, double t, Point *out) {
    double c = (1 - t) * o->q1c + t * o->q2c, s = (1 - t) * o->q1s + t * o->q2s, m = hypot(c, s);
    if (m < 1e-6) return 0;
    c /= m, s /= m;
    double x = (1 - t) * o->c1x + t * o->c2x, y = (1 - t) * o->c1y + t * o->c2y;
    for (int i = 0; i < o->n; i++) {
        out[i].x = x + c * o->corner[i].x - s * o->corner[i].y;
        out[i].y = y + s * o->corner[i].x + c * o->corner[i].y;
    }
    return 1;
}

/* how far one outline's corners are from the other's sides, squared; and, of a side that has both outlines on its two sides, how far */
static void sides(const Point *p, int n, const Point *q, int m, double *near, double *depth) {
    for (int i = 0; i < n; i++) {
        Point s = p[i], e = p[(i + 1) % n];
        double x = e.x - s.x, y = e.y - s.y, l2 = x * x + y * y, out = INFINITY;
        for (int k = 0; k < m; k++) {
            double vx = q[k].x - s.x, vy = q[k].y - s.y, along = l2 > 0 ? (vx * x + vy * y) / l2 : 0;
            double side = vx * y - vy * x;
            if (side < out) out = side;
            along = along < 0 ? 0 : along > 1 ? 1 : along;
            double dx = vx - along * x, dy = vy - along * y, d2 = dx * dx + dy * dy;
            if (d2 < *near) *near = d2;
        }
        if (n > 2 && l2 > 0 && out / sqrt(l2) > *depth) *depth = out / sqrt(l2);
    }
}
static int crossing(const Point *p, int n, const Point *q, int m) {
    for (int i = 0; i < n; i++)
        for (int k = 0; k < m; k++) {
            Point a = p[i], b = p[(i + 1) % n], c = q[k], d = q[(k + 1) % m];
            if ((cross(a, b, c) > 0) != (cross(a, b, d) > 0) && (cross(c, d, a) > 0) != (cross(c, d, b) > 0)) return 1;
        }
    return 0;
}
/* below 0 the depth of an overlap */
static double gap(const Job *j, double t) {
    Point p[2 * MOST], q[2 * MOST];
    if (!placed(&j->a, t, p) || !placed(&j->b, t, q)) return INFINITY;
    double near = INFINITY, depth = -INFINITY;
    sides(p, j->a.n, q, j->b.n, &near, &depth);
    sides(q, j->b.n, p, j->a.n, &near, &depth);
    if (depth > -INFINITY) { /* else both are points or sides, be it by rounding */
        if (depth <= 0 && (j->a.n > 2 && j->b.n > 2)) return depth;
        if (depth <= 0 && crossing(p, j->a.n, q, j->b.n)) return depth;
        if (j->a.n < 3 || j->b.n < 3) { /* a point or a side inside the other */
            const Point *o = j->a.n > 2 ? p : q, *v = j->a.n > 2 ? q : p;
            int n = j->a.n > 2 ? j->a.n : j->b.n, in = 1, strictly = 0;
            for (int i = 0; i < n; i++) {
                double c = cross(o[i], o[(i + 1) % n], v[0]);
                in &= c >= 0, strictly |= c > 0;
            }
            if (in && strictly) return depth < 0 ? depth : 0;
        }
    } else if (crossing(p, j->a.n, q, j->b.n)) return 0;
    return sqrt(near);
}

static double low(const Job *j, double from, double to) {
    for (int i = 0; i < 40; i++) {
        double u = from + (to - from) / 3, v = to - (to - from) / 3;
        if (gap(j, u) < gap(j, v)) to = v; else from = u;
    }
    return gap(j, from);
}
/* the least gap up to a fraction */
static double least(const Job *j, double end) {
    double at[PLACES + 1], best = INFINITY;
    for (int i = 0; i <= PLACES; i++) {
        at[i] = gap(j, end * i / PLACES);
        if (at[i] < best) best = at[i];
    }
    if (end > 0)
        for (int i = 0; i <= PLACES; i++) {
            int before = i ? i - 1 : 0, after = i < PLACES ? i + 1 : PLACES;
            if (at[i] <= at[before] && at[i] <= at[after] && at[i] - fabs(at[before] + at[after] - 2 * at[i]) <= best) {
                double d = low(j, end * before / PLACES, end * after / PLACES);
                if (d < best) best = d;
            }
        }
    return best;
}

typedef struct { long blocks, refused, answer[3], far, far_clear, near, near_touch, wide, unsound, half; double widest; long pieces, most; } Counts;

static void print(const char *name, const Counts *c) {
    printf("%s: %ld blocks, %ld refused, CLEAR %ld, TOUCH %ld, OPEN %ld; farther than kept by 1e-4: %ld, CLEAR of them %ld; nearer by as much: %ld, TOUCH of them %ld; "
           "brackets above 2^-10: %ld, widest %.3g; OPEN of half turns %ld; pieces %ld, most %ld; unsound %ld\n",
        name, c->blocks, c->refused, c->answer[0], c->answer[1], c->answer[2], c->far, c->far_clear, c->near, c->near_touch, c->wide, c->widest, c->half, c->pieces, c->most, c->unsound);
}

static double shortest(const Body *o) {
    double d = INFINITY;
    for (int i = 0; i <= 1000; i++) {
        double t = i / 1000.0, l = hypot((1 - t) * o->q1c + t * o->q2c, (1 - t) * o->q1s + t * o->q2s);
        if (l < d) d = l;
    }
    return d;
}

int main(int argc, char **argv) {
    if (argc < 4) return fprintf(stderr, "clearance BATCH LINES COUNT\n"), 2;
    FILE *batch = fopen(argv[1], "rb"), *lines = fopen(argv[2], "r");
    long count = atol(argv[3]), n = 0, bad = 0;
    if (!batch || !lines || count < 1) return fprintf(stderr, "clearance: a file is not there\n"), 2;
    unsigned char b[BLOCK];
    char text[200], name[80];
    Counts all = {0}, kind = {0};
    while (fread(b, 1, BLOCK, batch) == BLOCK) {
        n++;
        long number_told, job_told;
        unsigned refusal;
        char letters[8] = "";
        int took = 0;
        if (!fgets(text, sizeof text, lines) || sscanf(text, "%ld %ld %u %7s%n", &number_told, &job_told, &refusal, letters, &took) < 3 || number_told != n || (refusal == 0 && job_told != (long)word(b, 0))) {
            printf("block %ld: its line is %s", n, text);
            return 1;
        }
        Counts one = {0};
        one.blocks = 1;
        if (refusal) one.refused = 1;
        else {
            Job j = job(b);
            int which = !strcmp(letters, "CLEAR") ? 0 : !strcmp(letters, "TOUCH") ? 1 : !strcmp(letters, "OPEN") ? 2 : 3;
            uint32_t ub = 0, tb = 0;
            long pieces = -1;
            int right = which == 0 ? sscanf(text + took, "%ld", &pieces) == 1 : which == 1 ? sscanf(text + took, "%x %x %ld", &ub, &tb, &pieces) == 3 : which == 2 && sscanf(text + took, "%x %ld", &ub, &pieces) == 2;
            if (!right) { printf("block %ld: its line is %s", n, text); return 1; }
            float uf, tf;
            memcpy(&uf, &ub, 4), memcpy(&tf, &tb, 4);
            double u = uf, t = tf, d = least(&j, j.end), slack = 1e-12 * j.size;
            one.answer[which] = 1;
            one.pieces = one.most = pieces;
            if (which == 0) one.unsound = !(d > j.keep - slack);
            else {
                one.unsound = !(u >= 0 && u <= j.end) || (u > 0 && !(least(&j, u) > j.keep - slack));
                if (u > 0) one.unsound |= !(low(&j, u > 0.01 ? u - 0.01 : 0, u) > j.keep - slack);
            }
            if (which == 1) {
                one.unsound |= !(u <= t && t <= j.end) || !(gap(&j, t) <= j.keep + slack);
                one.widest = t - u;
                one.wide = t - u > 1.0 / 1024;
            }
            one.far = d > j.keep + 1e-4 * j.size;
            one.far_clear = one.far && which == 0;
            one.near = d < j.keep - 1e-4 * j.size;
            one.near_touch = one.near && which == 1;
            if (which == 2) one.half = shortest(&j.a) < 0.02 || shortest(&j.b) < 0.02;
            if (one.unsound) {
                printf("UNSOUND: keep %.12g, least gap %.12g, at t %.12g: %s", j.keep, d, which == 1 ? gap(&j, t) : 0, text);
                bad = 1;
            }
        }
        Counts *to[2] = {&all, &kind};
        for (int i = 0; i < 2; i++) {
            Counts *c = to[i];
            c->blocks += one.blocks, c->refused += one.refused, c->far += one.far, c->far_clear += one.far_clear, c->near += one.near, c->near_touch += one.near_touch;
            c->wide += one.wide, c->unsound += one.unsound, c->half += one.half, c->pieces += one.pieces;
            for (int k = 0; k < 3; k++) c->answer[k] += one.answer[k];
            if (one.widest > c->widest) c->widest = one.widest;
            if (one.most > c->most) c->most = one.most;
        }
        if (n % count == 0) {
            snprintf(name, sizeof name, "blocks %ld to %ld", n - count + 1, n);
            print(name, &kind);
            memset(&kind, 0, sizeof kind);
        }
    }
    print("all", &all);
    return bad;
}
