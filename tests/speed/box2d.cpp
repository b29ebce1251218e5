// box2d WHAT TIMES < BATCH: makes one kind of call on each block of a batch, so many times over, for tests/speed/speed.sh to measure.
//   none                      reads the batch and makes no call
//   sweep, b2-sweep           the sweep through the C library; b2TimeOfImpact
//   distance, b2-distance     the distance call at the start of the move, no corners known; b2Distance
//   root, c-root, root64, c-root64    roots of numbers from 1 up to 4 through the C library; the processor's
// The outlines, moves and radii are the block's, turns as angles for Box2D. Its slop is its own, so its answers are not ours: what is compared is cost.
#include "foldflake.h"
#include <cmath>
#include <cstdio>
#include <cstdlib>
#include <cstring>
#include <string>
#include <vector>
#ifndef NO_BOX2D
#include <box2d/b2_distance.h>
#include <box2d/b2_time_of_impact.h>
#endif

struct Job {
    std::vector<float> a, b;
    float numbers[24];
    float pose[6];  // of B in the frame of A at the start, and both radii
};

static Job job_of(const unsigned char *block) {
    Job job;
    job.a.resize(2 * block[4]);
    job.b.resize(2 * block[5]);
    memcpy(job.numbers, block + 8, sizeof job.numbers);
    memcpy(job.a.data(), block + 104, 4 * job.a.size());
    memcpy(job.b.data(), block + 232, 4 * job.b.size());
    const float *m = job.numbers + 4, *n = job.numbers + 14;
    double ax = m[2] - (m[6] * m[0] - m[7] * m[1]), ay = m[3] - (m[7] * m[0] + m[6] * m[1]);
    double bx = n[2] - (n[6] * n[0] - n[7] * n[1]), by = n[3] - (n[7] * n[0] + n[6] * n[1]);
    double dx = bx - ax, dy = by - ay;
    job.pose[0] = m[6] * n[6] + m[7] * n[7];
    job.pose[1] = m[6] * n[7] - m[7] * n[6];
    job.pose[2] = m[6] * dx + m[7] * dy;
    job.pose[3] = m[6] * dy - m[7] * dx;
    job.pose[4] = job.numbers[0];
    job.pose[5] = job.numbers[1];
    return job;
}

static volatile float kept;

static void sweep(const Job &job) {
    float out[5];
    uint32_t counts[7];
    foldflake_sweep(job.a.data(), job.a.size(), job.b.data(), job.b.size(), job.numbers, 24, out, 5, counts, 7);
    kept = out[0];
}

static void distance(const Job &job) {
    float out[7];
    uint32_t cache[8] = {0};
    foldflake_distance(job.a.data(), job.a.size(), job.b.data(), job.b.size(), job.pose, 6, 0, 1, cache, 8, out, 7);
    kept = out[6];
}

#ifndef NO_BOX2D
struct Prepared {
    b2TOIInput toi;
    b2DistanceInput apart;
};

static b2Sweep sweep_of(const float *m) {
    b2Sweep s;
    s.localCenter.Set(m[0], m[1]);
    s.c0.Set(m[2], m[3]);
    s.c.Set(m[4], m[5]);
    s.a0 = std::atan2(m[7], m[6]);
    float turn = std::atan2(m[9], m[8]) - s.a0;  // the short way
    s.a = s.a0 + std::remainder(turn, 2 * b2_pi);
    s.alpha0 = 0;
    return s;
}

static Prepared prepared(const Job &job) {
    Prepared p;
    p.toi.proxyA.Set(reinterpret_cast<const b2Vec2 *>(job.a.data()), job.a.size() / 2, job.numbers[0]);
    p.toi.proxyB.Set(reinterpret_cast<const b2Vec2 *>(job.b.data()), job.b.size() / 2, job.numbers[1]);
    p.toi.sweepA = sweep_of(job.numbers + 4);
    p.toi.sweepB = sweep_of(job.numbers + 14);
    p.toi.tMax = job.numbers[2];
    p.apart.proxyA = p.toi.proxyA;
    p.apart.proxyB = p.toi.proxyB;
    p.apart.transformA.SetIdentity();
    p.apart.transformB.q.s = job.pose[1];
    p.apart.transformB.q.c = job.pose[0];
    p.apart.transformB.p.Set(job.pose[2], job.pose[3]);
    p.apart.useRadii = false;
    return p;
}

static void b2_sweep(const Prepared &p) {
    b2TOIOutput out;
    b2TimeOfImpact(&out, &p.toi);
    kept = out.t;
}

static void b2_distance(const Prepared &p) {
    b2DistanceOutput out;
    b2SimplexCache cache;
    cache.count = 0;
    b2Distance(&out, &cache, &p.apart);
    kept = out.distance;
}
#endif

template <class T, class Root> static void roots(Root root, size_t count) {
    T sum = 0;
    for (size_t i = 0; i < count; i++) sum += root(T(1) + T(3) * T(i) / T(count));
    kept = float(sum);
}

int main(int argc, char **argv) {
    if (argc != 3) return fprintf(stderr, "box2d WHAT TIMES < BATCH\n"), 2;
    std::string what = argv[1];
    size_t times = strtoull(argv[2], nullptr, 10);
    std::vector<Job> jobs;
    unsigned char block[512];
    while (fread(block, 1, sizeof block, stdin) == sizeof block) jobs.push_back(job_of(block));
#ifndef NO_BOX2D
    std::vector<Prepared> ready;
    for (const Job &job : jobs) ready.push_back(prepared(job));
#endif
    for (size_t n = 0; n < times; n++) {
        if (what == "sweep") for (const Job &job : jobs) sweep(job);
        else if (what == "distance") for (const Job &job : jobs) distance(job);
        else if (what == "root") roots<float>(foldflake_root, jobs.size());
        else if (what == "c-root") roots<float>([](float x) { return std::sqrt(x); }, jobs.size());
        else if (what == "root64") roots<double>(foldflake_root64, jobs.size());
        else if (what == "c-root64") roots<double>([](double x) { return std::sqrt(x); }, jobs.size());
#ifndef NO_BOX2D
        else if (what == "b2-sweep") for (const Prepared &p : ready) b2_sweep(p);
        else if (what == "b2-distance") for (const Prepared &p : ready) b2_distance(p);
#endif
        else if (what != "none") return fprintf(stderr, "box2d: no call %s\n", what.c_str()), 2;
    }
    return 0;
}
