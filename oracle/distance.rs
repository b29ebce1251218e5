//! Stored distance calls: a pool, then rows of 20 words (see docs/REPLAYS.md).
use crate::counts;
use crate::domain;
use crate::math::{Pose, Real, Vector};
use crate::pool::{self, cache_words, points, Pool, GOOD, NEAR_OUTLINES, NEAR_POSES};
use crate::random::Random;
use crate::sweep_toi::proxy_distance::{proxy_distance, SimplexCache};
use crate::sweep_toi::toi_proxy::ToiProxy;
use crate::width::{bits, Bits};
use crate::words::{self, Parts};

#[derive(Copy, Clone)]
pub struct Call {
    pub a: usize,
    pub b: usize,
    pub pose: usize,
    pub cache: usize,
    pub pair: u32,
    pub radii: usize,
    pub use_radii: bool,
}

/// The number of refusal or 16 + the ending, the rounds, seven floats, and the cache afterwards.
pub fn answer(p: &Pool, k: Call) -> [Bits; 17] {
    let (a, b, pose, mut kept, (ra, rb)) = (&p.outlines[k.a], &p.outlines[k.b], p.poses[k.pose], p.caches[k.cache], p.radii[k.radii]);
    let mut w = [0; 17];
    let refused = domain::or(domain::or(domain::pair(a, b, ra, rb), || domain::pose(&pose)), || domain::cache(kept.cache.count, kept.pair, k.pair));
    w[0] = refused as Bits;
    if refused == 0 {
        let (pa, pb) = (points(a), points(b));
        let o = proxy_distance(&pose, &ToiProxy::from_points(&pa, ra), &ToiProxy::from_points(&pb, rb), k.use_radii, &mut kept.cache);
        w[0] = (16 + counts::last_ending()) as Bits;
        if counts::last_ending() != counts::TOUCHING {
            kept.pair = k.pair;
        }
        w[1] = o.iterations as Bits;
        let v = |v: Vector| [v.x, v.y];
        let floats = [v(o.point_a), v(o.point_b), v(o.normal)].concat().into_iter().chain([o.distance]);
        for (i, x) in floats.enumerate() {
            w[2 + i] = bits(x);
        }
    }
    w[9..].copy_from_slice(&cache_words(&kept));
    w
}

/// How far off a line points lie, by the size of the outline.
#[cfg(feature = "f32")]
const NOISE: [Real; 5] = [0.0, 1e-7, 1e-6, 1e-5, 1e-3];
#[cfg(feature = "f64")]
const NOISE: [Real; 5] = [0.0, 1e-16, 1e-15, 1e-14, 1e-7];

/// Looks for the k-th call that runs into the round limit, among points that lie nearly on one line, and leaves its parts in the pool:
/// outlines `slot(k)` and the next, pose k and cache k.
fn slow_call(r: &mut Random, p: &mut Pool, k: usize) -> bool {
    for _ in 0..2_000_000 {
        let size = r.pick(&[1.0 as Real, 100.0, 2048.0, 1e5, 1e6]);
        let noise = r.pick(&NOISE) * size;
        let (x, y) = (r.unit(), r.unit());
        let near_line = |r: &mut Random, n: u64| -> Vec<Real> {
            (0..n).flat_map(|_| { let t = r.unit(); [size * x * t + noise * r.unit(), size * y * t + noise * r.unit()] }).collect()
        };
        let (na, nb) = (2 + r.below(20), 1 + r.below(20));
        p.outlines[slot(k)] = near_line(r, na);
        p.outlines[slot(k) + 1] = near_line(r, nb);
        let off = r.pick(&[0.0 as Real, 1e-6, 1e-3, 1.0]) * size;
        p.poses[k] = Pose::from_parts(Vector::new(off * r.unit(), off * r.unit()), pool::angle(r));
        let mut index = |n: u64| [r.below(n) as u32, r.below(n) as u32, r.below(n) as u32];
        p.caches[k].cache = SimplexCache { index_a: index(na), index_b: index(nb), count: (k % 4) as u8 };
        if answer(p, slow(p, k))[0] == (16 + counts::ROUND_LIMIT) as Bits {
            return true;
        }
    }
    false
}

fn slot(k: usize) -> usize {
    GOOD.outlines - 20 + 2 * k
}

fn slow(p: &Pool, k: usize) -> Call {
    Call { a: slot(k), b: slot(k) + 1, pose: k, cache: k, pair: p.caches[k].pair, radii: 0, use_radii: false }
}

pub fn rows(seed: u64, count: usize) {
    let mut r = Random(seed);
    let mut p = pool::pool(&mut r);
    let found: Vec<usize> = (0..8).filter(|&k| slow_call(&mut r, &mut p, k)).collect();
    let mut out = Parts::new();
    out.pool(&p);
    out.table(words::DISTANCE);
    let mut seen = [0u32; 19];
    for i in 0..count {
        let mut below = |good: usize, all: usize| {
            let bad = good < all && i % 8 >= 6 && r.below(3) == 0;
            (if bad { good as u64 + r.below((all - good) as u64) } else { r.below(good as u64) }) as usize
        };
        let (a, b, pose, cache) = (below(GOOD.outlines, 128), below(GOOD.outlines, 128), below(GOOD.poses, 64), below(64, 64));
        let mut k = Call { a, b, pose, cache, pair: 0, radii: below(GOOD.radii, 32), use_radii: i % 2 == 1 };
        if cfg!(feature = "f64") && i % 4 == 0 {
            k = Call { a: r.within(NEAR_OUTLINES), b: r.within(NEAR_OUTLINES), pose: r.within(NEAR_POSES), ..k };
        }
        if i % 100 == 5 && !found.is_empty() {
            k = Call { radii: k.radii, use_radii: k.use_radii, ..slow(&p, found[i / 100 % found.len()]) };
        }
        // the cache's own number, but in a fifth of the rows one that differs in a single bit
        k.pair = p.caches[k.cache].pair ^ if i % 5 == 3 { 1 << (i / 5 % 32) } else { 0 };
        let w = answer(&p, k);
        seen[w[0] as usize] += 1;
        let input = [k.a as u32 | (k.b as u32) << 8 | (k.pose as u32) << 16 | (k.cache as u32) << 24, k.radii as u32 | (k.use_radii as u32) << 8, k.pair];
        out.row(&[&input.map(|x| x as Bits)[..], &w[..]].concat());
    }
    out.end();
    eprintln!("refused 1 to 6: {:?}, by 12: {}; touching {}, settled {}, round limit {}", &seen[1..7], seen[12], seen[16], seen[17], seen[18]);
}
