//! Outlines, poses, caches, radii and moves from which test calls are put together. The first of each kind are in the domain (`GOOD` says how
//! many), the rest is outside of it or on its edge.
use crate::domain::LIMIT;
use crate::math::{Pose, Real, Rotation, Vector};
use crate::random::Random;
use crate::sweep_toi::proxy_distance::SimplexCache;
use crate::sweep_toi::sweep::Sweep;
use crate::width::{step, Bits, ABOVE_ONE, BELOW_ONE, TINY};
use core::ops::Range;

pub const ABOVE_LIMIT: Real = LIMIT * ABOVE_ONE;

/// Small sizes of outlines and small slops, down to subnormals.
#[cfg(feature = "f32")]
const SMALL_SIZES: [Real; 4] = [1e-3, 1e-20, 1e-38, 1e-44];
#[cfg(feature = "f32")]
const SMALL_SLOPS: [Real; 3] = [TINY, 1e-38, 1e-20];
#[cfg(feature = "f64")]
const SMALL_SIZES: [Real; 6] = [1e-3, 1e-9, 1e-20, 1e-154, 1e-308, 1e-321];
#[cfg(feature = "f64")]
const SMALL_SLOPS: [Real; 8] = [TINY, 1e-308, 1e-154, 1e-20, 1e-13, 1e-11, 1e-10, 1e-9];

/// How little outlines that nearly touch are apart: between the EPSILON of f64 and that of f32, and beside them.
const LITTLE: [Real; 8] = [1e-6, 1e-7, 1e-9, 1e-12, 1e-15, 4e-16, 1e-16, 2e-17];

/// A list of numbers x0 y0 x1 y1 ..
pub type Outline = Vec<Real>;

pub fn points(outline: &[Real]) -> Vec<Vector> {
    outline.chunks_exact(2).map(|p| Vector::new(p[0], p[1])).collect()
}

fn polygon(r: &mut Random, n: usize) -> Outline {
    let (size, turn) = (0.25 + 4.0 * r.unit().abs(), 3.2 * r.unit());
    let (x, y) = (2.0 * r.unit(), 2.0 * r.unit());
    (0..n)
        .flat_map(|i| {
            let t = turn + i as Real / n as Real * 6.2831855;
            [x + size * t.cos(), y + size * t.sin()]
        })
        .collect()
}

fn rectangle(r: &mut Random) -> Outline {
    let (x, y) = (0.25 + 4.0 * r.unit().abs(), 0.25 + 2.0 * r.unit().abs());
    vec![-x, -y, x, -y, x, y, -x, y]
}

fn of(n: usize, mut number: impl FnMut() -> Real) -> Outline {
    (0..2 * n).map(|_| number()).collect()
}

/// An outline in the domain, of one of eight kinds.
pub fn outline(r: &mut Random) -> Outline {
    let n = 1 + r.below(7) as usize;
    match r.below(12) {
        0 | 1 => of(n, || r.whole(6)),
        2 => of(n, || r.whole(200) * 0.25),
        3 | 4 => polygon(r, 3 + n),
        5 | 6 => rectangle(r),
        7 => {
            // repeated and collinear points
            let (u, v, w) = (r.whole(4), r.whole(4), r.whole(3));
            (0..n).flat_map(|_| { let k = r.whole(2); [u + k * v, w + k * v] }).collect()
        }
        8 => { let scale = r.pick(&SMALL_SIZES); of(n, || r.unit() * scale) }
        9 => { let scale = r.pick(&[1e3, 1e5, LIMIT]); of(n, || r.unit() * scale) }
        10 => of(n, || r.pick(&[0.0, -0.0, 1.0, -1.0, TINY, LIMIT, -LIMIT])),
        _ => of(1, || r.whole(8) * 0.5),
    }
}

pub fn angle(r: &mut Random) -> Rotation {
    let t = 3.1415927 * r.unit();
    match r.below(3) {
        0 => quarter(r),
        _ => Rotation { c: t.cos(), s: t.sin() },
    }
}

/// The origin, or one to four points on a small grid.
pub fn thin(r: &mut Random) -> Outline {
    match r.below(5) {
        0 => vec![0.0; 2],
        n => of(n as usize, || r.whole(2)),
    }
}

/// A shift on the grid, in two of three parts off it by little.
pub fn near(r: &mut Random) -> Vector {
    let mut part = || match r.below(3) {
        0 => r.whole(2),
        1 => r.pick(&LITTLE) * r.unit(),
        _ => r.whole(2) + r.pick(&LITTLE) * r.unit(),
    };
    Vector::new(part(), part())
}

/// A quarter-turn.
pub fn quarter(r: &mut Random) -> Rotation {
    let (c, s) = r.pick(&[(1.0, 0.0), (0.0, 1.0), (-1.0, 0.0), (0.0, -1.0)]);
    Rotation { c, s }
}

/// From one such shift to another, often turned by quarters.
pub fn near_movement(r: &mut Random) -> Sweep {
    let q1 = quarter(r);
    Sweep { local_center: Vector::ZERO, c1: near(r), c2: near(r), q1, q2: if r.below(4) == 0 { quarter(r) } else { q1 } }
}

/// Where the f64 pool has outlines, poses and moves that nearly touch; f32's has none.
pub const NEAR_OUTLINES: Range<usize> = 0..24;
pub const NEAR_POSES: Range<usize> = 32..48;
pub const NEAR_MOVES: Range<usize> = 64..108;

/// A pair of the largest s with 1 + s * s at most 1.015625 and the next; likewise for c * c at least 0.984375.
pub fn edge_rotations() -> Vec<Rotation> {
    let mut s = 0.125;
    while 1.0 + step(s, 1) * step(s, 1) <= 1.015625 { s = step(s, 1); }
    let mut c = step((0.984375 as Real).sqrt(), 8);
    while step(c, -1) * step(c, -1) >= 0.984375 { c = step(c, -1); }
    vec![
        Rotation { c: 1.0, s },
        Rotation { c, s: 0.0 },
        Rotation { c: 1.0, s: step(s, 1) },
        Rotation { c: step(c, -1), s: -0.0 },
    ]
}

fn bad_numbers(good: Real) -> [Real; 6] {
    [Real::NAN, Real::INFINITY, Real::NEG_INFINITY, ABOVE_LIMIT, -ABOVE_LIMIT, good]
}

/// A cache with the number of its pair, which the published text does not know.
#[derive(Copy, Clone)]
pub struct Numbered {
    pub pair: u32,
    pub cache: SimplexCache,
}

pub struct Pool {
    pub outlines: Vec<Outline>,
    pub poses: Vec<Pose>,
    pub caches: Vec<Numbered>,
    pub radii: Vec<(Real, Real)>,
    pub moves: Vec<Sweep>,
    pub fractions: Vec<Real>,
    pub slops: Vec<Real>,
}

impl Pool {
    /// Where each outline starts among these words and how many numbers it has, poses, caches, radii, moves, fractions, slops, and the outlines.
    pub fn words(&self) -> Vec<Bits> {
        let mut w = vec![0; 2416];
        for (i, s) in self.outlines.iter().enumerate() {
            w[2 * i] = w.len() as Bits;
            w[2 * i + 1] = s.len() as Bits;
            w.extend(s.iter().map(|x| x.to_bits()));
        }
        for (i, c) in self.caches.iter().enumerate() {
            w[512 + 8 * i..520 + 8 * i].copy_from_slice(&cache_words(c));
        }
        let mut put = |at: usize, numbers: &[Real]| numbers.iter().enumerate().for_each(|(k, x)| w[at + k] = x.to_bits());
        for (i, p) in self.poses.iter().enumerate() {
            put(256 + 4 * i, &[p.rotation.c, p.rotation.s, p.translation.x, p.translation.y]);
        }
        for (i, x) in self.radii.iter().enumerate() {
            put(1024 + 2 * i, &[x.0, x.1]);
        }
        for (i, m) in self.moves.iter().enumerate() {
            put(1088 + 10 * i, &move_numbers(m));
        }
        put(2368, &self.fractions);
        put(2384, &self.slops);
        w
    }
}

pub fn move_numbers(m: &Sweep) -> [Real; 10] {
    [m.local_center.x, m.local_center.y, m.c1.x, m.c1.y, m.c2.x, m.c2.y, m.q1.c, m.q1.s, m.q2.c, m.q2.s]
}

pub fn cache_words(n: &Numbered) -> [Bits; 8] {
    let c = &n.cache;
    [n.pair, c.count as u32, c.index_a[0], c.index_a[1], c.index_a[2], c.index_b[0], c.index_b[1], c.index_b[2]].map(|x| x as Bits)
}

/// How many of each kind are in the domain, of 128 outlines, 64 poses, 32 radii, 128 moves, 16 fractions and 32 slops.
pub struct Good {
    pub outlines: usize,
    pub poses: usize,
    pub radii: usize,
    pub moves: usize,
    pub fractions: usize,
    pub slops: usize,
}

pub const GOOD: Good = Good { outlines: 108, poses: 52, radii: 24, moves: 112, fractions: 10, slops: 24 };

fn vector(r: &mut Random, size: Real) -> Vector {
    match r.below(3) {
        0 => Vector::new(r.whole(8), r.whole(8)),
        _ => Vector::new(size * r.unit(), size * r.unit()),
    }
}

pub fn movement(r: &mut Random) -> Sweep {
    let size = r.pick(&[4.0, 12.0, 12.0, 100.0, 1e5]);
    let q1 = angle(r);
    let turns = r.below(2) == 1;
    Sweep {
        local_center: if r.below(2) == 0 { Vector::ZERO } else { vector(r, 1.0) },
        c1: vector(r, size),
        c2: vector(r, size),
        q1,
        q2: if turns { angle(r) } else { q1 },
    }
}

/// The number of cache i's pair: 0, the largest, and any others, so that no other random number moves.
fn pair_number(i: u32) -> u32 {
    match i % 9 { 4 => 0, 8 => u32::MAX, _ => i.wrapping_mul(0x9e37_79b9) }
}

pub fn pool(r: &mut Random) -> Pool {
    let mut outlines: Vec<Outline> = (0..GOOD.outlines - 4).map(|_| outline(r)).collect();
    outlines.push(polygon(r, 64));
    outlines.push(of(64, || r.whole(1000)));
    outlines.push(of(64, || 50.0 * r.unit()));
    outlines.push(vec![LIMIT, -LIMIT, -LIMIT, LIMIT]);
    // outside: no points, odd lengths, 65 points, and single bad numbers at either end
    outlines.push(vec![]);
    outlines.push(vec![1.0]);
    outlines.push(vec![0.0, 1.0, 2.0]);
    outlines.push(of(65, || r.whole(9)));
    outlines.push(of(64, || r.whole(9)).into_iter().chain([1.0]).collect());
    while outlines.len() < 128 {
        let mut s = outline(r);
        let at = if outlines.len() % 2 == 0 { 0 } else { s.len() - 1 };
        s[at] = bad_numbers(Real::NAN)[outlines.len() % 6];
        outlines.push(s);
    }

    let edges = edge_rotations();
    let mut poses: Vec<Pose> = (0..GOOD.poses - 4).map(|_| { let size = r.pick(&[3.0, 10.0, 10.0, 1000.0]); Pose::from_parts(vector(r, size), angle(r)) }).collect();
    poses.push(Pose::from_parts(Vector::new(1.0, 2.0), edges[0]));
    poses.push(Pose::from_parts(Vector::new(-3.0, 0.5), edges[1]));
    poses.push(Pose::from_parts(Vector::new(LIMIT, -LIMIT), Rotation { c: 1.0, s: -0.0 }));
    poses.push(Pose::from_parts(Vector::new(-0.0, TINY), Rotation { c: -1.0, s: TINY }));
    poses.push(Pose::from_parts(Vector::ZERO, edges[2]));
    poses.push(Pose::from_parts(Vector::ZERO, edges[3]));
    if cfg!(feature = "f64") {
        // in f32 this one passes
        poses.push(Pose::from_parts(Vector::ZERO, Rotation { c: 1.0, s: f32::from_bits(0x3e00_0003) as Real }));
    }
    for (c, s) in [(Real::NAN, 0.0), (1.0, Real::NAN), (ABOVE_ONE, 0.0), (0.0, -ABOVE_ONE), (0.0, 0.0), (Real::INFINITY, 0.0)] {
        poses.push(Pose::from_parts(vector(r, 4.0), Rotation { c, s }));
    }
    while poses.len() < 64 {
        let bad = bad_numbers(Real::NAN)[poses.len() % 6];
        let v = if poses.len() % 2 == 0 { Vector::new(bad, 0.0) } else { Vector::new(1.0, bad) };
        poses.push(Pose::from_parts(v, angle(r)));
    }

    let caches = (0..64)
        .map(|i| {
            let mut c = SimplexCache { count: if i < 52 { (i % 4) as u8 } else { r.pick(&[4, 5, 17, 255]) }, ..Default::default() };
            let most = if i % 3 == 0 { 2 } else if i % 3 == 1 { 6 } else { 70 };
            for k in 0..3 {
                c.index_a[k] = r.below(most) as u32;
                c.index_b[k] = r.below(most) as u32;
            }
            if i % 13 == 12 { c.index_b[(i % 3) as usize] = u32::MAX; }
            Numbered { pair: pair_number(i), cache: c }
        })
        .collect();

    let mut radii: Vec<(Real, Real)> = vec![(0.0, 0.0), (-0.0, 0.0), (0.0, -0.0), (LIMIT, LIMIT), (LIMIT, 0.0), (TINY, 1e-30), (1.0, 1.0), (0.25, 0.0)];
    while radii.len() < GOOD.radii { radii.push((r.unit().abs() * 2.0, r.unit().abs())); }
    for x in [Real::NAN, Real::INFINITY, ABOVE_LIMIT, -1.0] { radii.push((x, 1.0)); radii.push((0.5, if x == -1.0 { -TINY } else { x })); }

    let mut moves: Vec<Sweep> = (0..GOOD.moves - 4).map(|_| movement(r)).collect();
    for k in 0..4 {
        let mut w = movement(r);
        match k { 0 => w.q2 = edges[0], 1 => w.q1 = edges[1], 2 => w.c2 = Vector::new(LIMIT, -LIMIT), _ => w.local_center = Vector::new(-0.0, LIMIT) }
        moves.push(w);
    }
    while moves.len() < 128 {
        let mut w = movement(r);
        let bad = bad_numbers(Real::NAN)[moves.len() % 6];
        match moves.len() % 8 {
            0 => w.q1.c = Real::NAN,
            1 => w.q2 = edges[2],
            2 => w.q1 = edges[3],
            3 => w.q2.s = 1.5,
            4 => w.c1.x = bad,
            5 => w.c2.y = bad,
            6 => w.local_center.x = bad,
            _ => { w.local_center.y = bad; w.q1 = edges[2] }
        }
        moves.push(w);
    }

    let fractions = vec![1.0, 1.0, 1.0, 1.0, 0.5, 0.0, -0.0, TINY, BELOW_ONE, 0.21619e0,
        ABOVE_ONE, -TINY, Real::NAN, Real::INFINITY, Real::NEG_INFINITY, 2.0];
    let mut slops = [&[0.005, 0.005, 0.005, 0.005, 0.01, 0.5, 0.5, 1e-3, 1e-6], &SMALL_SLOPS[..], &[LIMIT, 100.0, 10.0, 1.0, 0.25]].concat();
    while slops.len() < GOOD.slops { slops.push(r.unit().abs() * 0.1 + 1e-6); }
    slops.extend([0.0, -0.0, -1.0, Real::NAN, Real::INFINITY, ABOVE_LIMIT, -TINY, Real::NEG_INFINITY]);
    if cfg!(feature = "f64") {
        outlines[NEAR_OUTLINES].fill_with(|| thin(r));
        poses[NEAR_POSES].fill_with(|| Pose::from_parts(near(r), quarter(r)));
        moves[NEAR_MOVES].fill_with(|| near_movement(r));
        for x in radii[8..GOOD.radii].iter_mut().step_by(2) { *x = (0.0, 0.0) }
    }
    Pool { outlines, poses, caches, radii, moves, fractions, slops }
}
