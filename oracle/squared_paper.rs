//! Demand 3 tested by running: on squared paper within 16 a distance call never ends at the round limit, it ends touching exactly when the outlines share a
//! point, and otherwise the corners in the returned cache span a nearest place; and from one solve to the next what is kept comes nearer to the origin, or it
//! comes as near and the call settles there; and with the outlines exchanged or B shifted the nearest difference is the same, seen from there. What is right
//! is worked out here in whole numbers and fractions of them, with no float. In f64 the same within 2,048, where a call may end at the round limit.
use crate::counts;
use crate::math::{Pose, Real, Rotation, Vector};
use crate::random::Random;
use crate::sweep_toi::proxy_distance::{proxy_distance, SimplexCache};
use crate::sweep_toi::toi_proxy::ToiProxy;
use std::time::Instant;

/// How far apart points may lie on each axis.
const BOUND: i64 = if cfg!(feature = "f64") { 2048 } else { 16 };

// ---- exact geometry

type Point = (i64, i64);

/// A fraction that is not negative; compared by cross-multiplying.
#[derive(Copy, Clone, Debug)]
struct Fraction(i128, i128);

impl Fraction {
    fn below(self, b: Fraction) -> bool {
        self.0 * b.1 < b.0 * self.1
    }

    fn least(self, b: Fraction) -> Fraction {
        if b.below(self) {
            b
        } else {
            self
        }
    }
}

fn minus(a: Point, b: Point) -> Point {
    (a.0 - b.0, a.1 - b.1)
}

fn dot(a: Point, b: Point) -> i64 {
    a.0 * b.0 + a.1 * b.1
}

fn perp(a: Point, b: Point) -> i64 {
    a.0 * b.1 - a.1 * b.0
}

fn side(a: Point, b: Point, p: Point) -> i64 {
    perp(minus(b, a), minus(p, a)).signum()
}

/// The squared distance from p to the segment from a to b, which may be a point.
fn to_segment(p: Point, a: Point, b: Point) -> Fraction {
    let (e, d) = (minus(b, a), minus(p, a));
    let (along, whole) = (dot(d, e), dot(e, e));
    if along <= 0 {
        Fraction(dot(d, d) as i128, 1)
    } else if along >= whole {
        let d = minus(p, b);
        Fraction(dot(d, d) as i128, 1)
    } else {
        let across = perp(e, d) as i128;
        Fraction(across * across, whole as i128)
    }
}

/// Whether the triangle, if it is one, holds p; its edges belong to it.
fn in_triangle(p: Point, a: Point, b: Point, c: Point) -> bool {
    let whole = side(a, b, c);
    whole != 0 && [side(a, b, p), side(b, c, p), side(c, a, p)].iter().all(|s| s * whole >= 0)
}

fn cross(a: Point, b: Point, c: Point, d: Point) -> bool {
    side(a, b, c) * side(a, b, d) < 0 && side(c, d, a) * side(c, d, b) < 0
}

/// The squared distance of two outlines, by all their points, segments and triangles.
fn between(a: &[Point], b: &[Point]) -> Fraction {
    let mut least = one_way(a, b).least(one_way(b, a));
    for i in 0..a.len() {
        for j in 0..i {
            for k in 0..b.len() {
                for l in 0..k {
                    if cross(a[i], a[j], b[k], b[l]) {
                        least = Fraction(0, 1);
                    }
                }
            }
        }
    }
    least
}

/// From the points of a to b.
fn one_way(a: &[Point], b: &[Point]) -> Fraction {
    let mut least = Fraction(i64::MAX as i128, 1);
    for &p in a {
        for i in 0..b.len() {
            for j in 0..=i {
                least = least.least(to_segment(p, b[i], b[j]));
                for k in 0..j {
                    if in_triangle(p, b[i], b[j], b[k]) {
                        least = Fraction(0, 1);
                    }
                }
            }
        }
    }
    least
}

/// The same of larger outlines: from the origin to the hull of all differences.
fn between_hulls(a: &[Point], b: &[Point]) -> Fraction {
    let mut all: Vec<Point> = a.iter().flat_map(|&p| b.iter().map(move |&q| minus(p, q))).collect();
    all.sort();
    all.dedup();
    let mut hull: Vec<Point> = Vec::new();
    for pass in 0..2 {
        let start = hull.len();
        for &p in &all {
            while hull.len() >= start + 2 && perp(minus(hull[hull.len() - 1], hull[hull.len() - 2]), minus(p, hull[hull.len() - 2])) <= 0 {
                hull.pop();
            }
            hull.push(p);
        }
        hull.pop();
        if pass == 0 {
            all.reverse();
        }
    }
    if hull.is_empty() {
        hull.push(all[0]);
    }
    let n = hull.len();
    if n > 2 && (0..n).all(|i| side(hull[i], hull[(i + 1) % n], (0, 0)) >= 0) {
        return Fraction(0, 1);
    }
    (0..n).map(|i| to_segment((0, 0), hull[i], hull[(i + 1) % n])).reduce(Fraction::least).unwrap()
}

/// The least squared length that weights on at most three places can reach.
fn spanned(places: &[Point]) -> Fraction {
    one_way(&[(0, 0)], places)
}

/// A point whose parts are fractions: both numbers divided by the third, which is above 0.
#[derive(Copy, Clone, Debug)]
struct Place(i128, i128, i128);

impl Place {
    fn is(self, b: Place) -> bool {
        self.0 * b.2 == b.0 * self.2 && self.1 * b.2 == b.1 * self.2
    }

    fn squared(self) -> Fraction {
        Fraction(self.0 * self.0 + self.1 * self.1, self.2 * self.2)
    }

    /// Negated, and turned by the cosine c and the sine s.
    fn negated_and_turned(self, c: i128, s: i128) -> Place {
        Place(s * self.1 - c * self.0, -s * self.0 - c * self.1, self.2)
    }
}

/// The place of a point or of a segment that is nearest to the origin.
fn nearest(places: &[Point]) -> Place {
    let whole = |p: Point| Place(p.0 as i128, p.1 as i128, 1);
    let mut best = whole(places[0]);
    let mut take = |p: Place| {
        if p.squared().below(best.squared()) {
            best = p;
        }
    };
    for (i, &w) in places.iter().enumerate() {
        take(whole(w));
        for &u in &places[..i] {
            let e = minus(w, u);
            let (near, far) = (dot(w, e) as i128, -dot(u, e) as i128);
            if near > 0 && far > 0 {
                take(Place(near * u.0 as i128 + far * w.0 as i128, near * u.1 as i128 + far * w.1 as i128, near + far));
            }
        }
    }
    best
}

// ---- one call

struct Job<'a> {
    a: &'a [Vector],
    b: &'a [Vector],
    pose: Pose,
    whole_a: &'a [Point],
    posed_b: &'a [Point],
    least: Fraction,
}

/// How a call ended, and the cache that it returned.
struct Called {
    ending: u32,
    cache: SimplexCache,
    rounds: u32,
}

#[derive(Default)]
struct Tally {
    calls: u64,
    endings: [u64; 3],
    rounds: u32,
    /// rounds that another solve followed: it kept what is nearer, or as near
    nearer: u64,
    stayed: u64,
}

impl Tally {
    /// Makes the call and looks at what the claims say of it.
    fn call(&mut self, job: &Job, radii: (Real, Real, bool), given: SimplexCache) -> Called {
        let (a, b) = (ToiProxy::from_points(job.a, radii.0), ToiProxy::from_points(job.b, radii.1));
        let mut cache = given;
        let output = proxy_distance(&job.pose, &a, &b, radii.2, &mut cache);
        let ending = counts::last_ending();
        self.calls += 1;
        self.endings[ending as usize] += 1;
        self.rounds = self.rounds.max(output.iterations);
        let n = cache.count as usize;
        let right = match ending {
            counts::TOUCHING => job.least.0 == 0 && same(&cache, &given, 0) && cache.count == given.count,
            counts::SETTLED => {
                let named = (1..=3).contains(&n) && (0..n).all(|i| (cache.index_a[i] as usize) < job.a.len() && (cache.index_b[i] as usize) < job.b.len());
                named && job.least.0 != 0 && same(&cache, &given, n) && {
                    let places: Vec<Point> = (0..n).map(|i| minus(job.whole_a[cache.index_a[i] as usize], job.posed_b[cache.index_b[i] as usize])).collect();
                    !job.least.below(spanned(&places))
                }
            }
            // 20 rounds never run out within 16; further apart, in f64, they may
            _ => BOUND > 16,
        };
        let mut last: Option<Fraction> = None;
        let (mut stays, mut circles) = (0, false);
        counts::take_kept(|corners| {
            let mut places = [(0, 0); 3];
            for (place, &(i, j)) in places.iter_mut().zip(corners) {
                *place = minus(job.whole_a[i], job.posed_b[j]);
            }
            let length = spanned(&places[..corners.len()]);
            circles |= stays > 0;
            if let Some(before) = last {
                if length.below(before) {
                    self.nearer += 1;
                } else {
                    stays += 1;
                    circles |= before.below(length);
                }
            }
            last = Some(length);
        });
        self.stayed += stays;
        if !right || circles || (stays > 0 && ending != counts::SETTLED) {
            println!("WRONG: ending {ending}, least {:?}, A {:?}, B {:?}, pose {:?}, cache {given:?} to {cache:?}", job.least, job.a, job.b, job.pose);
            std::process::exit(1);
        }
        Called { ending, cache, rounds: output.iterations }
    }

    fn tell(&self, what: &str, since: Instant) {
        let [touching, settled, limit] = self.endings;
        println!("{what}: {} calls, {touching} touching, {settled} settled, {limit} round limit, most rounds {}, {} s", self.calls, self.rounds, since.elapsed().as_secs());
        println!("  rounds that another followed: {} came nearer, {} stayed and settled", self.nearer, self.stayed);
    }
}

/// Two caches agree in every entry from the count on.
fn same(a: &SimplexCache, b: &SimplexCache, count: usize) -> bool {
    a.index_a[count..] == b.index_a[count..] && a.index_b[count..] == b.index_b[count..]
}

// ---- all small outlines

/// Every set of 1 to most points of a grid of n by n, in order.
fn outlines(n: i64, most: usize) -> Vec<Vec<Point>> {
    let grid: Vec<Point> = (0..n * n).map(|i| (i % n, i / n)).collect();
    let mut all: Vec<Vec<usize>> = (0..grid.len()).map(|i| vec![i]).collect();
    let mut from = 0;
    for _ in 1..most {
        let to = all.len();
        for i in from..to {
            for next in all[i][all[i].len() - 1] + 1..grid.len() {
                let mut longer = all[i].clone();
                longer.push(next);
                all.push(longer);
            }
        }
        from = to;
    }
    all.iter().map(|o| o.iter().map(|&i| grid[i]).collect()).collect()
}

fn floats(o: &[Point]) -> Vec<Vector> {
    o.iter().map(|p| Vector::new(p.0 as Real, p.1 as Real)).collect()
}

/// Every cache whose counted entries name corners.
fn valid_caches(na: u32, nb: u32) -> Vec<SimplexCache> {
    let pairs: Vec<(u32, u32)> = (0..na).flat_map(|i| (0..nb).map(move |j| (i, j))).collect();
    let mut all = vec![SimplexCache::default()];
    for count in 1..=3u32 {
        for code in 0..(pairs.len() as u32).pow(count) {
            let mut cache = SimplexCache { count: count as u8, ..SimplexCache::default() };
            let mut rest = code as usize;
            for i in 0..count as usize {
                (cache.index_a[i], cache.index_b[i]) = pairs[rest % pairs.len()];
                rest /= pairs.len();
            }
            all.push(cache);
        }
    }
    all
}

const STILL: Pose = Pose { rotation: Rotation { c: 1.0, s: 0.0 }, translation: Vector::ZERO };

fn all_pairs(grid: i64, most: usize, what: &str, mut caches: impl FnMut(u32, u32) -> Vec<SimplexCache>) {
    let since = Instant::now();
    let all = outlines(grid, most);
    let lists: Vec<Vec<Vector>> = all.iter().map(|o| floats(o)).collect();
    let mut tally = Tally::default();
    for (a, fa) in all.iter().zip(&lists) {
        for (b, fb) in all.iter().zip(&lists) {
            let job = Job { a: fa, b: fb, pose: STILL, whole_a: a, posed_b: b, least: between(a, b) };
            for cache in caches(a.len() as u32, b.len() as u32) {
                tally.call(&job, (0.0, 0.0, false), cache);
            }
        }
    }
    tally.tell(&format!("{} outlines of 1 to {most} points on a {grid} by {grid} grid, all pairs, {what}", all.len()), since);
}

// ---- random calls

/// Entries that name corners, that name none, and counts up to 255.
fn any_cache(random: &mut Random, na: u32, nb: u32) -> SimplexCache {
    let loose = random.below(8) == 0;
    let index = |random: &mut Random, n: u32| match (loose, random.below(6)) {
        (true, 0) => random.next() as u32,
        (true, 1) => n,
        _ => random.below(n as u64) as u32,
    };
    let count = if random.below(16) == 0 { random.below(256) as u8 } else { random.below(4) as u8 };
    let mut cache = SimplexCache { count, ..SimplexCache::default() };
    for i in 0..3 {
        cache.index_a[i] = index(random, na);
        cache.index_b[i] = index(random, nb);
    }
    cache
}

/// A number, and for 0 either zero.
fn float(random: &mut Random, x: i64) -> Real {
    if x == 0 {
        random.pick(&[0.0, -0.0])
    } else {
        x as Real
    }
}

/// On one axis: A's interval and posed B's, with every difference at most the bound in size.
fn intervals(random: &mut Random, bound: i64) -> [i64; 4] {
    let base = random.below(1 << 20) as i64 - (1 << 19);
    let wide_a = random.below(bound as u64 + 1) as i64;
    let gap = wide_a - bound + random.below((2 * bound - wide_a + 1) as u64) as i64;
    let wide_b = random.below((bound - gap + 1) as u64) as i64;
    [base, wide_a, base + gap, wide_b]
}

fn within(random: &mut Random, from: i64, wide: i64) -> i64 {
    from + random.below(wide as u64 + 1) as i64
}

fn turned((c, s): Point, p: Point) -> Point {
    (c * p.0 - s * p.1, s * p.0 + c * p.1)
}

fn turned_back((c, s): Point, p: Point) -> Point {
    (c * p.0 + s * p.1, c * p.1 - s * p.0)
}

/// Two outlines on squared paper in whole numbers: A, B, and B posed by a quarter-turn and a shift.
struct Pair {
    a: Vec<Point>,
    b: Vec<Point>,
    posed: Vec<Point>,
    turn: Point,
    shift: Point,
}

impl Pair {
    /// With at most `most` points each; may lie outside the domain.
    fn random(random: &mut Random, bound: i64, most: u64) -> Pair {
        let (na, nb) = (1 + random.below(most), 1 + random.below(most));
        let (x, y) = (intervals(random, bound), intervals(random, bound));
        let a: Vec<Point> = (0..na).map(|_| (within(random, x[0], x[1]), within(random, y[0], y[1]))).collect();
        let posed: Vec<Point> = (0..nb).map(|_| (within(random, x[2], x[3]), within(random, y[2], y[3]))).collect();
        let turn = random.pick(&[(1, 0), (0, 1), (-1, 0), (0, -1)]);
        let shift = (random.below(1 << 20) as i64 - (1 << 19), random.below(1 << 20) as i64 - (1 << 19));
        let b = posed.iter().map(|p| turned_back(turn, minus(*p, shift))).collect();
        Pair { a, b, posed, turn, shift }
    }

    fn in_domain(&self) -> bool {
        self.a.iter().chain(&self.b).chain([&self.shift]).all(|p| p.0.abs() <= 1 << 20 && p.1.abs() <= 1 << 20)
    }

    /// The outlines exchanged, under the inverse pose.
    fn exchanged(&self) -> Pair {
        let (c, s) = self.turn;
        let posed = self.a.iter().map(|p| turned_back(self.turn, minus(*p, self.shift))).collect();
        Pair { a: self.b.clone(), b: self.a.clone(), posed, turn: (c, -s), shift: turned_back(self.turn, minus((0, 0), self.shift)) }
    }

    /// All points of B moved, and that move, turned, taken off the shift.
    fn moved(&self, by: Point) -> Pair {
        let b = self.b.iter().map(|p| (p.0 + by.0, p.1 + by.1)).collect();
        Pair { a: self.a.clone(), b, posed: self.posed.clone(), turn: self.turn, shift: minus(self.shift, turned(self.turn, by)) }
    }

    /// What the call gets, with zeros of either sign.
    fn drawn(&self, random: &mut Random) -> (Vec<Vector>, Vec<Vector>, Pose) {
        let list = |random: &mut Random, o: &[Point]| -> Vec<Vector> { o.iter().map(|p| Vector::new(float(random, p.0), float(random, p.1))).collect() };
        let (a, b) = (list(random, &self.a), list(random, &self.b));
        let rotation = Rotation { c: float(random, self.turn.0), s: float(random, self.turn.1) };
        let translation = Vector::new(float(random, self.shift.0), float(random, self.shift.1));
        (a, b, Pose::from_parts(translation, rotation))
    }

    fn least(&self, most: u64) -> Fraction {
        if most > 4 {
            return between_hulls(&self.a, &self.posed);
        }
        let (least, again) = (between(&self.a, &self.posed), between_hulls(&self.a, &self.posed));
        assert!(!again.below(least) && !least.below(again), "the two ways to measure differ: {:?} {:?}", self.a, self.posed);
        least
    }

    /// A call from a random cache: the nearest difference that it tells, and the corner pairs named; nothing at the round limit.
    fn told(&self, random: &mut Random, tally: &mut Tally, least: Fraction) -> Option<(Place, Vec<(u32, u32)>)> {
        let (a, b, pose) = self.drawn(random);
        let job = Job { a: &a, b: &b, pose, whole_a: &self.a, posed_b: &self.posed, least };
        let (radii, cache) = (any_radii(random), any_cache(random, a.len() as u32, b.len() as u32));
        let Called { ending, cache, .. } = tally.call(&job, radii, cache);
        let named: Vec<(u32, u32)> = (0..cache.count.min(3) as usize).map(|i| (cache.index_a[i], cache.index_b[i])).collect();
        match ending {
            counts::TOUCHING => Some((Place(0, 0, 1), Vec::new())),
            counts::SETTLED => {
                let places: Vec<Point> = named.iter().map(|&(i, j)| minus(self.a[i as usize], self.posed[j as usize])).collect();
                Some((nearest(&places), named))
            }
            _ => None,
        }
    }
}

fn any_radii(random: &mut Random) -> (Real, Real, bool) {
    (random.below(1 << 20) as Real / 64.0, random.below(1 << 20) as Real / 64.0, random.below(2) == 0)
}

fn random_calls(bound: i64, calls: u64, seed: u64) {
    let since = Instant::now();
    let random = &mut Random(seed);
    let mut tally = Tally::default();
    while tally.calls < calls {
        let most = random.pick(&[2, 4, 6, 6, 10, 64]);
        let pair = Pair::random(random, bound, most);
        if !pair.in_domain() {
            continue;
        }
        let (a, b, pose) = pair.drawn(random);
        let job = Job { a: &a, b: &b, pose, whole_a: &pair.a, posed_b: &pair.posed, least: pair.least(most) };
        for _ in 0..4 {
            let radii = any_radii(random);
            let cache = any_cache(random, a.len() as u32, b.len() as u32);
            tally.call(&job, radii, cache);
        }
    }
    tally.tell(&format!("random calls within {bound}, seed {seed}"), since);
}

/// Random pairs, each called as it is, with the outlines exchanged and with B shifted: the nearest difference is the same, seen from there.
fn either_way(bound: i64, pairs: u64, seed: u64) {
    let since = Instant::now();
    let random = &mut Random(seed);
    let mut tally = Tally::default();
    let (mut done, mut touching, mut skipped, mut otherwise) = (0, 0, 0, 0);
    while done < pairs {
        let most = random.pick(&[2, 4, 6, 6, 10, 64]);
        let pair = Pair::random(random, bound, most);
        let by = (random.below(1 << 19) as i64 - (1 << 18), random.below(1 << 19) as i64 - (1 << 18));
        let (exchanged, moved) = (pair.exchanged(), pair.moved(by));
        if !(pair.in_domain() && exchanged.in_domain() && moved.in_domain()) {
            continue;
        }
        done += 1;
        let least = pair.least(most);
        let (here, there, after) = (pair.told(random, &mut tally, least), exchanged.told(random, &mut tally, least), moved.told(random, &mut tally, least));
        let ((u, named), (v, named_there), (w, _)) = match (here, there, after) {
            (Some(x), Some(y), Some(z)) => (x, y, z),
            _ => {
                skipped += 1;
                continue;
            }
        };
        if !(u.is(v.negated_and_turned(pair.turn.0 as i128, pair.turn.1 as i128)) && u.is(w)) {
            println!("WRONG: {u:?}, exchanged {v:?}, shifted {w:?}: A {:?}, B {:?}, turn {:?}, shift {:?}, by {by:?}", pair.a, pair.b, pair.turn, pair.shift);
            std::process::exit(1);
        }
        touching += (u.0 == 0 && u.1 == 0) as u64;
        otherwise += named.iter().any(|&(i, j)| !named_there.contains(&(j, i))) as u64;
    }
    println!(
        "either way within {bound}, seed {seed}: {done} pairs, {} calls, {touching} pairs touch, {skipped} at the round limit, {otherwise} name other corners when exchanged, {} s",
        tally.calls,
        since.elapsed().as_secs()
    );
}

// ---- hunted calls

/// A small change: a point moved, thrown anew, added beside another or taken away, or another start.
fn changed(random: &mut Random, bound: i64, points: &mut Vec<Point>, cache: &mut SimplexCache) {
    let any = |random: &mut Random, far: i64| random.below(2 * far as u64 + 1) as i64 - far;
    let near = |random: &mut Random, p: Point, far: i64| ((p.0 + any(random, far)).clamp(-bound, bound), (p.1 + any(random, far)).clamp(-bound, bound));
    let i = random.below(points.len() as u64) as usize;
    match random.below(10) {
        0..=3 => points[i] = near(random, points[i], 2),
        4..=5 => points[i] = near(random, points[i], bound / 4 + 1),
        6 => points[i] = near(random, (0, 0), bound),
        7 if points.len() < 16 => points.push(near(random, points[i], 3)),
        8 if points.len() > 3 => drop(points.swap_remove(i)),
        _ => {
            cache.count = random.below(4) as u8;
            cache.index_a[random.below(3) as usize] = i as u32;
        }
    }
    for index in &mut cache.index_a {
        *index = (*index).min(points.len() as u32 - 1);
    }
}

/// How long can a call be made? The search depends on the differences alone, so B is the origin. From random points and a random start on, a change that
/// does not shorten the call is kept, until 20,000 in a row have not made it longer.
fn hunted_calls(bound: i64, calls: u64, seed: u64) {
    let since = Instant::now();
    let random = &mut Random(seed);
    let mut tally = Tally::default();
    let mut longest = (0, Vec::new(), SimplexCache::default());
    while tally.calls < calls {
        let mut best = (0, vec![(bound, 1); 6], SimplexCache::default());
        for _ in 0..100 {
            changed(random, bound, &mut best.1, &mut best.2);
        }
        let mut stale = 0;
        while stale < 20_000 && tally.calls < calls {
            let (mut points, mut cache) = (best.1.clone(), best.2);
            for _ in 0..1 + random.below(3) {
                changed(random, bound, &mut points, &mut cache);
            }
            let origin = [(0, 0)];
            let (a, b) = (floats(&points), floats(&origin));
            let job = Job { a: &a, b: &b, pose: STILL, whole_a: &points, posed_b: &origin, least: between_hulls(&points, &origin) };
            let rounds = tally.call(&job, (0.0, 0.0, false), cache).rounds;
            stale = if rounds > best.0 { 0 } else { stale + 1 };
            if rounds >= best.0 {
                best = (rounds, points, cache);
            }
        }
        if best.0 > longest.0 {
            longest = best;
        }
    }
    tally.tell(&format!("hunted calls within {bound}, seed {seed}"), since);
    println!("  a longest one: {:?}, from {:?}", longest.1, longest.2);
}

/// `millions` of random calls from `seed` on, in f32 after all small outlines; then half as many pairs, each called three ways; and `millions` of hunted calls.
pub fn run(millions: u64, seed: u64) {
    if !cfg!(rounds) {
        eprintln!("squared-paper: build with the cfg `rounds`, as tests/oracle/squared-paper.sh does");
        std::process::exit(2)
    }
    if cfg!(feature = "f32") {
        all_pairs(4, 3, "every valid cache", valid_caches);
        let mut random = Random(seed);
        all_pairs(4, 4, "an empty cache and seven random ones", |na, nb| {
            let mut caches = vec![SimplexCache::default()];
            caches.extend((0..7).map(|_| any_cache(&mut random, na, nb)));
            caches
        });
    }
    random_calls(BOUND, millions * 1_000_000, seed);
    either_way(BOUND, millions * 500_000, seed);
    hunted_calls(BOUND, millions * 1_000_000, seed);
}
