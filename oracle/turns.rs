//! What S misses when something turns, tried: random moves of convex outlines, and where the answer is S the nearest place of the whole move, worked
//! out in f64 beside it, against the bound of docs/TURNS.md.
use crate::batches::{block, Job};
use crate::math::{Rotation, Vector};
use crate::random::Random;
use crate::sweep;
use crate::sweep_toi::sweep::Sweep;
use std::io::Write;

type Point = (f64, f64);

const SLOP: f32 = 0.005;

/// What a kind of moves is like: the largest turn in degrees, the largest travel, whether B moves as A does, and how far off a turning centre lies.
struct Kind {
    turn: f32,
    travel: f32,
    both: bool,
    off: f32,
}

const fn kind(turn: f32, travel: f32, both: bool, off: f32) -> Kind {
    Kind { turn, travel, both, off }
}

const KINDS: [Kind; 10] = [
    kind(0.0, 8.0, false, 0.0),
    kind(0.0, 8.0, true, 0.0),
    kind(10.0, 0.0, false, 4.0),
    kind(10.0, 8.0, false, 0.0),
    kind(10.0, 8.0, true, 4.0),
    kind(90.0, 0.0, false, 0.0),
    kind(90.0, 0.0, false, 4.0),
    kind(90.0, 8.0, false, 0.0),
    kind(90.0, 8.0, true, 4.0),
    kind(166.0, 8.0, true, 4.0),
];

/// The corners of the convex shape around 3 to 7 random points.
fn outline(r: &mut Random) -> Vec<f32> {
    let (wide, high) = (1.0 + 5.0 * r.unit().abs(), 1.0 + 5.0 * r.unit().abs());
    let mut points: Vec<(f32, f32)> = (0..3 + r.below(5)).map(|_| (wide * r.unit(), high * r.unit())).collect();
    points.sort_by(|p, q| p.partial_cmp(q).unwrap());
    let right = |o: (f32, f32), p: (f32, f32), q: (f32, f32)| (p.0 - o.0) as f64 * (q.1 - o.1) as f64 <= (p.1 - o.1) as f64 * (q.0 - o.0) as f64;
    let mut hull: Vec<(f32, f32)> = Vec::new();
    for pass in 0..2 {
        let start = hull.len();
        for &p in &points {
            while hull.len() >= start + 2 && right(hull[hull.len() - 2], hull[hull.len() - 1], p) {
                hull.pop();
            }
            hull.push(p);
        }
        hull.pop();
        if pass == 0 {
            points.reverse();
        }
    }
    hull.into_iter().flat_map(|p| [p.0, p.1]).collect()
}

fn movement(r: &mut Random, k: &Kind, moves: bool) -> Sweep {
    let rotation = |t: f32| Rotation { c: t.cos(), s: t.sin() };
    let any = |r: &mut Random, size: f32| Vector::new(size * r.unit(), size * r.unit());
    let (c1, first) = (any(r, 8.0), 3.1415927 * r.unit());
    let (travel, way, turn) = (k.travel * r.unit().abs(), 3.1415927 * r.unit(), k.turn.to_radians() * r.unit());
    let m = Sweep { local_center: any(r, k.off), c1, c2: c1, q1: rotation(first), q2: rotation(first) };
    if moves {
        Sweep { c2: Vector::new(c1.x + travel * way.cos(), c1.y + travel * way.sin()), q2: rotation(first + turn), ..m }
    } else {
        m
    }
}

fn part(x: f32, y: f32, t: f64) -> f64 {
    (1.0 - t) * x as f64 + t * y as f64
}

/// The corners at fraction t.
fn placed(o: &[f32], m: &Sweep, t: f64) -> Vec<Point> {
    let (c, s) = (part(m.q1.c, m.q2.c, t), part(m.q1.s, m.q2.s, t));
    let (c, s) = (c / c.hypot(s), s / c.hypot(s));
    let at = |p: &[f32]| {
        let (x, y) = ((p[0] - m.local_center.x) as f64, (p[1] - m.local_center.y) as f64);
        (part(m.c1.x, m.c2.x, t) + c * x - s * y, part(m.c1.y, m.c2.y, t) + s * x + c * y)
    };
    o.chunks_exact(2).map(at).collect()
}

/// How far apart two convex outlines of three corners or more are; below 0 the depth of their overlap.
fn apart(a: &[Point], b: &[Point]) -> f64 {
    let (mut depth, mut distance) = (f64::NEG_INFINITY, f64::INFINITY);
    for (p, q) in [(a, b), (b, a)] {
        for i in 0..p.len() {
            let (s, e) = (p[i], p[(i + 1) % p.len()]);
            let (x, y) = (e.0 - s.0, e.1 - s.1);
            let long = x.hypot(y);
            depth = depth.max(q.iter().map(|v| ((v.0 - s.0) * y - (v.1 - s.1) * x) / long).fold(f64::INFINITY, f64::min));
            for v in q {
                let t = (((v.0 - s.0) * x + (v.1 - s.1) * y) / (long * long)).clamp(0.0, 1.0);
                distance = distance.min((s.0 + t * x - v.0).hypot(s.1 + t * y - v.1));
            }
        }
    }
    if depth > 0.0 { distance } else { depth }
}

/// The least of f over 0 to 1: the best of 401 places, and then between its neighbours.
fn least(f: impl Fn(f64) -> f64) -> f64 {
    let best = (0..=400).min_by(|&i, &j| f(i as f64 / 400.0).total_cmp(&f(j as f64 / 400.0))).unwrap() as f64;
    let (mut from, mut to) = (((best - 1.0) / 400.0).max(0.0), ((best + 1.0) / 400.0).min(1.0));
    for _ in 0..40 {
        let (u, v) = (from + (to - from) / 3.0, to - (to - from) / 3.0);
        if f(u) < f(v) { to = v } else { from = u }
    }
    f(from).min(f(best / 400.0))
}

/// What docs/TURNS.md allows to be missed.
fn allowed(a: &[f32], wa: &Sweep, b: &[f32], wb: &Sweep) -> f64 {
    let reach = |o: &[f32], m: &Sweep| {
        o.chunks_exact(2).map(|p| ((p[0] - m.local_center.x) as f64).hypot((p[1] - m.local_center.y) as f64)).fold(0.0, f64::max)
    };
    let turn = |m: &Sweep| {
        let (p, q) = ((m.q1.c as f64, m.q1.s as f64), (m.q2.c as f64, m.q2.s as f64));
        (p.0 * q.1 - p.1 * q.0).atan2(p.0 * q.0 + p.1 * q.1).abs()
    };
    let (ra, rb, ta, tb) = (reach(a, wa), reach(b, wb), turn(wa) / 2.0, turn(wb) / 2.0);
    let travel = |x: [f32; 4]| (x[1] - x[0]) as f64 - (x[3] - x[2]) as f64;
    let travel = travel([wa.c1.x, wa.c2.x, wb.c1.x, wb.c2.x]).hypot(travel([wa.c1.y, wa.c2.y, wb.c1.y, wb.c2.y]));
    let aside = |half: f64, other: f64, r: f64| 0.5 * (travel + 2.0 * r * other.sin()) * half.tan();
    ra * (1.0 / ta.cos() - 1.0) + rb * (1.0 / tb.cos() - 1.0) + aside(ta, tb, rb).max(aside(tb, ta, ra))
}

/// A random move of a kind, of bodies a quarter of which have radii.
fn any(r: &mut Random, k: &Kind) -> Job {
    let (a, b) = (outline(r), outline(r));
    let moves = [movement(r, k, true), movement(r, k, k.both)];
    let round = r.below(4) == 0;
    let radius = |r: &mut Random| if round { 0.5 * r.unit().abs() } else { 0.0 };
    Job { a, b, head: [radius(r), radius(r), 1.0, SLOP], moves }
}

/// `count` moves of each kind, as blocks.
pub fn batch(seed: u64, count: u64) {
    let mut r = Random(seed);
    let mut out = std::io::BufWriter::new(std::io::stdout().lock());
    for (i, k) in KINDS.iter().enumerate() {
        for n in 1..=count {
            out.write_all(&block((i as u64 * count + n) as u32, &any(&mut r, k))).unwrap();
        }
    }
}

/// `count` moves of each kind.
pub fn run(seed: u64, count: u64) {
    println!("| largest turn, travel | B too | centre off by | S | nearer than target + tolerance | overlapping | most missed | nearer than allowed |");
    println!("|---|---|---|---|---|---|---|---|");
    let mut r = Random(seed);
    for k in &KINDS {
        let (mut clear, mut nearer, mut overlapping, mut beyond, mut most) = (0, 0, 0, 0, 0f64);
        for _ in 0..count {
            let Job { a, b, head: [ra, rb, _, _], moves: [wa, wb] } = any(&mut r, k);
            let x = sweep::answer(&a, ra, &wa, &b, rb, &wb, 1.0, SLOP);
            if x.refused != 0 || x.status != 2 {
                continue;
            }
            clear += 1;
            let nearest = least(|t| apart(&placed(&a, &wa, t), &placed(&b, &wb, t)));
            let (target, tolerance) = (SLOP.max(ra + rb - SLOP) as f64, 0.25 * SLOP as f64);
            // f32 may be off by a little
            nearer += (nearest < target + tolerance - 1e-5) as u32;
            overlapping += (nearest <= 0.0) as u32;
            beyond += (nearest < target - tolerance - allowed(&a, &wa, &b, &wb) - 1e-5) as u32;
            most = most.max(target + tolerance - nearest);
        }
        let which = if k.both { "yes" } else { "no" };
        println!("| {}°, {} | {which} | {} | {clear} | {nearer} | {overlapping} | {:.3} | {beyond} |", k.turn, k.travel, k.off, most.max(0.0));
    }
}
