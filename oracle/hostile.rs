//! Distance calls in the domain that are meant to work out a distance that is not a number: sizes from the smallest float to the limit in one outline, points
//! that repeat or lie on one line but for a last digit, shifts that nearly cancel, any cache that is not refused.
use crate::counts;
use crate::domain;
use crate::math::{Pose, Real, Vector};
use crate::pool::{angle, edge_rotations, outline, points, quarter};
use crate::random::Random;
use crate::sweep_toi::proxy_distance::{proxy_distance, SimplexCache};
use crate::sweep_toi::toi_proxy::ToiProxy;
use crate::width::step;

const LIMIT: Real = 1048576.0;

/// A size from the smallest float to the limit.
fn size(r: &mut Random) -> Real {
    let lowest = Real::MIN_EXP as i64 - Real::MANTISSA_DIGITS as i64;
    let x = (2.0 as Real).powi((r.below((21 - lowest) as u64) as i64 + lowest) as i32);
    if x == 0.0 { Real::from_bits(1) } else { x.min(LIMIT) }
}

fn hostile(r: &mut Random) -> Vec<Real> {
    let (n, s) = (1 + r.below(8) as usize, size(r));
    let clamped = |x: Real| x.clamp(-LIMIT, LIMIT);
    match r.below(6) {
        0 => outline(r),
        1 => (0..2 * n).map(|_| clamped(size(r) * r.pick(&[1.0, -1.0, 0.0, -0.0]))).collect(),
        2 => (0..2 * n).map(|_| clamped(s * r.unit())).collect(),
        3 => (0..2 * n).map(|_| clamped(s * r.whole(3))).collect(),
        4 => {
            // on one line but for the last digits
            let (x, y) = (r.unit(), r.unit());
            let on: Vec<Real> = (0..n).flat_map(|_| { let t = r.unit(); [s * x * t, s * y * t] }).collect();
            on.into_iter().map(|v| clamped(step(v, r.below(5) as i32 - 2))).collect()
        }
        _ => {
            let around = (clamped(size(r)), clamped(size(r)));
            (0..n).flat_map(|_| [around.0, around.1]).map(|v| step(v, r.below(9) as i32 - 4)).map(clamped).collect()
        }
    }
}

pub fn run(seed: u64, count: u64) {
    let mut r = Random(seed);
    let edges = edge_rotations();
    let (mut calls, mut refused, mut ends, mut fresh, mut kept) = (0u64, 0u64, [0u64; 3], 0u64, 0u64);
    while calls < count {
        let (a, b) = (hostile(&mut r), hostile(&mut r));
        let rotation = match r.below(3) { 0 => quarter(&mut r), 1 => angle(&mut r), _ => r.pick(&edges) };
        let near = |r: &mut Random, i: usize| -> Real { a[2 * r.below(a.len() as u64 / 2) as usize + i] - b[2 * r.below(b.len() as u64 / 2) as usize + i] };
        let shift = match r.below(4) {
            0 => Vector::new(near(&mut r, 0), near(&mut r, 1)),
            1 => Vector::new(step(near(&mut r, 0), r.below(7) as i32 - 3), step(near(&mut r, 1), r.below(7) as i32 - 3)),
            2 => Vector::new(size(&mut r) * r.unit(), size(&mut r) * r.unit()),
            _ => Vector::new(0.0, 0.0),
        };
        // inside a sweep a shift is the difference of two places: up to some four times the limit
        let far = r.pick(&[1.0, 1.0, 4.0]);
        let pose = Pose::from_parts(Vector::new(far * shift.x, far * shift.y), rotation);
        let turned = Pose::from_parts(Vector::new(0.0, 0.0), rotation);
        let within = |x: Real| x.abs() <= 4.0 * LIMIT;
        if domain::or(domain::pair(&a, &b, 0.0, 0.0), || domain::pose(&turned)) != 0 || !within(far * shift.x) || !within(far * shift.y) {
            refused += 1;
            continue;
        }
        let (pa, pb) = (points(&a), points(&b));
        let held = r.below(2) * (1 + r.below(3));
        let mut index = |n: usize| [0; 3].map(|_: u32| r.below(n as u64) as u32);
        let mut cache = SimplexCache { index_a: index(pa.len()), index_b: index(pb.len()), count: held as u8 };
        let o = proxy_distance(&pose, &ToiProxy::from_points(&pa, 0.0), &ToiProxy::from_points(&pb, 0.0), false, &mut cache);
        calls += 1;
        ends[counts::last_ending() as usize] += 1;
        if o.distance.is_nan() {
            if held == 0 { fresh += 1 } else { kept += 1 }
            if fresh + kept <= 3 {
                println!("not a number: {a:?} {b:?} shift {far} times {shift:?} rotation {rotation:?}, {held} pairs in the cache, {} after it", cache.count);
            }
        }
    }
    println!("{calls} calls ({refused} more refused), ends {ends:?}; not a number: {fresh} from an empty cache, {kept} from another");
}
