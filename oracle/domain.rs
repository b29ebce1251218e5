//! The checks that the project adds, from the rules, by the operations of the width: the first number that applies, or 0.
use crate::math::{Pose, Real, Rotation, Vector};
use crate::sweep_toi::sweep::Sweep;

pub const LIMIT: Real = 1_048_576.0;

fn bad_outline(numbers: &[Real]) -> bool {
    numbers.is_empty() || numbers.len() % 2 == 1 || numbers.len() > 128
}

fn bad_part(x: Real) -> bool {
    !x.is_finite() || x.abs() > LIMIT
}

fn bad_vector(v: Vector) -> bool {
    bad_part(v.x) || bad_part(v.y)
}

fn bad_radius(r: Real) -> bool {
    !r.is_finite() || r < 0.0 || r > LIMIT
}

fn bad_rotation(q: Rotation) -> bool {
    let square = q.c * q.c + q.s * q.s;
    q.c.is_nan() || q.s.is_nan() || q.c.abs() > 1.0 || q.s.abs() > 1.0 || square < 0.984375 || square > 1.015625
}

fn first(tests: &[(u32, bool)]) -> u32 {
    tests.iter().find(|t| t.1).map_or(0, |t| t.0)
}

/// Numbers 1 to 4.
pub fn pair(a: &[Real], b: &[Real], ra: Real, rb: Real) -> u32 {
    let parts = |s: &[Real]| s.iter().any(|&x| bad_part(x));
    first(&[
        (1, bad_outline(a)),
        (2, bad_outline(b)),
        (3, parts(a) || parts(b)),
        (4, bad_radius(ra) || bad_radius(rb)),
    ])
}

/// Numbers 5 and 6 of a pose.
pub fn pose(p: &Pose) -> u32 {
    first(&[(5, bad_rotation(p.rotation)), (6, bad_vector(p.translation))])
}

/// Number 12: a cache of so many corner pairs has the caller's number, unless it is empty.
pub fn cache(count: u8, number: u32, callers: u32) -> u32 {
    first(&[(12, count != 0 && number != callers)])
}

/// Numbers 5 to 8 of a sweep.
pub fn sweep(a: &Sweep, b: &Sweep, max_fraction: Real, slop: Real) -> u32 {
    let centres = |w: &Sweep| bad_vector(w.local_center) || bad_vector(w.c1) || bad_vector(w.c2);
    first(&[
        (5, [a.q1, a.q2, b.q1, b.q2].into_iter().any(bad_rotation)),
        (6, centres(a) || centres(b)),
        (7, !(max_fraction >= 0.0 && max_fraction <= 1.0)),
        (8, slop.is_nan() || slop <= 0.0 || slop > LIMIT),
    ])
}

pub fn or(first: u32, then: impl FnOnce() -> u32) -> u32 {
    if first != 0 {
        first
    } else {
        then()
    }
}
