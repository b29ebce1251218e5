//! Rows of the ground operations: 16 words each, little-endian: the operation's number, up to 8 inputs, up to 4 answers, the rest zero.
//! Every NaN in an answer is written as one (7FC00000, in f64 7FF8000000000000); inputs are written as they are.
use crate::math::{MaxOf, Pose, Real, Rotation, Vector};
use crate::random::Random;
use crate::width::{bits, step, Bits};
use crate::words::{self, Parts};

fn vector(x: &[Real]) -> Vector {
    Vector::new(x[0], x[1])
}

fn rotation(x: &[Real]) -> Rotation {
    Rotation { c: x[0], s: x[1] }
}

fn pose(x: &[Real]) -> Pose {
    Pose::from_parts(vector(&x[2..]), rotation(x))
}

fn parts(v: Vector) -> Vec<Real> {
    vec![v.x, v.y]
}

/// How many numbers each operation takes, from operation 1 on.
pub const INPUTS: [usize; 19] = [4, 4, 2, 4, 2, 5, 4, 4, 5, 6, 8, 2, 2, 1, 1, 4, 4, 3, 1];

fn answer(op: usize, x: &[Real]) -> Vec<Real> {
    let v = |i: usize| vector(&x[i..]);
    match op {
        1 => vec![v(0).dot(v(2))],
        2 => vec![v(0).perp_dot(v(2))],
        3 => vec![v(0).length()],
        4 => vec![v(0).distance(v(2))],
        5 => parts(v(0).normalize_or_zero()),
        6 => parts(v(0).lerp(v(2), x[4])),
        7 => parts(rotation(x).transform_vector(v(2))),
        8 => parts(rotation(x).inverse_transform_vector(v(2))),
        9 => {
            let q = rotation(x).lerp(rotation(&x[2..]), x[4]).normalize();
            vec![q.c, q.s]
        }
        10 => parts(pose(x).transform_point(v(4))),
        11 => {
            let p = pose(x).inv_mul(&pose(&x[4..]));
            vec![p.rotation.c, p.rotation.s, p.translation.x, p.translation.y]
        }
        12 => parts(-v(0)),
        13 => vec![x[0].max_of(x[1])],
        14 => vec![x[0].abs()],
        15 => vec![x[0].sqrt()],
        16 => parts(v(0) + v(2)),
        17 => parts(v(0) - v(2)),
        18 => parts(x[2] * v(0)),
        _ => vec![x[0]],
    }
}

const ROOT: usize = 15;

/// A number whose root is as near to halfway between two floats as there are, or a square or its neighbour. Halfway is an odd number with one digit too
/// many; its square is little above or below a multiple of 2^left, and that multiple is the number.
fn near_root(r: &mut Random) -> Real {
    let digits = Real::MANTISSA_DIGITS;
    let far = (2.0 as Real).powi(2 * (r.below(900) as i32 - 500));
    if r.below(3) == 0 {
        let n = r.below(1 << digits / 2);
        return step((n * n) as Real, r.below(3) as i32 - 1) * far;
    }
    loop {
        let left = digits + 1 + r.below(2) as u32;
        let little = 8 * (r.below(1 << 21) as i64 - (1 << 20)) + 1;
        let mut odd = 1u64;
        for k in 3..left {
            odd += (odd.wrapping_mul(odd).wrapping_sub(little as u64) >> k & 1) << k - 1;
        }
        odd += r.below(2) << left - 1;
        odd = r.pick(&[odd, odd.wrapping_neg()]) & (1 << left) - 1;
        let near = (odd as i128 * odd as i128 - little as i128 >> left) as u64;
        if odd >> digits == 1 && near >> digits - 1 == 1 {
            return near as Real * (2.0 as Real).powi(left as i32) * far;
        }
    }
}

/// The sizes of rows whose inputs are of one size, in powers of 2.
const SCALES: u64 = if cfg!(feature = "f64") { 1000 } else { 60 };

/// `count` rows of each operation: all inputs of one kind for half of them, so that results stay in reach, and mixed kinds for the rest; in f64 a
/// quarter has few digits, and of the root numbers that are hard to round.
pub fn rows(seed: u64, count: usize) {
    let mut random = Random(seed);
    let mut out = Parts::new();
    out.table(words::GROUND);
    for (i, &n) in INPUTS.iter().enumerate() {
        for k in 0..count {
            let scale = (2.0 as Real).powi(random.below(SCALES) as i32 - SCALES as i32 / 2);
            let x: Vec<Real> = (0..n)
                .map(|_| match k % 4 {
                    0 => random.unit() * scale,
                    1 => random.whole(30) * scale,
                    3 if cfg!(feature = "f64") && i + 1 == ROOT => near_root(&mut random),
                    3 if cfg!(feature = "f64") => random.few(),
                    _ => random.float(),
                })
                .collect();
            let mut words = vec![i as Bits + 1];
            words.extend(x.iter().map(|x| x.to_bits()));
            words.resize(9, 0);
            words.extend(answer(i + 1, &x).iter().map(|&y| bits(y)));
            words.resize(16, 0);
            out.row(&words);
        }
    }
    out.end();
}
