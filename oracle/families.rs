//! Batches of one family of jobs each: carts and convex outlines, for measuring speed, and outlines that nearly touch, where EPSILON decides.
use crate::batches::{block, Job};
use crate::math::{Rotation, Vector};
use crate::pool;
use crate::random::Random;
use crate::sweep_toi::sweep::Sweep;
use std::io::Write;

const SLOP: f32 = 0.005;

fn turn(angle: f32) -> Rotation {
    Rotation { c: angle.cos(), s: angle.sin() }
}

fn between(r: &mut Random, low: f32, high: f32) -> f32 {
    low + (high - low) * (0.5 + 0.5 * r.unit())
}

/// Corners on an ellipse, at angles that go up by about the same.
fn ring(r: &mut Random, corners: u64, half_x: f32, half_y: f32) -> Vec<f32> {
    let step = std::f32::consts::TAU / corners as f32;
    let start = between(r, 0.0, step);
    (0..corners).flat_map(|i| {
        let at = start + step * (i as f32 + 0.3 * r.unit());
        [half_x * at.cos(), half_y * at.sin()]
    }).collect()
}

/// A rectangle crosses from the left to the right and turns a little; the other outline stands still.
fn cart(r: &mut Random) -> Job {
    let scale = between(r, 1.0, 10.0);
    let (x, y) = (0.6 * scale, 0.4 * scale);
    let radii = [0.0, 0.05, 0.2];
    let (start, end) = (between(r, -0.7, 0.7), between(r, -0.35, 0.35));
    let corners = 3 + r.below(8);
    let (half_x, half_y) = (between(r, 1.0, 4.0), between(r, 0.5, 2.5));
    let moving = Sweep {
        local_center: Vector::ZERO,
        c1: Vector::new(-10.0 + r.unit(), 5.0 * r.unit()),
        c2: Vector::new(10.0 + r.unit(), 5.0 * r.unit()),
        q1: turn(start),
        q2: turn(start + 2.0 * end),
    };
    let still = Sweep { local_center: Vector::ZERO, c1: Vector::ZERO, c2: Vector::ZERO, q1: turn(0.0), q2: turn(0.0) };
    Job {
        a: vec![-x, -y, x, -y, x, y, -x, y],
        b: ring(r, corners, half_x, half_y),
        head: [r.pick(&radii), r.pick(&radii), 1.0, SLOP],
        moves: [moving, still],
    }
}

/// Both move and turn a little.
fn convex(r: &mut Random) -> Job {
    let mut outline = |r: &mut Random| {
        let (corners, half_x, half_y) = (3 + r.below(14), between(r, 0.3, 12.0), between(r, 0.3, 12.0));
        ring(r, corners, half_x, half_y)
    };
    let going = |r: &mut Random, x: f32| {
        let (c1, angle) = (Vector::new(x + 4.0 * r.unit(), 8.0 * r.unit()), 3.0 * r.unit());
        Sweep {
            local_center: Vector::ZERO,
            c1,
            c2: Vector::new(c1.x - x + 4.0 * r.unit(), c1.y + 4.0 * r.unit()),
            q1: turn(angle),
            q2: turn(angle + 0.5 * r.unit()),
        }
    };
    Job { a: outline(r), b: outline(r), head: [0.0, 0.0, 1.0, SLOP], moves: [going(r, -14.0), going(r, 14.0)] }
}

/// Outlines on a small grid that start little apart. In f64 the answer is often another than with the EPSILON of f32.
fn near(r: &mut Random) -> Job {
    let slop = r.pick(&[SLOP, 1e-6, 1e-8, 1e-9, 1e-10, 1e-12, 1e-20]);
    Job { a: pool::thin(r), b: pool::thin(r), head: [0.0, 0.0, 1.0, slop], moves: [pool::near_movement(r), pool::near_movement(r)] }
}

pub fn batch(family: &str, seed: u64, count: u64) {
    let mut r = Random(seed);
    let mut out = std::io::BufWriter::new(std::io::stdout().lock());
    for i in 1..=count {
        let job = match family {
            "carts" => cart(&mut r),
            "convex" => convex(&mut r),
            _ => near(&mut r),
        };
        out.write_all(&block(i as u32, &job)).unwrap();
    }
}
