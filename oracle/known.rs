//! Stored jobs whose answer a reader would not expect. A square that turns a quarter beside a wall is S, although its corners reach into the wall; the
//! nine steps of 10 degrees of the same turn are S H O O O O O O S; and a bar on a half turn, which has no direction, is S beside a point that it
//! would sweep through either way round.
use crate::batches::{self, Job};
use crate::math::{Rotation, Vector};
use crate::pool::Pool;
use crate::sweep::{self, Call};
use crate::sweep_toi::sweep::Sweep;
use crate::words::{self, Parts};

fn turned(degrees: u32) -> Rotation {
    match degrees {
        0 => Rotation { c: 1.0, s: 0.0 },
        90 => Rotation { c: 0.0, s: 1.0 },
        180 => Rotation { c: -1.0, s: 0.0 },
        _ => { let t = (degrees as f32).to_radians(); Rotation { c: t.cos(), s: t.sin() } }
    }
}

fn turns(from: u32, to: u32) -> Sweep {
    Sweep { local_center: Vector::ZERO, c1: Vector::ZERO, c2: Vector::ZERO, q1: turned(from), q2: turned(to) }
}

fn stands(x: f32, y: f32) -> Sweep {
    Sweep { c1: Vector::new(x, y), c2: Vector::new(x, y), ..turns(0, 0) }
}

fn pool() -> Pool {
    let square = vec![-5.0, -5.0, 5.0, -5.0, 5.0, 5.0, -5.0, 5.0];
    let wall = vec![0.0, -20.0, 4.0, -20.0, 4.0, 20.0, 0.0, 20.0];
    let mut moves = vec![stands(6.0, 0.0), stands(0.0, 3.0), turns(0, 180), turns(0, 90)];
    moves.extend((0..9).map(|i| turns(10 * i, 10 * i + 10)));
    Pool {
        outlines: vec![square, wall, vec![0.0, 0.0, 4.0, 0.0], vec![0.0, 0.0]],
        moves,
        radii: vec![(0.0, 0.0)],
        fractions: vec![1.0],
        slops: vec![0.005],
        poses: vec![],
        caches: vec![],
    }
}

/// The jobs as sweeps over a pool of their own, and as blocks.
pub fn rows() {
    let p = pool();
    let call = |a, b, move_a, move_b| Call { a, b, move_a, move_b, radii: 0, fraction: 0, slop: 0 };
    let mut calls: Vec<Call> = (3..p.moves.len()).map(|turn| call(0, 1, turn, 0)).collect();
    calls.push(call(2, 3, 2, 1));
    let mut out = Parts::new();
    out.pool(&p);
    out.table(words::SWEEP);
    for &k in &calls {
        out.row(&sweep::row(k, &sweep::ask(&p, k)));
    }
    out.table(words::BLOCK);
    for (number, k) in (1..).zip(&calls) {
        let (a, b) = (p.outlines[k.a].clone(), p.outlines[k.b].clone());
        let job = Job { a, b, head: [0.0, 0.0, 1.0, p.slops[0]], moves: [p.moves[k.move_a], p.moves[k.move_b]] };
        out.row(&batches::row(number, &batches::block(number as u32, &job)));
    }
    out.end();
}
