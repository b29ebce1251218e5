//! Stored sweeps: a pool, then rows of 15 words (see docs/REPLAYS.md).
use crate::counts;
use crate::domain;
use crate::math::Real;
use crate::pool::{self, points, Outline, Pool, GOOD, NEAR_MOVES, NEAR_OUTLINES};
use crate::random::Random;
use crate::sweep_toi::sweep::Sweep;
use crate::sweep_toi::sweep_toi::{sweep_time_of_impact, SweepToiStatus};
use crate::sweep_toi::toi_proxy::ToiProxy;
use crate::width::{bits, Bits};
use crate::words::{self, Parts};

pub struct Answer {
    /// The number of refusal; 0 for none.
    pub refused: u32,
    /// 0 O, 1 H, 2 S, 3 F.
    pub status: u32,
    /// Fraction, point, normal.
    pub floats: [Real; 5],
    pub counts: [u32; 3],
    /// First and second corner of A, then of B, of the last search; FFFFFFFF for a face side or where there was none.
    pub corners: [u32; 4],
    /// Searches after one distance call, and root steps after one search.
    pub most: [u32; 2],
}

pub fn answer(a: &Outline, ra: Real, wa: &Sweep, b: &Outline, rb: Real, wb: &Sweep, max_fraction: Real, slop: Real) -> Answer {
    let refused = domain::or(domain::pair(a, b, ra, rb), || domain::sweep(wa, wb, max_fraction, slop));
    if refused != 0 {
        return Answer { refused, status: 0, floats: [0.0; 5], counts: [0; 3], corners: [u32::MAX; 4], most: [0; 2] };
    }
    let (pa, pb) = (points(a), points(b));
    counts::take();
    counts::take_corners();
    counts::take_most();
    let o = sweep_time_of_impact(&ToiProxy::from_points(&pa, ra), wa, &ToiProxy::from_points(&pb, rb), wb, max_fraction, slop);
    let status = match o.status {
        SweepToiStatus::Overlapped => 0,
        SweepToiStatus::Hit => 1,
        SweepToiStatus::Separated => 2,
        SweepToiStatus::Failed => 3,
    };
    Answer { refused, status, floats: [o.fraction, o.point.x, o.point.y, o.normal.x, o.normal.y], counts: counts::take(), corners: counts::take_corners(), most: counts::take_most() }
}

#[derive(Copy, Clone)]
pub struct Call {
    pub a: usize,
    pub b: usize,
    pub move_a: usize,
    pub move_b: usize,
    pub radii: usize,
    pub fraction: usize,
    pub slop: usize,
}

pub fn ask(p: &Pool, k: Call) -> Answer {
    let (ra, rb) = p.radii[k.radii];
    answer(&p.outlines[k.a], ra, &p.moves[k.move_a], &p.outlines[k.b], rb, &p.moves[k.move_b], p.fractions[k.fraction], p.slops[k.slop])
}

pub fn row(k: Call, x: &Answer) -> [Bits; 15] {
    let mut w = [0; 15];
    w[0] = k.a as Bits | (k.b as Bits) << 8 | (k.move_a as Bits) << 16 | (k.move_b as Bits) << 24;
    w[1] = k.radii as Bits | (k.fraction as Bits) << 8 | (k.slop as Bits) << 16;
    w[2] = if x.refused != 0 { x.refused } else { 16 + x.status } as Bits;
    if x.refused == 0 {
        for (i, &y) in x.floats.iter().enumerate() {
            w[3 + i] = bits(y);
        }
        w[8..11].copy_from_slice(&x.counts.map(|n| n as Bits));
        w[11..].copy_from_slice(&x.corners.map(|i| i as Bits));
    }
    w
}

/// What a sweep may show that is rare, the rarest first.
const RARE: [&str; 12] = [
    "fraction below 0 or NaN",
    "fraction above the max",
    "NaN point or normal",
    "fifty root steps",
    "eight push-backs",
    "more than 100 searches",
    "zero normal",
    "O from a settled distance of 0",
    "O after t1 advanced",
    "F with separation below the target",
    "F after 20 distance calls",
    "hit with t1 advanced",
];

fn rare(x: &Answer, max_fraction: Real) -> Option<usize> {
    let f = x.floats;
    let zeros = f[1..].iter().all(|&y| y == 0.0);
    let found = [
        f[0] < 0.0 || f[0].is_nan(),
        f[0] > max_fraction,
        f[1..].iter().any(|y| y.is_nan()),
        x.most[1] == 50,
        x.most[0] == 8,
        x.counts[1] > 100,
        x.status == 1 && f[3] == 0.0 && f[4] == 0.0,
        x.status == 0 && counts::last_ending() != counts::TOUCHING,
        x.status == 0 && x.counts[0] > 1,
        x.status == 3 && zeros && x.counts[0] < 20,
        x.status == 3 && x.counts[0] == 20,
        x.status == 1 && x.counts[0] > 1,
    ];
    found.iter().position(|&y| y)
}

/// Half of the rows come as they fall, a quarter has parts outside the domain, and a quarter was looked for among `effort` sweeps for each row.
pub fn rows(seed: u64, count: usize, effort: u64) {
    let mut r = Random(seed);
    let p = pool::pool(&mut r);
    let mut out = Parts::new();
    out.pool(&p);
    out.table(words::SWEEP);
    let call = |r: &mut Random, bad: bool| {
        let mut below = |good: usize, all: usize| {
            let out = bad && r.below(5) == 0;
            (if out { good as u64 + r.below((all - good) as u64) } else { r.below(good as u64) }) as usize
        };
        Call { a: below(GOOD.outlines, 128), b: below(GOOD.outlines, 128), move_a: below(GOOD.moves, 128), move_b: below(GOOD.moves, 128), radii: below(GOOD.radii, 32), fraction: below(GOOD.fractions, 16), slop: below(GOOD.slops, 32) }
    };
    let mut seen = [0u32; 20];
    let mut write = |k: Call, x: &Answer| {
        let w = row(k, x);
        seen[w[2] as usize] += 1;
        out.row(&w);
    };
    for i in 0..count - count / 4 {
        let mut k = call(&mut r, i % 3 == 2);
        if cfg!(feature = "f64") && i % 4 == 0 {
            k = Call { a: r.within(NEAR_OUTLINES), b: r.within(NEAR_OUTLINES), move_a: r.within(NEAR_MOVES), move_b: r.within(NEAR_MOVES), ..k };
        }
        write(k, &ask(&p, k));
    }
    let (mut kept, mut met) = ([0usize; 12], [0usize; 12]);
    let (mut left, mut tries) = (count / 4, 0u64);
    let most = count / 4 / 8;
    while left > 0 {
        let k = call(&mut r, false);
        let x = ask(&p, k);
        tries += 1;
        let kind = rare(&x, p.fractions[k.fraction]);
        if let Some(i) = kind {
            met[i] += 1;
            if kept[i] >= most && tries < effort * count as u64 {
                continue;
            }
            kept[i] += 1;
        } else if tries < effort * count as u64 {
            continue;
        }
        write(k, &x);
        left -= 1;
    }
    out.end();
    eprintln!("refused 1 to 8: {:?}; O {}, H {}, S {}, F {}", &seen[1..9], seen[16], seen[17], seen[18], seen[19]);
    for (i, name) in RARE.iter().enumerate() {
        eprintln!("{name}: {} rows, met {} times in {tries} tries", kept[i], met[i]);
    }
}
