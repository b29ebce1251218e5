//! What the module's text is made to tell while it runs (see build.sh): three counters, how the last distance call ended, the corners of the last
//! separation search, and with the cfg `rounds` what each solve kept.
use core::sync::atomic::{AtomicU32, AtomicU64, Ordering::Relaxed};

static DISTANCE_CALLS: AtomicU32 = AtomicU32::new(0);
static SEARCHES: AtomicU32 = AtomicU32::new(0);
static ROOT_STEPS: AtomicU32 = AtomicU32::new(0);
static ENDING: AtomicU32 = AtomicU32::new(0);
// since the last distance call, since the last search, and the most of each
static PUSHES: AtomicU32 = AtomicU32::new(0);
static STEPS: AtomicU32 = AtomicU32::new(0);
static MOST_PUSHES: AtomicU32 = AtomicU32::new(0);
static MOST_STEPS: AtomicU32 = AtomicU32::new(0);

fn raise(n: &AtomicU32) {
    n.store(n.load(Relaxed) + 1, Relaxed)
}

fn raise_most(n: &AtomicU32, most: &AtomicU32) {
    raise(n);
    most.store(most.load(Relaxed).max(n.load(Relaxed)), Relaxed)
}

pub fn distance_call() {
    raise(&DISTANCE_CALLS);
    PUSHES.store(0, Relaxed)
}

pub fn search() {
    raise(&SEARCHES);
    raise_most(&PUSHES, &MOST_PUSHES);
    STEPS.store(0, Relaxed)
}

pub fn root_step() {
    raise(&ROOT_STEPS);
    raise_most(&STEPS, &MOST_STEPS)
}

/// The most searches after one distance call, and the most root steps after one search, since this was last asked.
pub fn take_most() -> [u32; 2] {
    [MOST_PUSHES.swap(0, Relaxed), MOST_STEPS.swap(0, Relaxed)]
}

pub const TOUCHING: u32 = 0;
pub const SETTLED: u32 = 1;
pub const ROUND_LIMIT: u32 = 2;

pub fn ending(e: u32) {
    ENDING.store(e, Relaxed)
}

pub fn last_ending() -> u32 {
    ENDING.load(Relaxed)
}

// the second index of the last `support`, and of the last search the first and second of A, then of B
static SECOND: AtomicU32 = AtomicU32::new(0);
#[allow(clippy::declare_interior_mutable_const)]
const NO_CORNER: AtomicU32 = AtomicU32::new(u32::MAX);
static CORNERS: [AtomicU32; 4] = [NO_CORNER; 4];

pub fn second(index: u32) {
    SECOND.store(index, Relaxed)
}

fn side(which: usize, first: u32, second: u32) {
    CORNERS[2 * which].store(first, Relaxed);
    CORNERS[2 * which + 1].store(second, Relaxed)
}

pub fn corners(which: usize, first: u32) {
    side(which, first, SECOND.load(Relaxed))
}

pub fn face(which: usize) {
    side(which, u32::MAX, u32::MAX)
}

/// The corners of the last search since this was last asked; all FFFFFFFF where there was none.
pub fn take_corners() -> [u32; 4] {
    [0, 1, 2, 3].map(|i| CORNERS[i].swap(u32::MAX, Relaxed))
}

// each solve's count and, for each vertex kept, the two corners: of outlines of at most 64
static SOLVES: AtomicU32 = AtomicU32::new(0);
#[allow(clippy::declare_interior_mutable_const)]
const NOTHING_KEPT: AtomicU64 = AtomicU64::new(0);
static KEPT: [AtomicU64; 20] = [NOTHING_KEPT; 20];

pub fn kept(count: usize, corners: [(u32, u32); 3]) {
    let packed = corners.iter().fold(count as u64, |p, &(a, b)| p << 12 | (a as u64) << 6 | b as u64);
    KEPT[SOLVES.load(Relaxed) as usize].store(packed, Relaxed);
    raise(&SOLVES)
}

/// What each solve kept since this was last asked, by calling `each` with the corners of A and of B.
pub fn take_kept(mut each: impl FnMut(&[(usize, usize)])) {
    for solve in &KEPT[..SOLVES.swap(0, Relaxed) as usize] {
        let packed = solve.load(Relaxed);
        let corner = |k: u32| ((packed >> (12 * k + 6) & 63) as usize, (packed >> (12 * k) & 63) as usize);
        each(&[corner(2), corner(1), corner(0)][..(packed >> 36) as usize])
    }
}

/// Distance calls, searches and root steps since this was last asked.
pub fn take() -> [u32; 3] {
    [
        DISTANCE_CALLS.swap(0, Relaxed),
        SEARCHES.swap(0, Relaxed),
        ROOT_STEPS.swap(0, Relaxed),
    ]
}
