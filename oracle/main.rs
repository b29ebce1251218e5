//! The oracle: the module's own text over our prelude, asked from the command line. Its f64 build does the jobs
//! `ground`, `distance`, `sweep`, `sheet` and `squared-paper`.
//!   oracle ground [SEED COUNT]           COUNT rows of each ground operation with their answers (ground.rs); 1 1400 where none is given
//!   oracle distance SEED COUNT           a pool and rows of distance calls with their answers (distance.rs)
//!   oracle sweep SEED COUNT [EFFORT]     a pool and rows of sweeps with their answers (sweep.rs)
//!   oracle batch SEED COUNT              a batch of COUNT blocks (batches.rs)
//!   oracle carts|convex|near SEED COUNT  a batch of one family (families.rs)
//!   oracle lines SEED COUNT              rows of blocks with their lines (batches.rs)
//!   oracle known                         a pool, sweeps and blocks whose answers are well known (known.rs)
//!   oracle sheet                         the sheet of the batch on standard input (sheet.rs)
//!   oracle gaps                          the gaps of the batch on standard input along its moves (sheet.rs)
//!   oracle hostile SEED COUNT            distance calls that might work out what is not a number (hostile.rs)
//!   oracle squared-paper MILLIONS SEED   the claims on squared paper tested by running (squared_paper.rs)
//!   oracle turns SEED COUNT              what S misses when something turns, COUNT moves of each of ten kinds (turns.rs)
//!   oracle turning SEED COUNT            the same moves as blocks, COUNT of each kind in turn (turns.rs)
//!   oracle corners                       corners of plates, each with the number that the Rust gives it (corners.rs)
#[cfg(feature = "f32")]
mod batches;
#[cfg(feature = "f32")]
mod corners;
mod counts;
mod cuboid;
mod distance;
mod domain;
#[cfg(feature = "f32")]
mod families;
mod ground;
mod hostile;
#[cfg(feature = "f32")]
mod known;
mod pool;
mod prelude;
mod random;
mod sheet;
mod squared_paper;
mod sweep;
#[cfg(feature = "f32")]
mod turns;
mod width;
mod words;

/// The module's text, as build.sh lays it out.
mod sweep_toi {
    pub mod proxy_distance;
    mod separation;
    pub mod sweep;
    #[allow(clippy::module_inception)]
    pub mod sweep_toi;
    pub mod toi_proxy;
}

pub use prelude::{bounding_volume, math, shape};

fn main() {
    let args: Vec<String> = std::env::args().collect();
    let word = |i: usize| args.get(i).map(String::as_str).unwrap_or("");
    let number = |i: usize| word(i).parse::<u64>().unwrap_or_else(|_| panic!("argument {i} is no number"));
    match word(1) {
        "ground" if args.len() == 2 => ground::rows(1, 1400),
        "ground" => ground::rows(number(2), number(3) as usize),
        "distance" => distance::rows(number(2), number(3) as usize),
        "sweep" => sweep::rows(number(2), number(3) as usize, word(4).parse().unwrap_or(100)),
        #[cfg(feature = "f32")]
        "batch" => batches::batch(number(2), number(3)),
        #[cfg(feature = "f32")]
        family @ ("carts" | "convex" | "near") => families::batch(family, number(2), number(3)),
        #[cfg(feature = "f32")]
        "lines" => batches::rows(number(2), number(3)),
        #[cfg(feature = "f32")]
        "known" => known::rows(),
        "sheet" => sheet::sheet(),
        #[cfg(feature = "f32")]
        "gaps" => sheet::gaps(),
        #[cfg(feature = "f32")]
        "turns" => turns::run(number(2), number(3)),
        #[cfg(feature = "f32")]
        "turning" => turns::batch(number(2), number(3)),
        #[cfg(feature = "f32")]
        "corners" => corners::rows(),
        "hostile" => hostile::run(number(2), number(3)),
        "squared-paper" => squared_paper::run(number(2), number(3)),
        other => {
            eprintln!("oracle: no such job: {other:?}");
            std::process::exit(2)
        }
    }
}
