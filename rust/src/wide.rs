//! The same calls in f64: same domain, same refusals, same endings, all of it worked in f64 from the first check on (EPSILON is 2^-52).
//!
//! Take them where coordinates are large beside the slop, as in a hall measured in millimetres: at 100,000 the steps of f32 are 1/128, more than a slop
//! of 0.005, and those of f64 2^-36. Where no number on the way is rounded, both widths answer the same. Batches hold f32 in any case.
//!
//! Work out the numbers in f64 too. One that was rounded to f32 before stays as it was rounded (0.1 is then 0.10000000149), and a check in f64
//! can refuse what the same check lets pass in f32:
//!
//! ```
//! use foldflake::{distance, wide, Cache, Refusal};
//! let (c, s) = (f32::from_bits(0x3F80_0000), f32::from_bits(0x3E00_0003));
//! let cache = Cache::default;
//! assert!(distance([c, s], [9.0, 0.0], &[0.0, 0.0], 0.0, &[0.0, 0.0], 0.0, false, 41, &mut cache()).is_ok());
//! let turned = [f64::from(c), f64::from(s)];
//! assert_eq!(wide::distance(turned, [9.0, 0.0], &[0.0, 0.0], 0.0, &[0.0, 0.0], 0.0, false, 41, &mut cache()), Err(Refusal(5)));
//! ```
use crate::{width, Cache, Distance, Move, Refusal, Sweep};

/// [`root`](crate::root) in f64: the square root, rounded to nearest.
///
/// ```
/// assert_eq!(foldflake::wide::root(2.0), 2f64.sqrt());
/// assert!(foldflake::wide::root(-1.0).is_nan());
/// ```
pub fn root(x: f64) -> f64 {
    width::Width::root(x)
}

/// [`sweep`](crate::sweep) in f64.
///
/// ```
/// use foldflake::{wide, Move, Sweep};
/// // two points in a hall of a kilometre, in millimetres; 0.005 is left between them
/// let stands = Move { local_center: [0.0; 2], first: [1e6, 0.0], last: [1e6, 0.0], first_rotation: [1.0, 0.0], last_rotation: [1.0, 0.0] };
/// let goes = Move { first: [0.0; 2], ..stands };
/// match wide::sweep(&[0.0, 0.0], 0.0, &goes, &[0.0, 0.0], 0.0, &stands, 1.0, 0.005)? {
///     Sweep::Hit(contact, ..) => assert!((1e6 - 1e6 * contact.fraction - 0.005).abs() < 0.00125),
///     other => panic!("{other:?}"),
/// }
/// # Ok::<(), foldflake::Refusal>(())
/// ```
#[allow(clippy::too_many_arguments)]
pub fn sweep(
    points_a: &[f64],
    radius_a: f64,
    move_a: &Move<f64>,
    points_b: &[f64],
    radius_b: f64,
    move_b: &Move<f64>,
    max_fraction: f64,
    linear_slop: f64,
) -> Result<Sweep<f64>, Refusal> {
    width::sweep(points_a, radius_a, move_a, points_b, radius_b, move_b, max_fraction, linear_slop)
}

/// [`distance`](crate::distance) in f64. A cache has no floats: one that a call in the other width wrote for the same pair is taken here, and back.
///
/// ```
/// use foldflake::{wide, Cache};
/// let square = [-1.0, -1.0, 1.0, -1.0, 1.0, 1.0, -1.0, 1.0];
/// // a gap of a thousandth of a millimetre, a kilometre away
/// let measured = wide::distance([1.0, 0.0], [1e6, 0.0], &[999_998.999, 0.0], 0.0, &square, 0.0, false, 41, &mut Cache::default())?;
/// assert!((measured.distance - 0.001).abs() < 1e-9);
/// # Ok::<(), foldflake::Refusal>(())
/// ```
#[allow(clippy::too_many_arguments)]
pub fn distance(
    rotation: [f64; 2],
    translation: [f64; 2],
    points_a: &[f64],
    radius_a: f64,
    points_b: &[f64],
    radius_b: f64,
    use_radii: bool,
    pair: u32,
    cache: &mut Cache,
) -> Result<Distance<f64>, Refusal> {
    width::distance(rotation, translation, points_a, radius_a, points_b, radius_b, use_radii, pair, cache)
}
