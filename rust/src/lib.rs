//! A safe face of `libfoldflake.a`, the proved entry points of Foldflake: whether two convex outlines, seen from above, meet along one planned
//! move each, at what fraction of the move, and where; and how far apart two outlines are.
//!
//! Every call has an answer, whatever it is given, and none panics: what lies outside the domain gets a [`Refusal`], an error with a number and a text. An outline is a flat list of numbers,
//! `x y x y ..`, of 1 to 64 points, in any order, although another order can give slightly other numbers. [`plate`] and [`bar`] build the commonest
//! outlines. A rotation is a cosine and a sine.
//!
//! Numbers are f32; [`wide`] has the root, the sweep and the distance in f64, with the same types at that width, as `Move<f64>`.
//!
//! Read [`Sweep::Separated`] before you rely on it: it does not clear a move that turns. [`clearance`] does: what it answers holds at every fraction.
//!
//! ```
//! use foldflake::{sweep, Move, Sweep};
//! let square = [-1.0, -1.0, 1.0, -1.0, 1.0, 1.0, -1.0, 1.0];
//! let stands = Move { local_center: [0.0; 2], first: [6.0, 0.0], last: [6.0, 0.0], first_rotation: [1.0, 0.0], last_rotation: [1.0, 0.0] };
//! let goes = Move { first: [0.0; 2], last: [8.0, 0.0], ..stands };
//! match sweep(&square, 0.0, &goes, &square, 0.0, &stands, 1.0, 0.01)? {
//!     Sweep::Hit(contact, ..) => assert!((contact.fraction - 0.5).abs() < 0.01),
//!     other => panic!("{other:?}"),
//! }
//! # Ok::<(), foldflake::Refusal>(())
//! ```
//!
//! The proofs are for rounding to nearest with subnormal numbers kept: the floating-point environment has to be Rust's default. Calls keep nothing from one to
//! the next, and may run in any number of threads at once.
//!
//! Programs link `libfoldflake.a`, which is for x86-64 Linux: `tools/staticlib.sh` in the repository writes it, and FOLDFLAKE_LIB names the folder that
//! has it, where that is not `target/staticlib`. `cargo doc` and `cargo check` do without it.
#![deny(missing_docs)]

pub mod wide;
mod width;

/// The page for programmers, whose examples are run as doc tests.
#[cfg(doctest)]
#[doc = include_str!("../../docs/LIBRARY.md")]
pub struct Page;

use std::fmt;

mod entry {
    extern "C" {
        pub fn foldflake_line(number: u64, block: *const u8, block_len: usize, out: *mut u8, out_len: usize) -> usize;
        pub fn foldflake_plate(half_x: f32, half_y: f32, out: *mut f32, out_len: usize) -> u32;
        pub fn foldflake_bar(ax: f32, ay: f32, bx: f32, by: f32, out: *mut f32, out_len: usize) -> u32;
        pub fn foldflake_placed_plate(half_x: f32, half_y: f32, pose: *const f32, pose_len: usize, out: *mut f32, out_len: usize) -> u32;
        pub fn foldflake_placed_bar(ax: f32, ay: f32, bx: f32, by: f32, pose: *const f32, pose_len: usize, out: *mut f32, out_len: usize) -> u32;
        pub fn foldflake_pose(planned: *const f32, planned_len: usize, fraction: f32, out: *mut f32, out_len: usize) -> u32;
        pub fn foldflake_gap(
            points_a: *const f32,
            numbers_in_a: usize,
            move_a: *const f32,
            move_a_len: usize,
            points_b: *const f32,
            numbers_in_b: usize,
            move_b: *const f32,
            move_b_len: usize,
            fraction: f32,
            out: *mut f32,
            out_len: usize,
        ) -> u32;
        pub fn foldflake_clearance(
            points_a: *const f32,
            numbers_in_a: usize,
            points_b: *const f32,
            numbers_in_b: usize,
            numbers: *const f32,
            numbers_len: usize,
            from: f32,
            out: *mut f32,
            out_len: usize,
            pieces: *mut u32,
            pieces_len: usize,
        ) -> u32;
        pub fn foldflake_route(
            cart: *const f32,
            cart_len: usize,
            waypoints: *const f32,
            waypoints_len: usize,
            stills: *const f32,
            stills_len: usize,
            lengths: *const u32,
            lengths_len: usize,
            slop: f32,
            out: *mut f32,
            out_len: usize,
            place: *mut u32,
            place_len: usize,
        ) -> u32;
        pub fn foldflake_route_clearance(
            cart: *const f32,
            cart_len: usize,
            waypoints: *const f32,
            waypoints_len: usize,
            stills: *const f32,
            stills_len: usize,
            lengths: *const u32,
            lengths_len: usize,
            slop: f32,
            out: *mut f32,
            out_len: usize,
            place: *mut u32,
            place_len: usize,
        ) -> u32;
    }
}

/// Why a call was refused: the first number that applies, in the order of the numbers.
///
/// | number | given when |
/// |---|---|
/// | 1, 2 | outline A, B is empty, of odd length, or above 64 points |
/// | 3 | a point's part or a half size is not finite or above 1,048,576 in size, or a half size is below 0 |
/// | 4 | a radius is not finite, below 0 or above 1,048,576 |
/// | 5 | a rotation's part is above 1 in size or NaN, or `c * c + s * s` is below 0.984375 or above 1.015625 |
/// | 6 | a translation or a centre is as in 3 |
/// | 7 | the max fraction, or the fraction asked for, is not in 0 to 1, or a look starts outside 0 to the max fraction |
/// | 8 | the slop is not above 0, above 1,048,576, or NaN |
/// | 9 | fewer than 512 bytes are left of a batch (in a line only, as 10, 11 and 13) |
/// | 10 | a block's check is wrong |
/// | 11 | a block's job is 0, a count is outside 1 to 16, or a byte that must be zero is not |
/// | 12 | the cache is of another pair: it has corner pairs, and not under the caller's number |
/// | 13 | a block's form is neither 0 nor 2; given before 10 |
/// | 14 | a line is no job, or none of a route (of the programs `pack` and `route` only) |
/// | 15 | the lent list has no room for all corners |
/// | 16 | a route has fewer than 2 or more than 33 waypoints |
/// | 17 | a route has no still outline or more than 32 |
/// | 255 | a list has not the length that the entry point asks for; no call of this crate hands over such a list |
///
/// ```
/// use foldflake::{distance, Cache, Refusal};
/// let refusal = distance([1.0, 0.0], [0.0, 0.0], &[], 0.0, &[0.0, 0.0], 0.0, false, 41, &mut Cache::default()).unwrap_err();
/// assert_eq!(refusal, Refusal(1));
/// assert_eq!(refusal.to_string(), "refused by 1: outline A is empty, of odd length, or above 64 points");
/// ```
#[derive(Clone, Copy, Debug, PartialEq, Eq, Hash)]
pub struct Refusal(
    /// The number.
    pub u32,
);

impl Refusal {
    /// The text of the number, as `foldflake_refusal` has it in C.
    ///
    /// ```
    /// use foldflake::Refusal;
    /// assert_eq!(Refusal(10).text(), "the check is wrong");
    /// assert_eq!(Refusal(99).text(), "no refusal has this number");
    /// ```
    pub fn text(&self) -> &'static str {
        match self.0 {
            1 => "outline A is empty, of odd length, or above 64 points",
            2 => "outline B is empty, of odd length, or above 64 points",
            3 => "a point's part or a half size is not finite or above 1048576 in size, or a half size is below 0",
            4 => "a radius is not finite, below 0 or above 1048576",
            5 => "a rotation is not a cosine and a sine",
            6 => "a translation or a centre is not finite or above 1048576 in size",
            7 => "a fraction is not in 0 to 1, or a look starts behind the max fraction",
            8 => "the slop is not above 0, above 1048576, or not a number",
            9 => "fewer than 512 bytes are left",
            10 => "the check is wrong",
            11 => "the job is 0, a count is outside 1 to 16, or a byte that must be zero is not",
            12 => "the cache is of another pair",
            13 => "the form is neither 0 nor 2",
            14 => "the line is no job, or none of a route",
            15 => "the lent list has no room for all corners",
            16 => "the route has fewer than 2 or more than 33 waypoints",
            17 => "the route has no still outline or more than 32",
            255 => "a list has not the length that is asked for",
            _ => "no refusal has this number",
        }
    }
}

impl fmt::Display for Refusal {
    fn fmt(&self, f: &mut fmt::Formatter<'_>) -> fmt::Result {
        write!(f, "refused by {}: {}", self.0, self.text())
    }
}

impl std::error::Error for Refusal {}

/// Where and when two bodies meet. Zeros where nothing is to be told.
///
/// ```
/// use foldflake::{sweep, Move, Sweep};
/// let stands = Move { local_center: [0.0; 2], first: [4.0, 0.0], last: [4.0, 0.0], first_rotation: [1.0, 0.0], last_rotation: [1.0, 0.0] };
/// let goes = Move { first: [0.0; 2], ..stands };
/// // two points; 0.5 is left between them, and the contact lies midway
/// match sweep(&[0.0, 0.0], 0.0, &goes, &[0.0, 0.0], 0.0, &stands, 1.0, 0.5) {
///     Ok(Sweep::Hit(contact, ..)) => assert_eq!((contact.fraction, contact.point, contact.normal), (0.875, [3.75, 0.0], [1.0, 0.0])),
///     other => panic!("{other:?}"),
/// }
/// ```
#[derive(Clone, Copy, Debug, PartialEq)]
pub struct Contact<T = f32> {
    /// The fraction of the move.
    pub fraction: T,
    /// Midway between the two nearest points, each moved out by its radius, in the hall's frame.
    pub point: [T; 2],
    /// The direction from A to B, in the hall's frame.
    pub normal: [T; 2],
}

/// How much work a sweep took: at most 20, 160 and 8,000.
///
/// ```
/// use foldflake::{sweep, Corners, Counts, Move, Sweep};
/// let still = Move { local_center: [0.0; 2], first: [0.0; 2], last: [0.0; 2], first_rotation: [1.0, 0.0], last_rotation: [1.0, 0.0] };
/// let answer = sweep(&[0.0, 0.0], 0.0, &still, &[0.0, 0.0], 0.0, &still, 1.0, 0.01);
/// assert_eq!(answer, Ok(Sweep::Overlapped(Counts { distance_calls: 1, searches: 0, root_steps: 0 }, Corners { a: None, b: None })));
/// ```
#[derive(Clone, Copy, Debug, PartialEq, Eq)]
pub struct Counts {
    /// Distance calls.
    pub distance_calls: u32,
    /// Searches for the deepest corners along an axis.
    pub searches: u32,
    /// Steps of the root search.
    pub root_steps: u32,
}

/// Which corners of each outline lie deepest along the axis of a sweep's last separation search: the lowest index and the highest whose value equals its,
/// counted from 0. `None` where the axis is across an edge of that outline, and for both where no search ran.
///
/// ```
/// use foldflake::{sweep, Corners, Move, Sweep};
/// // a cart goes straight at a table: its front edge meets the table's corners 0 and 3
/// let cart = [-6.0, -4.0, 6.0, -4.0, 6.0, 4.0, -6.0, 4.0];
/// let table = [-10.0, -5.0, 10.0, -5.0, 10.0, 5.0, -10.0, 5.0];
/// let stands = Move { local_center: [0.0; 2], first: [0.0; 2], last: [0.0; 2], first_rotation: [1.0, 0.0], last_rotation: [1.0, 0.0] };
/// let goes = Move { first: [-40.0, 0.0], ..stands };
/// match sweep(&cart, 0.0, &goes, &table, 0.0, &stands, 1.0, 0.005) {
///     Ok(Sweep::Hit(_, _, corners)) => assert_eq!(corners, Corners { a: None, b: Some([0, 3]) }),
///     other => panic!("{other:?}"),
/// }
/// ```
#[derive(Clone, Copy, Debug, PartialEq, Eq)]
pub struct Corners {
    /// First and second corner of A.
    pub a: Option<[u32; 2]>,
    /// First and second corner of B.
    pub b: Option<[u32; 2]>,
}

/// A planned move of one body. Its turning centre goes straight from `first` to `last`, while the body turns from one rotation to the other.
///
/// At fraction `t` the rotation is `(1 - t) * first_rotation + t * last_rotation`, brought to length 1. So a turn goes the short way round; its
/// angle grows unevenly, and of a half turn nobody can say which way it goes: never ask for one.
///
/// ```
/// use foldflake::Move;
/// // a quarter turn about the body's corner (1, 1), which stays at (5, 0) in the hall
/// let turn = Move { local_center: [1.0, 1.0], first: [5.0, 0.0], last: [5.0, 0.0], first_rotation: [1.0, 0.0], last_rotation: [0.0, 1.0] };
/// assert_eq!(turn.first, turn.last);
/// ```
#[derive(Clone, Copy, Debug, PartialEq)]
pub struct Move<T = f32> {
    /// The turning centre, in the frame in which the outline's points are given.
    pub local_center: [T; 2],
    /// Where the turning centre stands in the hall at fraction 0.
    pub first: [T; 2],
    /// Where it stands at fraction 1.
    pub last: [T; 2],
    /// Cosine and sine at fraction 0; counterclockwise is positive where y points to the left of x.
    pub first_rotation: [T; 2],
    /// Cosine and sine at fraction 1.
    pub last_rotation: [T; 2],
}

/// How a sweep ends, with its contact, the work that it took and the corners of its last search.
///
/// The target is the larger of the slop and (radius A + radius B) - slop, and the tolerance a quarter of the slop.
///
/// ```
/// use foldflake::{sweep, Move, Sweep};
/// // a square of half size 5 turns a quarter beside a wall at x = 6: its corners reach 7.07, and the answer is still `Separated`
/// let square = [-5.0, -5.0, 5.0, -5.0, 5.0, 5.0, -5.0, 5.0];
/// let wall = [0.0, -20.0, 4.0, -20.0, 4.0, 20.0, 0.0, 20.0];
/// let stands = Move { local_center: [0.0; 2], first: [6.0, 0.0], last: [6.0, 0.0], first_rotation: [1.0, 0.0], last_rotation: [1.0, 0.0] };
/// let turned = |degrees: f32| [degrees.to_radians().cos(), degrees.to_radians().sin()];
/// let step = |from, to| {
///     let turns = Move { first: [0.0; 2], last: [0.0; 2], first_rotation: turned(from), last_rotation: turned(to), ..stands };
///     sweep(&square, 0.0, &turns, &wall, 0.0, &stands, 1.0, 0.005)
/// };
/// assert!(matches!(step(0.0, 90.0), Ok(Sweep::Separated(..))));
/// // cut into steps of 10 degrees, the second one tells the hit
/// assert!(matches!(step(0.0, 10.0), Ok(Sweep::Separated(..))));
/// assert!(matches!(step(10.0, 20.0), Ok(Sweep::Hit(..))));
/// ```
#[derive(Clone, Copy, Debug, PartialEq)]
pub enum Sweep<T = f32> {
    /// The outlines touch or overlap where the search stood, which may be later than at fraction 0.
    Overlapped(Counts, Corners),
    /// They come within the target distance at the contact's fraction.
    Hit(Contact<T>, Counts, Corners),
    /// Along one axis they are apart by more than target and tolerance, where the search stood in the end and at the planned end. **A body that turns may
    /// swing in and out again in between**: cut a turn into steps. Without a turn they stay apart by target less tolerance, which is derived on paper and
    /// was tried, not proved.
    Separated(Contact<T>, Counts, Corners),
    /// No verdict: the search gave up. The fraction is where it stood, which says nothing of what lies before: they may overlap there.
    Failed(Contact<T>, Counts, Corners),
}

/// The corner pairs from which the next distance call starts, under the number of the two outlines' pair; `Cache::default()` for a first call.
///
/// A count above 3, or an index that a list does not have, counts as an empty cache. One that is not empty and has another number than the caller's is
/// refused by 12.
///
/// ```
/// use foldflake::{distance, Cache, Refusal};
/// let call = |pair, cache: &mut Cache| distance([1.0, 0.0], [3.0, 4.0], &[0.0, 0.0], 0.0, &[0.0, 0.0], 0.0, false, pair, cache);
/// let mut cache = Cache::default();
/// call(41, &mut cache).unwrap();
/// assert_eq!(cache, Cache { pair: 41, count: 1, index_a: [0; 3], index_b: [0; 3] });
/// assert_eq!(call(42, &mut cache), Err(Refusal(12)));
/// ```
#[derive(Clone, Copy, Debug, Default, PartialEq, Eq)]
pub struct Cache {
    /// The number of the pair, as its caller gave it.
    pub pair: u32,
    /// How many of the pairs count.
    pub count: u8,
    /// The corners of A, by their index.
    pub index_a: [u32; 3],
    /// The corners of B.
    pub index_b: [u32; 3],
}

/// How a distance call ends.
///
/// ```
/// use foldflake::{distance, Cache, Ending};
/// let point = [0.0, 0.0];
/// let at = |x| distance([1.0, 0.0], [x, 0.0], &point, 0.0, &point, 0.0, false, 41, &mut Cache::default()).unwrap();
/// assert_eq!(at(0.0).ending, Ending::Touching);
/// assert_eq!(at(2.0).ending, Ending::Settled);
/// ```
#[derive(Clone, Copy, Debug, PartialEq, Eq)]
pub enum Ending {
    /// The outlines share a point, or the search direction became too short to go on: distance 0. The cache stays as it came.
    Touching,
    /// No corner lies nearer than those in the cache.
    Settled,
    /// 20 rounds did not settle it: with three pairs in the cache the distance told is 0, be the outlines apart or not.
    RoundLimit,
}

/// What a distance call measures, in the frame of A.
///
/// ```
/// use foldflake::{distance, Cache};
/// let point = [0.0, 0.0];
/// let measured = distance([1.0, 0.0], [3.0, 4.0], &point, 1.0, &point, 0.5, true, 41, &mut Cache::default()).unwrap();
/// assert_eq!(measured.distance, 3.5);
/// assert_eq!(measured.rounds, 1);
/// ```
#[derive(Clone, Copy, Debug, PartialEq)]
pub struct Distance<T = f32> {
    /// The point of A nearest to B.
    pub point_a: [T; 2],
    /// The point of B nearest to A.
    pub point_b: [T; 2],
    /// The direction from A to B; zeros where they touch.
    pub normal: [T; 2],
    /// How far apart they are; not below 0.
    pub distance: T,
    /// Rounds of the search, at most 20.
    pub rounds: u32,
    /// How the call ended.
    pub ending: Ending,
}

/// The square root, rounded to nearest.
///
/// ```
/// assert_eq!(foldflake::root(2.0), 2f32.sqrt());
/// assert!(foldflake::root(-1.0).is_nan());
/// ```
pub fn root(x: f32) -> f32 {
    width::Width::root(x)
}

/// The line of a block as block `number` of a file, newline included; `None` where the number is 0 or above 2^63.
///
/// ```
/// // 512 bytes that are no block: their words do not add up
/// assert_eq!(foldflake::line(3, &[0; 512]).as_deref(), Some("3 0 10\n"));
/// assert_eq!(foldflake::line(0, &[0; 512]), None);
/// ```
pub fn line(number: u64, block: &[u8; 512]) -> Option<String> {
    let mut out = [0u8; 240];
    // Safety: both lists have the lengths handed over, and `out` is ours alone.
    let n = unsafe { entry::foldflake_line(number, block.as_ptr(), block.len(), out.as_mut_ptr(), out.len()) };
    // a length that `out` does not have would be no line
    let text = out.get(..n).filter(|text| !text.is_empty())?;
    Some(String::from_utf8_lossy(text).into_owned())
}

/// When, along two moves, two outlines come within the target distance (see [`Sweep`]). Only the part of the moves up to `max_fraction` is planned.
///
/// ```
/// use foldflake::{sweep, Move, Refusal, Sweep};
/// let stands = Move { local_center: [0.0; 2], first: [9.0, 0.0], last: [9.0, 0.0], first_rotation: [1.0, 0.0], last_rotation: [1.0, 0.0] };
/// let goes = Move { first: [0.0; 2], ..stands };
/// let by = |max_fraction, slop| sweep(&[0.0, 0.0], 1.0, &goes, &[0.0, 0.0], 1.0, &stands, max_fraction, slop);
/// assert!(matches!(by(1.0, 0.01), Ok(Sweep::Hit(..))));
/// assert!(matches!(by(0.5, 0.01), Ok(Sweep::Separated(..))));
/// assert_eq!(by(1.5, 0.01), Err(Refusal(7)));
/// ```
#[allow(clippy::too_many_arguments)]
pub fn sweep(
    points_a: &[f32],
    radius_a: f32,
    move_a: &Move,
    points_b: &[f32],
    radius_b: f32,
    move_b: &Move,
    max_fraction: f32,
    linear_slop: f32,
) -> Result<Sweep, Refusal> {
    width::sweep(points_a, radius_a, move_a, points_b, radius_b, move_b, max_fraction, linear_slop)
}

/// What holds at every fraction of two planned moves: proved, in exact arithmetic. "Clear" is: further apart than the larger of the slop and the sum of the
/// radii, for every point of either outline. Fractions are multiples of 2^-24.
#[derive(Clone, Copy, Debug, PartialEq)]
pub enum Clearance {
    /// Clear at every fraction from `from` to the max fraction.
    Clear {
        /// Pieces of the way that were tried, at most 4,096.
        pieces: u32,
    },
    /// The first contact comes not before `clear_up_to`, and certainly by `within_by`.
    Touch {
        /// Clear from `from` up to here, where this is after `from`.
        clear_up_to: f32,
        /// Here they are not further apart than that.
        within_by: f32,
        /// As above.
        pieces: u32,
    },
    /// What comes after `clear_up_to` was not settled.
    Open {
        /// Clear from `from` up to here, where this is after `from`.
        clear_up_to: f32,
        /// As above.
        pieces: u32,
    },
}

/// What holds at every fraction from `from` to `max_fraction`, unlike [`Sweep::Separated`] also of a body that turns. Straight outlines, the motion as
/// planned: what the controller that drives the cart makes of it is its own. Refused as [`sweep`] is, by 7 also for a `from` that is not from 0 to
/// `max_fraction`.
///
/// ```
/// use foldflake::{clearance, Clearance, Move, Refusal};
/// // a square of half size 5 turns a quarter beside a wall: its corners reach 7.07
/// let square = [-5.0, -5.0, 5.0, -5.0, 5.0, 5.0, -5.0, 5.0];
/// let wall = [0.0, -20.0, 4.0, -20.0, 4.0, 20.0, 0.0, 20.0];
/// let turns = Move { local_center: [0.0; 2], first: [0.0; 2], last: [0.0; 2], first_rotation: [1.0, 0.0], last_rotation: [0.0, 1.0] };
/// let beside = |x: f32| Move { first: [x, 0.0], last: [x, 0.0], last_rotation: [1.0, 0.0], ..turns };
/// let look = |x, from| clearance(&square, 0.0, &turns, &wall, 0.0, &beside(x), from, 1.0, 0.005);
/// assert!(matches!(look(7.1, 0.0)?, Clearance::Clear { .. }));
/// match look(6.0, 0.0)? {
///     Clearance::Touch { clear_up_to, within_by, .. } => assert!(0.18 < clear_up_to && clear_up_to <= within_by && within_by < 0.19),
///     other => panic!("{other:?}"),
/// }
/// assert_eq!(look(6.0, 1.5), Err(Refusal(7)));
/// # Ok::<(), Refusal>(())
/// ```
#[allow(clippy::too_many_arguments)]
pub fn clearance(
    points_a: &[f32],
    radius_a: f32,
    move_a: &Move,
    points_b: &[f32],
    radius_b: f32,
    move_b: &Move,
    from: f32,
    max_fraction: f32,
    linear_slop: f32,
) -> Result<Clearance, Refusal> {
    let numbers = width::numbers(radius_a, move_a, radius_b, move_b, max_fraction, linear_slop);
    let (mut out, mut pieces) = ([0f32; 2], [0u32; 1]);
    // Safety: each list has the length handed over, and the two that are written are ours alone.
    let answer = unsafe {
        entry::foldflake_clearance(
            points_a.as_ptr(),
            points_a.len(),
            points_b.as_ptr(),
            points_b.len(),
            numbers.as_ptr(),
            numbers.len(),
            from,
            out.as_mut_ptr(),
            out.len(),
            pieces.as_mut_ptr(),
            pieces.len(),
        )
    };
    let ([clear_up_to, within_by], [pieces]) = (out, pieces);
    match answer {
        32 => Ok(Clearance::Clear { pieces }),
        33 => Ok(Clearance::Touch { clear_up_to, within_by, pieces }),
        34 => Ok(Clearance::Open { clear_up_to, pieces }),
        number => Err(Refusal(number)),
    }
}

/// The distance of two outlines, B turned by `rotation` (cosine, sine) and moved by `translation` in the frame of A. The radii count where
/// `use_radii` says so, and are checked in any case. `pair` is the caller's number for the two outlines, under which the cache is written. A refusal and
/// a call that touches leave the cache as it came.
///
/// ```
/// use foldflake::{distance, Cache};
/// let square = [-1.0, -1.0, 1.0, -1.0, 1.0, 1.0, -1.0, 1.0];
/// let mut cache = Cache::default();
/// let measured = distance([1.0, 0.0], [4.0, 0.0], &square, 0.0, &square, 0.0, false, 41, &mut cache)?;
/// assert_eq!((measured.distance, measured.normal), (2.0, [1.0, 0.0]));
/// # Ok::<(), foldflake::Refusal>(())
/// ```
#[allow(clippy::too_many_arguments)]
pub fn distance(
    rotation: [f32; 2],
    translation: [f32; 2],
    points_a: &[f32],
    radius_a: f32,
    points_b: &[f32],
    radius_b: f32,
    use_radii: bool,
    pair: u32,
    cache: &mut Cache,
) -> Result<Distance, Refusal> {
    width::distance(rotation, translation, points_a, radius_a, points_b, radius_b, use_radii, pair, cache)
}

/// Where a body stands: its points are turned by the rotation and then moved by the translation.
///
/// ```
/// use foldflake::{pose, Move};
/// let turn = Move { local_center: [1.0, 1.0], first: [5.0, 0.0], last: [5.0, 0.0], first_rotation: [1.0, 0.0], last_rotation: [0.0, 1.0] };
/// let end = pose(&turn, 1.0)?;
/// // the turning centre stays at (5, 0)
/// assert_eq!((end.rotation, end.translation), ([0.0, 1.0], [6.0, -1.0]));
/// # Ok::<(), foldflake::Refusal>(())
/// ```
#[derive(Clone, Copy, Debug, PartialEq)]
pub struct Pose {
    /// Cosine and sine.
    pub rotation: [f32; 2],
    /// In the hall's frame.
    pub translation: [f32; 2],
}

/// The pose of a body at a fraction of its move, as a sweep works it. Refused by 5 and 6 for the move, then by 7 for the fraction.
///
/// ```
/// use foldflake::{pose, Move, Refusal};
/// let goes = Move { local_center: [0.0; 2], first: [0.0; 2], last: [8.0, 4.0], first_rotation: [1.0, 0.0], last_rotation: [1.0, 0.0] };
/// assert_eq!(pose(&goes, 0.25)?.translation, [2.0, 1.0]);
/// assert_eq!(pose(&goes, 1.5), Err(Refusal(7)));
/// # Ok::<(), Refusal>(())
/// ```
pub fn pose(planned: &Move, fraction: f32) -> Result<Pose, Refusal> {
    let numbers = planned.numbers();
    let mut out = [0f32; 4];
    // Safety: both lists have the lengths handed over, and the one that is written is ours alone.
    let answer = unsafe { entry::foldflake_pose(numbers.as_ptr(), numbers.len(), fraction, out.as_mut_ptr(), out.len()) };
    match answer {
        32 => Ok(Pose { rotation: [out[0], out[1]], translation: [out[2], out[3]] }),
        number => Err(Refusal(number)),
    }
}

/// How far apart two outlines are at a fraction of their moves, without radii: the distance as a sweep works it there, with no corners known from
/// before. 0 where they touch or overlap, and also where a side is tiny or the rounds run out, although they may be apart.
///
/// Refused by 1 to 3 for the outlines, 5 and 6 for the moves, then by 7 for the fraction. The poses in between are not checked again, as
/// [`distance`] would: a rotation may come out a little above 1.
///
/// ```
/// use foldflake::{gap, Move};
/// let stands = Move { local_center: [0.0; 2], first: [6.0, 0.0], last: [6.0, 0.0], first_rotation: [1.0, 0.0], last_rotation: [1.0, 0.0] };
/// let goes = Move { first: [0.0; 2], last: [8.0, 0.0], ..stands };
/// let square = [-1.0, -1.0, 1.0, -1.0, 1.0, 1.0, -1.0, 1.0];
/// assert_eq!(gap(&square, &goes, &square, &stands, 0.25)?, 2.0);
/// assert_eq!(gap(&square, &goes, &square, &stands, 0.75)?, 0.0);
/// # Ok::<(), foldflake::Refusal>(())
/// ```
pub fn gap(points_a: &[f32], move_a: &Move, points_b: &[f32], move_b: &Move, fraction: f32) -> Result<f32, Refusal> {
    let (ten_a, ten_b) = (move_a.numbers(), move_b.numbers());
    let mut out = [0f32; 1];
    // Safety: each list has the length handed over, and the one that is written is ours alone.
    let answer = unsafe {
        entry::foldflake_gap(
            points_a.as_ptr(),
            points_a.len(),
            ten_a.as_ptr(),
            ten_a.len(),
            points_b.as_ptr(),
            points_b.len(),
            ten_b.as_ptr(),
            ten_b.len(),
            fraction,
            out.as_mut_ptr(),
            out.len(),
        )
    };
    match answer {
        32 => Ok(out[0]),
        number => Err(Refusal(number)),
    }
}

/// A rectangle about (0, 0) from its half sizes: four corners at the front of the lent list, which are handed back; the rest of the list stays.
///
/// Corner `k` is `(half_x, half_y)`, x negated where bit 0 of `k` is set, y where bit 1 is. Half sizes of 0 keep all four corners. Refused by 3, then
/// by 15 where the list has fewer than 8 numbers; a refusal leaves the list as it came.
///
/// ```
/// use foldflake::{plate, Refusal};
/// let mut list = [9.0; 10];
/// assert_eq!(plate([6.0, 4.0], &mut list)?, [6.0, 4.0, -6.0, 4.0, 6.0, -4.0, -6.0, -4.0]);
/// assert_eq!(list[8..], [9.0, 9.0]);
/// assert_eq!(plate([6.0, -4.0], &mut list), Err(Refusal(3)));
/// # Ok::<(), Refusal>(())
/// ```
pub fn plate(half_sizes: [f32; 2], list: &mut [f32]) -> Result<&[f32], Refusal> {
    let [x, y] = half_sizes;
    // Safety: the list has the length handed over, and is lent to us alone.
    let answer = unsafe { entry::foldflake_plate(x, y, list.as_mut_ptr(), list.len()) };
    built(answer, list, 8)
}

/// A bar from its two ends, `a` and then `b`, at the front of the lent list, which are handed back; the rest of the list stays.
///
/// Refused by 3, then by 15 where the list has fewer than 4 numbers; a refusal leaves the list as it came.
///
/// ```
/// use foldflake::{bar, distance, Cache};
/// let mut list = [0.0; 4];
/// let rail = bar([-3.0, 2.0], [3.0, 2.0], &mut list)?;
/// assert_eq!(rail, [-3.0, 2.0, 3.0, 2.0]);
/// let measured = distance([1.0, 0.0], [0.0, 0.0], &[0.0, 0.0], 0.0, rail, 0.0, false, 41, &mut Cache::default())?;
/// assert_eq!(measured.distance, 2.0);
/// # Ok::<(), foldflake::Refusal>(())
/// ```
pub fn bar(a: [f32; 2], b: [f32; 2], list: &mut [f32]) -> Result<&[f32], Refusal> {
    // Safety: the list has the length handed over, and is lent to us alone.
    let answer = unsafe { entry::foldflake_bar(a[0], a[1], b[0], b[1], list.as_mut_ptr(), list.len()) };
    built(answer, list, 4)
}

/// A [`plate`] whose corners are each turned by `rotation` (cosine, sine) and then moved by `translation`.
///
/// Refused by 3, 5 and 6 for the pose, then 15; a refusal leaves the list as it came. Corners that come to lie too far out are not refused here: the
/// call that takes them refuses them by 3.
///
/// ```
/// use foldflake::placed_plate;
/// let mut list = [0.0; 8];
/// // a quarter turn, then 10 to the right
/// let turned = placed_plate([6.0, 4.0], [0.0, 1.0], [10.0, 0.0], &mut list)?;
/// assert_eq!(turned, [6.0, 6.0, 6.0, -6.0, 14.0, 6.0, 14.0, -6.0]);
/// # Ok::<(), foldflake::Refusal>(())
/// ```
pub fn placed_plate(half_sizes: [f32; 2], rotation: [f32; 2], translation: [f32; 2], list: &mut [f32]) -> Result<&[f32], Refusal> {
    let [x, y] = half_sizes;
    let pose = [rotation[0], rotation[1], translation[0], translation[1]];
    // Safety: both lists have the lengths handed over, and the one that is written is lent to us alone.
    let answer = unsafe { entry::foldflake_placed_plate(x, y, pose.as_ptr(), pose.len(), list.as_mut_ptr(), list.len()) };
    built(answer, list, 8)
}

/// A [`bar`] whose ends are each turned by `rotation` (cosine, sine) and then moved by `translation`; refused as a [`placed_plate`] is.
///
/// ```
/// use foldflake::{placed_bar, Refusal};
/// let mut list = [0.0; 4];
/// assert_eq!(placed_bar([0.0, 0.0], [9.0, 1.0], [0.0, 1.0], [5.0, 5.0], &mut list)?, [5.0, 5.0, 4.0, 14.0]);
/// assert_eq!(placed_bar([0.0, 0.0], [9.0, 1.0], [1.0, 1.0], [5.0, 5.0], &mut list), Err(Refusal(5)));
/// # Ok::<(), Refusal>(())
/// ```
pub fn placed_bar(a: [f32; 2], b: [f32; 2], rotation: [f32; 2], translation: [f32; 2], list: &mut [f32]) -> Result<&[f32], Refusal> {
    let pose = [rotation[0], rotation[1], translation[0], translation[1]];
    // Safety: both lists have the lengths handed over, and the one that is written is lent to us alone.
    let answer = unsafe { entry::foldflake_placed_bar(a[0], a[1], b[0], b[1], pose.as_ptr(), pose.len(), list.as_mut_ptr(), list.len()) };
    built(answer, list, 4)
}

/// What a builder answered, with the numbers at the list's front that it wrote.
fn built(answer: u32, list: &[f32], numbers: usize) -> Result<&[f32], Refusal> {
    match answer {
        // a list that has no room was refused
        32 => list.get(..numbers).ok_or(Refusal(15)),
        number => Err(Refusal(number)),
    }
}

/// Where a cart is on its route: its centre and its rotation, a cosine and a sine.
#[derive(Clone, Copy, Debug, PartialEq)]
pub struct Waypoint {
    /// The centre.
    pub center: [f32; 2],
    /// The rotation.
    pub rotation: [f32; 2],
}

/// The sweep that ends a route.
#[derive(Clone, Copy, Debug, PartialEq, Eq)]
pub struct Stop {
    /// The leg, from 1.
    pub leg: u32,
    /// The still outline, from 1.
    pub outline: u32,
    /// The distance calls of all sweeps up to this one, its own included.
    pub distance_calls: u32,
}

/// What a route comes to.
#[derive(Clone, Copy, Debug, PartialEq)]
pub enum Route {
    /// Every leg is separated from every still outline, in so many distance calls. It clears no more than [`Sweep::Separated`] does.
    Clear(u32),
    /// The cart touches or overlaps an outline where the search stood.
    Overlapped(Stop),
    /// The cart comes within the target distance of an outline.
    Hit(Stop, Contact),
    /// No verdict: the search gave up.
    Failed(Stop, Contact),
}

/// Why a route was refused, and at which leg and outline: none where the route as a whole was, by 16 or 17.
///
/// ```
/// use foldflake::{route, Refusal, Waypoint};
/// let ways = [Waypoint { center: [0.0, 0.0], rotation: [1.0, 0.0] }, Waypoint { center: [9.0, 0.0], rotation: [1.0, 0.0] }];
/// let refused = route(&[-1.0, 0.0, 1.0, 0.0], &ways, &[&[5.0, 3.0], &[f32::NAN, 0.0]], 0.01).unwrap_err();
/// assert_eq!(refused.refusal, Refusal(3));
/// assert_eq!(refused.at.map(|stop| (stop.leg, stop.outline)), Some((1, 2)));
/// assert!(refused.to_string().starts_with("leg 1, outline 2: refused by 3: a point's part "));
/// let refused = route(&[-1.0, 0.0, 1.0, 0.0], &ways, &[], 0.01).unwrap_err();
/// assert_eq!(refused.to_string(), "refused by 17: the route has no still outline or more than 32");
/// ```
#[derive(Clone, Copy, Debug, PartialEq, Eq)]
pub struct RouteRefusal<P> {
    /// The number.
    pub refusal: Refusal,
    /// The sweep or the pair that was refused.
    pub at: Option<P>,
}

impl fmt::Display for RouteRefusal<Stop> {
    fn fmt(&self, f: &mut fmt::Formatter<'_>) -> fmt::Result {
        route_refused(f, self.refusal, self.at.map(|stop| (stop.leg, stop.outline)))
    }
}

impl fmt::Display for RouteRefusal<Pair> {
    fn fmt(&self, f: &mut fmt::Formatter<'_>) -> fmt::Result {
        route_refused(f, self.refusal, self.at.map(|pair| (pair.leg, pair.outline)))
    }
}

fn route_refused(f: &mut fmt::Formatter<'_>, refusal: Refusal, at: Option<(u32, u32)>) -> fmt::Result {
    if let Some((leg, outline)) = at {
        write!(f, "leg {leg}, outline {outline}: ")?;
    }
    write!(f, "{refusal}")
}

impl std::error::Error for RouteRefusal<Stop> {}

impl std::error::Error for RouteRefusal<Pair> {}

/// The number alone.
impl<P> From<RouteRefusal<P>> for Refusal {
    fn from(refused: RouteRefusal<P>) -> Refusal {
        refused.refusal
    }
}

/// The waypoints' numbers, the outlines' points one behind another, and how many numbers each outline has. Of what is refused for its length one more than is
/// allowed is handed on, so that no list grows with it.
fn route_lists(waypoints: &[Waypoint], stills: &[&[f32]]) -> (Vec<f32>, Vec<f32>, Vec<u32>) {
    let ways = waypoints.iter().take(34).flat_map(|w| [w.center[0], w.center[1], w.rotation[0], w.rotation[1]]).collect();
    let kept = || stills.iter().take(33).map(|s| s.get(..129).unwrap_or(s));
    (ways, kept().flatten().copied().collect(), kept().map(|s| s.len() as u32).collect())
}

/// The route of a cart past still outlines, leg by leg and past the outlines in order on each leg; or the refusal, with the sweep that was refused, if it was
/// one.
///
/// ```
/// use foldflake::{route, Route, Waypoint};
/// let ways = [Waypoint { center: [0.0, 0.0], rotation: [1.0, 0.0] }, Waypoint { center: [9.0, 0.0], rotation: [1.0, 0.0] }];
/// assert!(matches!(route(&[-1.0, 0.0, 1.0, 0.0], &ways, &[&[5.0, 3.0]], 0.01), Ok(Route::Clear(_))));
/// match route(&[-1.0, 0.0, 1.0, 0.0], &ways, &[&[5.0, 3.0], &[6.0, 0.0]], 0.01) {
///     Ok(Route::Hit(stop, _)) => assert_eq!((stop.leg, stop.outline), (1, 2)),
///     other => panic!("{other:?}"),
/// }
/// ```
pub fn route(cart: &[f32], waypoints: &[Waypoint], stills: &[&[f32]], slop: f32) -> Result<Route, RouteRefusal<Stop>> {
    let (ways, points, lengths) = route_lists(waypoints, stills);
    let (mut out, mut place) = ([0f32; 5], [0u32; 3]);
    // Safety: each list has the length handed over, and the two that are written are ours alone.
    let answer = unsafe {
        entry::foldflake_route(
            cart.as_ptr(),
            cart.len(),
            ways.as_ptr(),
            ways.len(),
            points.as_ptr(),
            points.len(),
            lengths.as_ptr(),
            lengths.len(),
            slop,
            out.as_mut_ptr(),
            out.len(),
            place.as_mut_ptr(),
            place.len(),
        )
    };
    let contact = Contact { fraction: out[0], point: [out[1], out[2]], normal: [out[3], out[4]] };
    let stop = Stop { leg: place[0], outline: place[1], distance_calls: place[2] };
    match answer {
        32 => Ok(Route::Clear(stop.distance_calls)),
        33 => Ok(Route::Overlapped(stop)),
        34 => Ok(Route::Hit(stop, contact)),
        35 => Ok(Route::Failed(stop, contact)),
        number => Err(RouteRefusal { refusal: Refusal(number), at: Some(stop).filter(|s| s.leg > 0) }),
    }
}

/// The leg and the outline that end a route looked at as a whole.
#[derive(Clone, Copy, Debug, PartialEq, Eq)]
pub struct Pair {
    /// The leg, from 1.
    pub leg: u32,
    /// The still outline, from 1.
    pub outline: u32,
    /// The pieces of all pairs up to this one, its own included.
    pub pieces: u32,
}

/// What holds at every moment of a route: proved, in exact arithmetic. "Clear" is: further apart than the slop, for every point of the cart and of the
/// outline. Fractions are of the leg, multiples of 2^-24.
#[derive(Clone, Copy, Debug, PartialEq)]
pub enum RouteClearance {
    /// Every leg is clear of every still outline, at every moment of it.
    Clear {
        /// Pieces of all legs that were tried.
        pieces: u32,
    },
    /// All pairs before this one, in the route's order, are clear; on this leg past this outline the first contact comes not before `clear_up_to`, and
    /// certainly by `within_by`.
    Touch {
        /// The leg and the outline.
        pair: Pair,
        /// Clear up to here, where this is after 0.
        clear_up_to: f32,
        /// Here they are not further apart than the slop.
        within_by: f32,
    },
    /// All pairs before this one are clear; on this leg past this outline, what comes after `clear_up_to` was not settled.
    Open {
        /// The leg and the outline.
        pair: Pair,
        /// Clear up to here, where this is after 0.
        clear_up_to: f32,
    },
}

/// The same route looked at as a whole: what is told of a leg holds at every moment of it, also of a cart that turns. Or the refusal, with the pair that
/// was refused, if it was one.
///
/// ```
/// use foldflake::{route, route_clearance, Route, RouteClearance, Waypoint};
/// // a cart of 2 by 1 turns a quarter beside a post that its corner meets on the way
/// let cart = [-1.0, -0.5, 1.0, -0.5, 1.0, 0.5, -1.0, 0.5];
/// let turns = [Waypoint { center: [0.0; 2], rotation: [1.0, 0.0] }, Waypoint { center: [0.0; 2], rotation: [0.0, 1.0] }];
/// let post = [-0.4, 1.1, 0.4, 1.1, 0.4, 1.9, -0.4, 1.9];
/// assert!(matches!(route(&cart, &turns, &[&post], 0.005), Ok(Route::Clear(_))));
/// match route_clearance(&cart, &turns, &[&post], 0.005) {
///     Ok(RouteClearance::Touch { pair, clear_up_to, within_by }) => {
///         assert_eq!((pair.leg, pair.outline), (1, 1));
///         assert!(0.55 < clear_up_to && clear_up_to < within_by && within_by < 0.57);
///     }
///     other => panic!("{other:?}"),
/// }
/// assert!(matches!(route_clearance(&cart, &turns, &[&post.map(|x| 2.0 * x)], 0.005), Ok(RouteClearance::Clear { .. })));
/// ```
pub fn route_clearance(cart: &[f32], waypoints: &[Waypoint], stills: &[&[f32]], slop: f32) -> Result<RouteClearance, RouteRefusal<Pair>> {
    let (ways, points, lengths) = route_lists(waypoints, stills);
    let (mut out, mut place) = ([0f32; 2], [0u32; 3]);
    // Safety: each list has the length handed over, and the two that are written are ours alone.
    let answer = unsafe {
        entry::foldflake_route_clearance(
            cart.as_ptr(),
            cart.len(),
            ways.as_ptr(),
            ways.len(),
            points.as_ptr(),
            points.len(),
            lengths.as_ptr(),
            lengths.len(),
            slop,
            out.as_mut_ptr(),
            out.len(),
            place.as_mut_ptr(),
            place.len(),
        )
    };
    let ([clear_up_to, within_by], [leg, outline, pieces]) = (out, place);
    let pair = Pair { leg, outline, pieces };
    match answer {
        32 => Ok(RouteClearance::Clear { pieces }),
        33 => Ok(RouteClearance::Touch { pair, clear_up_to, within_by }),
        34 => Ok(RouteClearance::Open { pair, clear_up_to }),
        number => Err(RouteRefusal { refusal: Refusal(number), at: Some(pair).filter(|p| p.leg > 0) }),
    }
}
