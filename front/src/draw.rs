//! The drawings of a card, as SVG: the outlines on squared paper, and the gap over the move.
use super::batch::{Job, Status, Verdict};
use super::gaps::{Sampled, PIECES};
use super::moves::Placed;
use super::proved::Cell;
use super::words::{escaped, length, rounded};
use std::fmt::Write;

/// How wide a drawing is, in its own units.
const WIDE: f64 = 400.0;
/// The most squares along its longer side, without the rim.
const SQUARES: f64 = 36.0;

type Place = [f64; 2];

/// One body at one moment.
struct Standing {
    class: &'static str,
    pose: Placed,
}

/// The moments at which a card shows the bodies.
pub struct Moments {
    /// The end of what is planned.
    pub end: f32,
    /// The fraction that the line tells, as far as a move goes.
    pub told: f32,
    /// A fraction at which they are in contact although the search says otherwise.
    pub missed: Option<f32>,
}

fn corners(points: &[f32]) -> Vec<Place> {
    points.chunks_exact(2).map(|p| [f64::from(p[0]), f64::from(p[1])]).collect()
}

/// The corners of the smallest convex shape that holds all points, counterclockwise, none on a side of it.
pub fn hull(points: &[Place]) -> Vec<Place> {
    let mut sorted = points.to_vec();
    sorted.sort_by(|p, q| p[0].total_cmp(&q[0]).then(p[1].total_cmp(&q[1])));
    // the two zeros are one place
    sorted.dedup_by(|p, q| p[0] == q[0] && p[1] == q[1]);
    if sorted.len() < 3 {
        return sorted;
    }
    let half = |places: &mut dyn Iterator<Item = &Place>| {
        let mut chain: Vec<Place> = Vec::new();
        for &p in places {
            while chain.len() >= 2 {
                let (o, q) = (chain[chain.len() - 2], chain[chain.len() - 1]);
                if (q[0] - o[0]) * (p[1] - o[1]) - (q[1] - o[1]) * (p[0] - o[0]) > 0.0 {
                    break;
                }
                chain.pop();
            }
            chain.push(p);
        }
        chain.pop();
        chain
    };
    let mut lower = half(&mut sorted.iter());
    lower.extend(half(&mut sorted.iter().rev()));
    lower
}

/// From the hall to the paper: y goes up in the hall and down on the paper.
struct Paper {
    unit: f64,
    /// The number of the first line, counted from the hall's origin, in x and y.
    first: [i64; 2],
    squares: [i64; 2],
    scale: f64,
}

impl Paper {
    /// Squares of 1, 2 or 5 times a power of ten, so that the box with one square around it fits.
    fn around(low: Place, high: Place) -> Paper {
        let size = low.iter().chain(&high).fold(0f64, |size, x| size.max(x.abs()));
        let span = (high[0] - low[0]).max(high[1] - low[1]).max(1e-5 * size);
        let span = if span > 0.0 { span } else { 1.0 };
        let least = span / SQUARES;
        let ten = 10f64.powf(least.log10().floor());
        let unit = [1.0, 2.0, 5.0, 10.0].iter().map(|m| m * ten).find(|u| *u >= least * 0.999_999).unwrap_or(10.0 * ten);
        let mut first = [0i64; 2];
        let mut squares = [0i64; 2];
        for axis in 0..2 {
            first[axis] = (low[axis] / unit).floor() as i64 - 1;
            squares[axis] = (high[axis] / unit).ceil() as i64 + 1 - first[axis];
        }
        // not flatter than one to two, nor higher than wide by more than a third
        for (axis, other) in [(1, 0), (0, 1)] {
            let wanted = if axis == 1 { squares[other] / 2 } else { squares[other] * 3 / 4 };
            if squares[axis] < wanted {
                first[axis] -= (wanted - squares[axis]) / 2;
                squares[axis] = wanted;
            }
        }
        Paper { unit, first, squares, scale: WIDE / (squares[0] as f64 * unit) }
    }

    fn high(&self) -> f64 {
        self.squares[1] as f64 * self.unit * self.scale
    }

    fn at(&self, p: Place) -> Place {
        let x = (p[0] - self.first[0] as f64 * self.unit) * self.scale;
        let y = ((self.first[1] + self.squares[1]) as f64 * self.unit - p[1]) * self.scale;
        [x, y]
    }
}

/// The head of a drawing so wide and high in its own units.
fn opened(class: &str, wide: &str, high: &str, name: &str) -> String {
    let name = escaped(name);
    format!(
        "<svg xmlns=\"http://www.w3.org/2000/svg\" class=\"{class}\" viewBox=\"0 0 {wide} {high}\" preserveAspectRatio=\"xMinYMin meet\" role=\"img\" \
         aria-label=\"{name}\"><title>{name}</title>"
    )
}

fn xy(p: Place) -> String {
    format!("{} {}", rounded(p[0], 2), rounded(p[1], 2))
}

/// A number that is a whole multiple of a square, written with the places that the square needs.
fn label(number: f64, unit: f64) -> String {
    if !(1e-4..1e7).contains(&unit) {
        return format!("{number:.0e}");
    }
    rounded(number, (-unit.log10().floor()).max(0.0) as usize)
}

/// The path round a hull, counterclockwise in the hall, at the distance of the radius.
fn round(hull: &[Place], radius: f64, paper: &Paper) -> String {
    let r = radius * paper.scale;
    let n = hull.len();
    let mut path = String::new();
    if n == 1 {
        let [x, y] = paper.at(hull[0]);
        let (r, left, right) = (r.max(1.2), rounded(x - r.max(1.2), 2), rounded(x + r.max(1.2), 2));
        let (r, y) = (rounded(r, 2), rounded(y, 2));
        return format!("M{left} {y}A{r} {r} 0 0 0 {right} {y}A{r} {r} 0 0 0 {left} {y}Z");
    }
    for i in 0..n {
        let (a, b) = (paper.at(hull[i]), paper.at(hull[(i + 1) % n]));
        let (dx, dy) = (b[0] - a[0], b[1] - a[1]);
        let far = dx.hypot(dy);
        // on the paper, with y down, the outside of such a walk lies to the right
        let out = if far > 0.0 { [-dy / far * r, dx / far * r] } else { [0.0, 0.0] };
        let (a, b) = ([a[0] + out[0], a[1] + out[1]], [b[0] + out[0], b[1] + out[1]]);
        if i == 0 {
            let _ = write!(path, "M{}", xy(a));
        } else if r >= 0.05 {
            let _ = write!(path, "A{0} {0} 0 0 0 {1}", rounded(r, 2), xy(a));
        }
        let _ = write!(path, "L{}", xy(b));
        if i + 1 == n && r >= 0.05 {
            let first = path[1..path.find('L').unwrap_or(1)].to_string();
            let _ = write!(path, "A{0} {0} 0 0 0 {1}", rounded(r, 2), first);
        }
    }
    path.push('Z');
    path
}

fn grid(paper: &Paper, out: &mut String) {
    let high = paper.high();
    let mut paths = [String::new(), String::new(), String::new()];
    let mut labels = String::new();
    for axis in 0..2 {
        for i in 0..=paper.squares[axis] {
            let number = paper.first[axis] + i;
            let heavy = if number == 0 { 2 } else { usize::from(number % 5 == 0) };
            let along = i as f64 * WIDE / paper.squares[0] as f64;
            let step = if axis == 0 { format!("M{0} 0V{1}", rounded(along, 2), rounded(high, 2)) } else { format!("M0 {}H{WIDE}", rounded(high - along, 2)) };
            paths[heavy].push_str(&step);
            if heavy > 0 && i > 0 && i < paper.squares[axis] {
                let said = label(number as f64 * paper.unit, paper.unit);
                let (x, y) = if axis == 0 { (along + 2.0, high - 3.0) } else { (2.0, high - along - 2.0) };
                let _ = write!(labels, r#"<text x="{}" y="{}">{said}</text>"#, rounded(x, 2), rounded(y, 2));
            }
        }
    }
    for (class, path) in ["g1", "g2", "g3"].iter().zip(&paths) {
        if !path.is_empty() {
            let _ = write!(out, r#"<path class="{class}" d="{path}"/>"#);
        }
    }
    let _ = write!(out, r#"<g class="gl">{labels}</g>"#);
}

/// A picture of the outlines on squared paper and the size of a square; none where a body has no pose.
pub fn outlines(job: &Job, verdict: &Verdict, moments: &Moments, name: &str) -> Option<(String, String)> {
    let mut bodies: Vec<Vec<Standing>> = Vec::new();
    for body in 0..2 {
        let mut list = Vec::new();
        let mut show = |class, t: f32| job.moves[body].placed(t).map(|pose| list.push(Standing { class, pose }));
        if !job.stands(body) {
            show("start", 0.0)?;
            if moments.told != moments.end && moments.end > 0.0 {
                show("end", moments.end)?;
            }
            if let Some(t) = moments.missed {
                show("missed", t)?;
            }
        }
        show("told", moments.told)?;
        bodies.push(list);
    }
    // every place that has to be on the paper
    let (mut low, mut high) = ([f64::INFINITY; 2], [f64::NEG_INFINITY; 2]);
    let mut keep = |p: Place, r: f64| {
        for axis in 0..2 {
            low[axis] = low[axis].min(p[axis] - r);
            high[axis] = high[axis].max(p[axis] + r);
        }
    };
    let local: Vec<Vec<Place>> = job.points.iter().map(|points| corners(points)).collect();
    for body in 0..2 {
        for standing in &bodies[body] {
            local[body].iter().for_each(|p| keep(standing.pose.place(*p), f64::from(job.radius[body])));
        }
        if !job.stands(body) {
            way(job, body, moments.end).iter().for_each(|p| keep(*p, 0.0));
        }
    }
    let paper = Paper::around(low, high);
    let tall = rounded(paper.high(), 2);
    // print makes a high drawing smaller, and its letters larger
    let letters = rounded((0.041 * paper.high()).max(12.0), 1);
    let mut out = opened(&format!("paper\" style=\"--letters:{letters}px"), &rounded(WIDE, 0), &tall, name);
    let _ = write!(out, r#"<rect class="rim" width="{WIDE}" height="{tall}"/>"#);
    grid(&paper, &mut out);
    for class in ["told", "start", "end", "missed"] {
        for body in [1, 0] {
            for standing in bodies[body].iter().filter(|standing| standing.class == class) {
                let shape = hull(&local[body].iter().map(|p| standing.pose.place(*p)).collect::<Vec<_>>());
                let side = ["a", "b"][body];
                let path = round(&shape, f64::from(job.radius[body]), &paper);
                let _ = write!(out, r#"<path class="{side} {class}" d="{path}"/>"#);
                if job.radius[body] > 0.0 && class == "told" {
                    let _ = write!(out, r#"<path class="inner" d="{}"/>"#, round(&shape, 0.0, &paper));
                }
            }
        }
    }
    for body in 0..2 {
        if !job.stands(body) {
            let [from, to] = way(job, body, moments.end).map(|p| paper.at(p));
            let _ = write!(out, r#"<path class="way" d="M{}L{}"/>"#, xy(from), xy(to));
            let _ = write!(out, r#"<circle class="centre" cx="{}" cy="{}" r="2.4"/>"#, rounded(from[0], 2), rounded(from[1], 2));
            arrow_head("wayhead", from, to, &mut out);
        }
    }
    for body in 0..2 {
        let standing = bodies[body].iter().find(|standing| standing.class == "told")?;
        let places: Vec<Place> = local[body].iter().map(|p| paper.at(standing.pose.place(*p))).collect();
        numbers(&places, ["A", "B"][body], ["na", "nb"][body], &mut out);
    }
    if matches!(verdict.status, Status::Hit | Status::Failed) && verdict.floats[3..] != [0.0, 0.0] {
        contact(verdict, &paper, &mut out);
    }
    out.push_str("</svg>");
    Some((out, label(paper.unit, paper.unit)))
}

/// The way of the turning centre, up to the end of what is planned.
fn way(job: &Job, body: usize, end: f32) -> [Place; 2] {
    let m = &job.moves[body];
    let (from, to) = (m.first.map(f64::from), m.last.map(f64::from));
    let t = f64::from(end);
    [from, [from[0] + t * (to[0] - from[0]), from[1] + t * (to[1] - from[1])]]
}

fn arrow_head(class: &str, from: Place, to: Place, out: &mut String) {
    let (dx, dy) = (to[0] - from[0], to[1] - from[1]);
    let far = dx.hypot(dy);
    if far < 6.0 {
        return;
    }
    let (ux, uy) = (dx / far, dy / far);
    let base = [to[0] - 8.0 * ux, to[1] - 8.0 * uy];
    let (left, right) = ([base[0] - 3.0 * uy, base[1] + 3.0 * ux], [base[0] + 3.0 * uy, base[1] - 3.0 * ux]);
    let _ = write!(out, r#"<path class="{class}" d="M{}L{}L{}Z"/>"#, xy(to), xy(left), xy(right));
}

/// The corners' numbers, from 0 as on the sheet, outside the outline; corners at one place share a label. The body's letter stands in its middle.
fn numbers(places: &[Place], letter: &str, class: &str, out: &mut String) {
    let n = places.len() as f64;
    let middle = [places.iter().map(|p| p[0]).sum::<f64>() / n, places.iter().map(|p| p[1]).sum::<f64>() / n];
    let mut labels: Vec<(Place, String)> = Vec::new();
    for (i, p) in places.iter().enumerate() {
        match labels.iter_mut().find(|(q, _)| (q[0] - p[0]).hypot(q[1] - p[1]) < 1.5) {
            Some((_, said)) => {
                let _ = write!(said, ",{i}");
            }
            None => labels.push((*p, i.to_string())),
        }
    }
    let _ = write!(out, r#"<g class="{class}">"#);
    for (p, said) in &labels {
        let (dx, dy) = (p[0] - middle[0], p[1] - middle[1]);
        let far = dx.hypot(dy);
        let away = if far > 2.0 { [dx / far * 8.0, dy / far * 8.0] } else { [7.0, -7.0] };
        let _ = write!(out, r#"<circle cx="{}" cy="{}" r="1.7"/>"#, rounded(p[0], 2), rounded(p[1], 2));
        let _ = write!(out, r#"<text x="{}" y="{}">{said}</text>"#, rounded(p[0] + away[0], 2), rounded(p[1] + away[1] + 3.0, 2));
    }
    let spread = places.iter().map(|p| (p[0] - middle[0]).hypot(p[1] - middle[1])).fold(0.0, f64::max);
    let beside = if spread < 14.0 { [-9.0, 10.0] } else { [0.0, 0.0] };
    let _ =
        write!(out, r#"<text class="letter" x="{}" y="{}">{letter}</text></g>"#, rounded(middle[0] + beside[0], 2), rounded(middle[1] + beside[1] + 4.0, 2));
}

fn contact(verdict: &Verdict, paper: &Paper, out: &mut String) {
    let [_, x, y, nx, ny] = verdict.floats.map(f64::from);
    let p = paper.at([x, y]);
    let end = [p[0] + 26.0 * nx, p[1] - 26.0 * ny];
    let cross = |d: f64| format!("M{}L{}", xy([p[0] - 5.0, p[1] - d]), xy([p[0] + 5.0, p[1] + d]));
    let _ = write!(out, r#"<path class="normal" d="M{}L{}"/>"#, xy(p), xy(end));
    arrow_head("normalhead", p, end, out);
    let _ = write!(out, r#"<path class="point" d="{}{}"/>"#, cross(5.0), cross(-5.0));
}

/// The parts of a move that are proved clear, in contact or not settled, as a band of that place and size: each run of one kind by its fill and, where there is
/// room, its letter.
fn band(cells: &[Cell], [left, top]: Place, [wide, high]: Place, out: &mut String) {
    let x_of = |k: usize| left + wide * k as f64 / cells.len() as f64;
    let bottom = rounded(top + high, 2);
    let mut from = 0;
    while from < cells.len() {
        let to = (from..cells.len()).find(|&k| cells[k] != cells[from]).unwrap_or(cells.len());
        let (class, letter) = match cells[from] {
            Cell::Clear => ("clear", "C"),
            Cell::Touch => ("touch", "T"),
            Cell::Open => ("open", "O"),
        };
        let _ = write!(out, r#"<path class="band {class}" d="M{0} {top}H{1}V{bottom}H{0}Z"/>"#, rounded(x_of(from), 2), rounded(x_of(to), 2));
        if x_of(to) - x_of(from) > 12.0 {
            let (x, y) = (rounded((x_of(from) + x_of(to)) / 2.0, 2), rounded(top + high - 2.5, 2));
            let _ = write!(out, r#"<text class="in {class}" x="{x}" y="{y}">{letter}</text>"#);
        }
        from = to;
    }
}

/// The gap over the move as a curve, with lines at the target and at the sum of the radii, and what is proved as a band under it.
pub fn curve(job: &Job, samples: &[f32], cells: &[Cell], sampled: &Sampled, moments: &Moments, name: &str) -> String {
    let (left, top, wide, high) = (44.0, 12.0, 346.0, 112.0);
    let radii = f64::from(job.radius[0]) + f64::from(job.radius[1]);
    let target = f64::from(job.target());
    let largest = samples.iter().filter(|x| x.is_finite()).fold(0f32, |m, &x| m.max(x));
    let most = (f64::from(largest)).max(1.25 * target).max(1.25 * radii);
    let ten = 10f64.powf(most.log10().floor());
    let step = [0.2, 0.5, 1.0, 2.0, 5.0].iter().map(|m| m * ten).find(|s| most / s <= 5.0).unwrap_or(ten);
    let peak = (most / step).ceil() * step;
    let x_of = |k: f64| left + wide * k / PIECES as f64;
    let y_of = |gap: f64| top + high * (1.0 - gap / peak);
    let mut out = opened("curve", "400", "168", name);
    let mut rules = String::new();
    for i in 0..=((peak / step).round() as usize) {
        let gap = i as f64 * step;
        let _ = write!(rules, "M{left} {y}H{}", left + wide, y = rounded(y_of(gap), 2));
        let _ = write!(out, r#"<text class="tick left" x="{}" y="{}">{}</text>"#, left - 4.0, rounded(y_of(gap) + 3.0, 2), label(gap, step));
    }
    for quarter in 0..=4 {
        let x = x_of(PIECES as f64 * quarter as f64 / 4.0);
        let _ = write!(rules, "M{0} {top}V{1}", rounded(x, 2), top + high);
        let said = rounded(f64::from(job.max_fraction) * quarter as f64 / 4.0, 4);
        let said = if said.contains('.') { said.trim_end_matches('0').trim_end_matches('.') } else { &said };
        let _ = write!(out, r#"<text class="tick" x="{}" y="{}">{said}</text>"#, rounded(x, 2), top + high + 28.0);
    }
    let _ = write!(out, r#"<path class="g1" d="{rules}"/><text class="tick" x="{}" y="{}">fraction of the move</text>"#, left + wide / 2.0, top + high + 41.0);
    band(cells, [left, top + high + 4.0], [wide, 12.0], &mut out);
    let mut level = |class: &str, gap: f64, anchor: &str, x: f64, said: String| {
        let y = y_of(gap);
        let _ = write!(
            out,
            r#"<path class="{class}" d="M{left} {0}H{1}"/><text class="level {anchor}" x="{x}" y="{2}">{said}</text>"#,
            rounded(y, 2),
            left + wide,
            rounded(y - 3.0, 2)
        );
    };
    level("target", target, "left", left + wide - 3.0, format!("target {}", length(target, 4)));
    if radii > 0.0 {
        level("radii", radii, "right", left + 3.0, format!("radii together {}", length(radii, 4)));
    }
    if job.max_fraction > 0.0 {
        let x = rounded(x_of(PIECES as f64 * f64::from(moments.told) / f64::from(job.max_fraction)), 2);
        let _ = write!(out, r#"<path class="toldline" d="M{x} {top}V{}"/>"#, top + high);
    }
    let mut path = String::new();
    let mut pen = 'M';
    for (k, gap) in samples.iter().enumerate() {
        if gap.is_finite() {
            let _ = write!(path, "{pen}{} {}", rounded(x_of(k as f64), 1), rounded(y_of(f64::from(*gap)), 1));
            pen = 'L';
        } else {
            pen = 'M';
        }
    }
    if !path.is_empty() {
        let _ = write!(out, r#"<path class="gap" d="{path}"/>"#);
    }
    let mut zeros = String::new();
    let mut k = 0;
    while k < samples.len() {
        let from = k;
        while k < samples.len() && samples[k] == 0.0 {
            k += 1;
        }
        if k > from {
            let _ = write!(zeros, "M{} {y}H{}", rounded(x_of(from as f64 - 0.4), 2), rounded(x_of(k as f64 - 0.6), 2), y = top + high);
        }
        k += 1;
    }
    if !zeros.is_empty() {
        let _ = write!(out, r#"<path class="zero" d="{zeros}"/>"#);
    }
    if sampled.gap > 0.0 {
        let (x, y) = (x_of(sampled.least as f64), y_of(f64::from(sampled.gap)));
        let _ = write!(out, r#"<circle class="least" cx="{}" cy="{}" r="2.6"/>"#, rounded(x, 2), rounded(y, 2));
    }
    out.push_str("</svg>");
    out
}

/// The fraction told, as far as the library takes one: a hit can lie one step above 1.
pub fn moments(job: &Job, verdict: &Verdict, missed: Option<f32>) -> Moments {
    let told = verdict.floats[0];
    Moments { end: job.max_fraction, told: if told >= 0.0 { told.min(1.0) } else { 0.0 }, missed }
}

#[cfg(test)]
mod tests {
    use super::*;

    #[test]
    fn the_hull_is_drawn_and_not_the_list() {
        // a plate's corners in the library's order would draw a bow-tie
        let plate = [[6.0, 4.0], [-6.0, 4.0], [6.0, -4.0], [-6.0, -4.0]];
        assert_eq!(hull(&plate), [[-6.0, -4.0], [6.0, -4.0], [6.0, 4.0], [-6.0, 4.0]]);
        // on a side, inside, twice
        let more = [[0.0, 0.0], [2.0, 0.0], [1.0, 0.0], [1.0, 0.5], [2.0, 2.0], [0.0, 2.0], [0.0, 2.0], [-0.0, 0.0]];
        assert_eq!(hull(&more), [[0.0, 0.0], [2.0, 0.0], [2.0, 2.0], [0.0, 2.0]]);
        assert_eq!(hull(&[[1.0, 1.0], [1.0, 1.0]]), [[1.0, 1.0]]);
        assert_eq!(hull(&[[3.0, 1.0], [1.0, 1.0], [2.0, 1.0]]), [[1.0, 1.0], [3.0, 1.0]]);
    }

    #[test]
    fn squares_are_round_numbers() {
        for (low, high, unit) in [([0.0, 0.0], [36.0, 3.0], 1.0), ([0.0, 0.0], [37.0, 3.0], 2.0), ([-0.01, 0.0], [0.01, 0.0], 0.001)] {
            let paper = Paper::around(low, high);
            assert!((paper.unit / unit - 1.0).abs() < 1e-9, "{}", paper.unit);
            let [x, y] = paper.at(high);
            assert!(x <= WIDE && y >= 0.0);
        }
        // one place, and places far out
        assert_eq!(Paper::around([0.0; 2], [0.0; 2]).unit, 0.05);
        let far = Paper::around([1e6, 1e6], [1e6, 1e6]);
        assert!(far.unit > 0.1 && far.squares[0] < 40, "{} {}", far.unit, far.squares[0]);
    }

    #[test]
    fn a_bar_with_a_radius_has_two_half_circles() {
        let paper = Paper { unit: 1.0, first: [-10, -10], squares: [20, 20], scale: 20.0 };
        let path = round(&[[0.0, 0.0], [4.0, 0.0]], 1.0, &paper);
        assert_eq!(path, "M200.00 220.00L280.00 220.00A20.00 20.00 0 0 0 280.00 180.00L200.00 180.00A20.00 20.00 0 0 0 200.00 220.00Z");
    }
}
