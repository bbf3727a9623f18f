//! The lines of arrows: cubic curves, one behind the other.

/// To the right and down, in pixels.
pub type Point = [f64; 2];

/// A start, and three more points for each curve.
pub type Spline = Vec<Point>;

/// So often the place where a curve leaves an outline is halved in on.
const HALVINGS: usize = 24;

/// The part of a spline from where it leaves the one outline to where it comes to the other.
pub fn between(spline: &[Point], from: impl Fn(Point) -> bool, to: impl Fn(Point) -> bool) -> Spline {
    let mut back = left(spline, from);
    back.reverse();
    let mut there = left(&back, to);
    there.reverse();
    there
}

/// The rest of a spline from where it leaves an outline that it begins in; all of it, if it does not leave it.
fn left(spline: &[Point], holds: impl Fn(Point) -> bool) -> Spline {
    let leaves = (0..spline.len() / 3).find(|curve| !holds(spline[3 * curve + 3]));
    let Some(curve) = leaves else {
        return spline.to_vec();
    };
    let (ends, rest) = spline[3 * curve..].split_at(4);
    let ends = [ends[0], ends[1], ends[2], ends[3]];
    let [mut inside, mut outside] = [0.0, 1.0];
    for _ in 0..HALVINGS {
        let middle = (inside + outside) / 2.0;
        match holds(after(ends, middle)[0]) {
            true => inside = middle,
            false => outside = middle,
        }
    }
    after(ends, outside).into_iter().chain(rest.iter().copied()).collect()
}

/// What is left of a curve after a part of it (de Casteljau).
fn after([a, b, c, d]: [Point; 4], part: f64) -> [Point; 4] {
    let mid = |one: Point, other: Point| [0, 1].map(|axis| one[axis] + (other[axis] - one[axis]) * part);
    let (ab, bc, cd) = (mid(a, b), mid(b, c), mid(c, d));
    let (abc, bcd) = (mid(ab, bc), mid(bc, cd));
    [mid(abc, bcd), bcd, cd, d]
}

/// As SVG writes it.
pub fn svg(spline: &[Point]) -> String {
    let point = |[x, y]: &Point| format!("{x:.1} {y:.1}");
    let mut points = spline.iter().map(point);
    let start = points.next().unwrap_or_default();
    format!("M{start} C{}", points.collect::<Vec<String>>().join(" "))
}
