//! The outlines that nodes of a picture have, each told from the others without its colour.

use crate::spline::Point;

#[derive(Clone, Copy, Debug, PartialEq, Eq)]
pub enum Outline {
    /// With sharp corners.
    Sharp,
    /// With corners rounded a little.
    Rounded,
    /// With half circles at its sides.
    Pill,
    /// With its corners cut off.
    Octagon,
    /// With a point at either side.
    Hexagon,
}

/// How an outline departs from a box at each corner.
enum Corner {
    Round(f64),
    /// By so much of its width, and of its height.
    Cut([f64; 2]),
}

#[derive(Clone, Copy, Debug, PartialEq)]
pub struct Size {
    pub width: f64,
    pub height: f64,
}

impl Outline {
    fn corner(self, size: Size) -> Corner {
        let half = size.height / 2.0;
        match self {
            Outline::Sharp => Corner::Round(0.0),
            Outline::Rounded => Corner::Round(8.0),
            Outline::Pill => Corner::Round(half),
            Outline::Octagon => Corner::Cut([half.min(22.0) / 2.0; 2]),
            Outline::Hexagon => Corner::Cut([15.0, half]),
        }
    }

    /// The room between the words and either side.
    pub fn margin(self) -> f64 {
        match self {
            Outline::Sharp | Outline::Rounded | Outline::Octagon => 13.0,
            Outline::Pill => 17.0,
            Outline::Hexagon => 19.0,
        }
    }

    /// Whether a point is within, as seen from the middle.
    pub fn holds(self, size: Size, [x, y]: Point) -> bool {
        let (x, y) = (x.abs() - size.width / 2.0, y.abs() - size.height / 2.0);
        let within = x <= 0.0 && y <= 0.0;
        within
            && match self.corner(size) {
                Corner::Round(radius) => {
                    let (x, y) = (x + radius, y + radius);
                    x <= 0.0 || y <= 0.0 || x.hypot(y) <= radius
                }
                Corner::Cut([wide, high]) => {
                    let (x, y) = (x + wide, y + high);
                    x <= 0.0 || y <= 0.0 || x / wide + y / high <= 1.0
                }
            }
    }

    /// The element of SVG around a point, with these attributes.
    pub fn svg(self, [x, y]: Point, size: Size, attributes: &str) -> String {
        let (left, top) = (x - size.width / 2.0, y - size.height / 2.0);
        let (right, bottom) = (left + size.width, top + size.height);
        match self.corner(size) {
            Corner::Round(radius) => format!(
                r#"<rect x="{left:.1}" y="{top:.1}" width="{:.1}" height="{:.1}" rx="{radius:.1}" {attributes}/>"#,
                size.width, size.height
            ),
            Corner::Cut([wide, high]) => {
                let corners = [
                    [left + wide, top],
                    [right - wide, top],
                    [right, top + high],
                    [right, bottom - high],
                    [right - wide, bottom],
                    [left + wide, bottom],
                    [left, bottom - high],
                    [left, top + high],
                ];
                let points: Vec<String> = corners.iter().map(|[x, y]| format!("{x:.1},{y:.1}")).collect();
                format!(r#"<polygon points="{}" {attributes}/>"#, points.join(" "))
            }
        }
    }

    /// What Graphviz calls it.
    pub fn dot(self) -> &'static str {
        match self {
            Outline::Sharp | Outline::Rounded => "box",
            Outline::Pill => "ellipse",
            Outline::Octagon => "octagon",
            Outline::Hexagon => "hexagon",
        }
    }
}
