//! Where arrows meet nodes: each begins and ends on an outline.

use crate::drawn::found;
use crate::trying::known;
use desk::dot::{plain, DOT, PATIENCE};
use desk::dot_source::bare;
use desk::laid::laid;
use desk::outline::{Outline, Size};
use desk::plan::Plan;
use desk::spline::{between, svg, Point};
use reports::program::file;
use std::ffi::OsStr;
use std::fs;

const SIZE: Size = Size {
    width: 100.0,
    height: 40.0,
};

#[test]
fn an_outline_holds_what_is_within_it() {
    let corner = [49.0, 19.0];
    let held = |outline: Outline| outline.holds(SIZE, corner);
    assert!(held(Outline::Sharp));
    for outline in [Outline::Rounded, Outline::Pill, Outline::Octagon, Outline::Hexagon] {
        assert!(!held(outline), "{outline:?} has no sharp corner");
        for inside in [[0.0, 0.0], [49.0, 0.0], [0.0, -19.0], [-30.0, 19.0]] {
            assert!(outline.holds(SIZE, inside), "{outline:?} {inside:?}");
        }
        for outside in [[51.0, 0.0], [0.0, 21.0], [-51.0, -21.0]] {
            assert!(!outline.holds(SIZE, outside), "{outline:?} {outside:?}");
        }
    }
    // halfway up its side a hexagon is cut by half as much as at its corner
    assert!(Outline::Hexagon.holds(SIZE, [42.0, 10.0]) && !Outline::Hexagon.holds(SIZE, [43.0, 10.0]));
    assert!(Outline::Octagon.holds(SIZE, [44.0, 15.0]) && !Outline::Octagon.holds(SIZE, [46.0, 15.5]));
}

#[test]
fn a_line_is_cut_at_both_outlines() {
    let straight: Vec<Point> = [0.0, 30.0, 60.0, 90.0, 120.0, 150.0, 180.0].map(|y| [5.0, y]).into();
    let within = |middle: f64| move |[_, y]: Point| (y - middle).abs() <= 20.0;
    let cut = between(&straight, within(0.0), within(180.0));
    assert_eq!(
        svg(&cut),
        "M5.0 20.0 C5.0 43.3 5.0 66.7 5.0 90.0 5.0 113.3 5.0 136.7 5.0 160.0"
    );
    assert_eq!(
        between(&straight, |_| true, |_| true),
        straight,
        "what never leaves stays whole"
    );
}

#[test]
fn each_arrow_begins_and_ends_on_an_outline() {
    let mut arrows = 0;
    for name in [
        "winch-as-built",
        "winch-swapped",
        "nested",
        "branch",
        "class-unsure",
        "loop",
        "entry-in-a-ring",
    ] {
        let known = known(&fs::read(file("charts").join(format!("{name}.txt"))).expect("the text can be read"));
        let plan = Plan::of(&found(&known));
        let text = plain(OsStr::new(DOT), bare(&plan), PATIENCE).expect("Graphviz is there");
        let laid = laid(&text, &plan).expect("it is whole");
        for (arrow, spline) in plan.arrows.iter().zip(&laid.arrows) {
            let holds = |item: usize, more: f64| {
                let (item, middle) = (&plan.items[item], laid.items[item]);
                let size = Size {
                    width: item.size.width + more,
                    height: item.size.height + more,
                };
                move |[x, y]: Point| item.outline.holds(size, [x - middle[0], y - middle[1]])
            };
            let cut = between(spline, holds(arrow.from, 0.0), holds(arrow.to, 0.0));
            for (point, item) in [(cut[0], arrow.from), (cut[cut.len() - 1], arrow.to)] {
                assert!(
                    holds(item, 0.2)(point) && !holds(item, -0.2)(point),
                    "{name}: {point:?}"
                );
                arrows += 1;
            }
        }
    }
    assert!(arrows >= 80, "only {arrows} ends of arrows");
}
