//! So that a run is no idle one: what the calls of veilbuzz_deadline among the gate's shortest file have among them.

mod met;

use calls::{Case, Function, SEED};
use met::each;
use second::cache::Costs;
use second::lent::Lent;
use second::totals::{totals, Bounds, Totals};
use std::num::FpCategory::{Infinite, Nan, Normal, Subnormal, Zero};
use std::sync::OnceLock;

const IMPOSSIBLE: u64 = 18;

/// The times that a call can be given.
const NAMES: [&str; 5] = ["period", "overhead", "earliest", "latest of a window", "latest"];

/// A call of veilbuzz_deadline by what counts below. The totals are of one that these are given for.
struct Asked {
    returned: u64,
    totals: Option<Totals>,
    period: u64,
    overhead: u64,
    kind: u64,
    earliest: u64,
    latest: u64,
    /// Low and high, and whether it is met, where the call has room to tell them.
    figures: [u64; 2],
    met: u64,
}

fn asked(case: &Case) -> Asked {
    let [_, _, period, overhead, kind, earliest, latest] = case.numbers[..] else {
        panic!("the deadline takes seven numbers");
    };
    let room = case.returned != 11;
    let told = |buffer: usize, place: usize| {
        if room {
            case.buffers[buffer].elements::<u64>()[place]
        } else {
            0
        }
    };
    Asked {
        returned: case.returned,
        totals: room.then(|| totals_of(case)).flatten(),
        period,
        overhead,
        kind,
        earliest,
        latest,
        figures: [told(6, 0), told(6, 1)],
        met: told(7, 2),
    }
}

fn totals_of(case: &Case) -> Option<Totals> {
    let [must, may, marks] = [1, 2, 3].map(|place: usize| case.buffers[place].elements::<u8>());
    let [floors, ceilings] = [4, 5].map(|place: usize| case.buffers[place].elements::<u16>());
    let [hit, miss] = [0, 1].map(|place: usize| case.numbers[place] as u16);
    let lent = Lent {
        must: &must,
        may: &may,
        marks: &marks,
    };
    let bounds = Bounds {
        floors: &floors,
        ceilings: &ceilings,
    };
    totals(&case.buffers[0].elements::<u8>(), lent, Costs { hit, miss }, bounds).ok()
}

/// All calls, made once for all tests.
fn all_asked() -> impl Iterator<Item = &'static Asked> {
    static ALL: OnceLock<Vec<Asked>> = OnceLock::new();
    let all = || (0..60_000).map(|number| calls::case(SEED, number));
    let deadlines = || all().filter(|case| case.function == Function::Deadline);
    ALL.get_or_init(|| deadlines().map(|case| asked(&case)).collect())
        .iter()
}

fn judged() -> impl Iterator<Item = &'static Asked> {
    all_asked().filter(|asked| asked.returned == 0)
}

/// What a number of a call is, read as a float.
fn sort_of(bits: u64) -> &'static str {
    let float = f64::from_bits(bits);
    let (below, quiet) = (float.is_sign_negative(), bits & 1 << 51 != 0);
    match (below, float.classify()) {
        (false, Nan) if quiet => "a quiet NaN",
        (true, Nan) if quiet => "a quiet NaN with a sign",
        (false, Nan) => "a signalling NaN",
        (true, Nan) => "a signalling NaN with a sign",
        (false, Infinite) => "infinity",
        (true, Infinite) => "infinity below",
        (false, Zero) => "0",
        (true, Zero) => "-0",
        (false, Subnormal) => "subnormal",
        (true, Subnormal) => "subnormal and below 0",
        (false, Normal) if float == f64::MAX => "the largest",
        (false, Normal) => "normal",
        (true, Normal) => "below 0",
    }
}

const NO_TIMES: [&str; 8] = [
    "a quiet NaN",
    "a quiet NaN with a sign",
    "a signalling NaN",
    "a signalling NaN with a sign",
    "infinity",
    "infinity below",
    "subnormal and below 0",
    "below 0",
];
const TIMES: [&str; 5] = ["0", "-0", "subnormal", "the largest", "normal"];

impl Asked {
    /// The times that are looked at, each by its name and what it is.
    fn looked_at(&self) -> Vec<(&'static str, &'static str)> {
        let mut times = vec![("period", sort_of(self.period)), ("overhead", sort_of(self.overhead))];
        if self.kind == 2 {
            times.push(("earliest", sort_of(self.earliest)));
            times.push(("latest of a window", sort_of(self.latest)));
        }
        if self.kind == 1 {
            times.push(("latest", sort_of(self.latest)));
        }
        times
    }

    /// The times that are no times, or a period of 0.
    fn faults(&self) -> Vec<(&'static str, &'static str)> {
        let fault = |&(name, sort): &(&str, &str)| {
            NO_TIMES.contains(&sort) || (name == "period" && ["0", "-0"].contains(&sort))
        };
        self.looked_at().into_iter().filter(fault).collect()
    }

    fn is_wrong_way_round(&self) -> bool {
        self.kind == 2 && f64::from_bits(self.latest) < f64::from_bits(self.earliest)
    }
}

#[test]
fn each_time_alone_is_at_fault_in_each_way() {
    let mut expected: Vec<_> = NAMES
        .iter()
        .flat_map(|&name| NO_TIMES.map(|sort| (name, sort)))
        .collect();
    expected.extend([("period", "0"), ("period", "-0")]);
    let alone = all_asked().filter(|asked| asked.returned == IMPOSSIBLE && asked.kind < 3);
    each(
        3,
        expected,
        alone.filter_map(|asked| match asked.faults()[..] {
            [fault] => Some(fault),
            _ => None,
        }),
    );
}

#[test]
fn windows_are_the_wrong_way_round_and_kinds_are_not_there() {
    let alone = all_asked().filter(|asked| asked.returned == IMPOSSIBLE && asked.faults().is_empty());
    each(
        20,
        [(true, true), (false, false)],
        alone.map(|asked| (asked.kind < 3, asked.is_wrong_way_round())),
    );
}

#[test]
fn each_time_that_passes_is_of_each_sort() {
    let expected = NAMES.iter().flat_map(|&name| TIMES.map(|sort| (name, sort)));
    // a period is not 0
    let expected = expected.filter(|&(name, sort)| name != "period" || !["0", "-0"].contains(&sort));
    each(20, expected, judged().flat_map(|asked| asked.looked_at()));
}

#[test]
fn a_limit_that_is_not_looked_at_is_of_each_sort() {
    let expected = ["earliest", "latest"].into_iter().flat_map(|name| {
        let kinds = if name == "earliest" { vec![0, 1] } else { vec![0] };
        let each = move |kind| NO_TIMES.map(|sort| (kind, name, sort));
        kinds.into_iter().flat_map(each)
    });
    let limits = judged().flat_map(|asked| {
        let of = |name, bits| (asked.kind, name, sort_of(bits));
        [of("earliest", asked.earliest), of("latest", asked.latest)]
    });
    each(10, expected, limits);
}

#[test]
fn each_refusal_comes_before_impossible_times() {
    let before = all_asked().filter(|asked| !asked.faults().is_empty() || asked.is_wrong_way_round() || asked.kind > 2);
    let numbers = (1..=17).filter(|&number| number != 12);
    each(3, numbers, before.map(|asked| asked.returned));
}

#[test]
fn each_kind_is_met_and_only_none_is_always() {
    let met = judged().map(|asked| (asked.kind, asked.met));
    each(200, [(0, 1), (1, 0), (1, 1), (2, 0), (2, 1)], met);
    assert!(judged().all(|asked| asked.kind > 0 || asked.met == 1));
}

#[test]
fn limits_stand_at_the_figures_and_beside_them() {
    let sides = |limit: u64, figure: u64| ["below", "at", "above"][(limit.cmp(&figure) as i8 + 1) as usize];
    let beside = |limit: u64, figure: u64| limit.abs_diff(figure) <= 1;
    let earliest = judged().filter(|asked| asked.kind == 2 && beside(asked.earliest, asked.figures[0]));
    each(
        100,
        [("below", true), ("at", true), ("above", false)],
        earliest
            .filter(|asked| asked.figures[1] <= asked.latest)
            .map(|asked| (sides(asked.earliest, asked.figures[0]), asked.met == 1)),
    );
    let latest = judged().filter(|asked| asked.kind > 0 && beside(asked.latest, asked.figures[1]));
    each(
        100,
        [("below", false), ("at", true), ("above", true)],
        latest
            .filter(|asked| asked.kind == 1 || asked.earliest <= asked.figures[0])
            .map(|asked| (sides(asked.latest, asked.figures[1]), asked.met == 1)),
    );
}

/// The totals of a call that is judged, each with its figure as told.
fn told(asked: &Asked) -> [(f64, u64); 2] {
    let Totals { low, high } = asked.totals.expect("what is judged has totals");
    [(low as f64, asked.figures[0]), (high as f64, asked.figures[1])]
}

/// Makes a figure from a total, the period and the overhead.
type Way = fn(f64, f64, f64) -> f64;

/// How many figures would be others if they were made so.
fn others(figure: Way) -> usize {
    let differ = |asked: &Asked| {
        let (period, overhead) = (f64::from_bits(asked.period), f64::from_bits(asked.overhead));
        let differs = |(total, told): (f64, u64)| figure(total, period, overhead).to_bits() != told;
        told(asked).into_iter().filter(|&one| differs(one)).count()
    };
    judged().map(differ).sum()
}

/// What a unit makes of a number that takes what is subnormal for 0.
fn flushed(number: f64) -> f64 {
    if number.is_subnormal() {
        0.0
    } else {
        number
    }
}

/// Ways that are wrong, with how many figures would be others at least.
const WRONG: [(&str, usize, Way); 8] = [
    ("one rounding", 300, |total, period, overhead| {
        total.mul_add(period, overhead)
    }),
    ("the overhead first", 1000, |total, period, overhead| {
        (total + overhead) * period
    }),
    ("the frequency", 500, |total, period, overhead| {
        total / (1.0 / period) + overhead
    }),
    ("32 bits", 1000, |total, period, overhead| {
        (total * period + overhead) as f32 as f64
    }),
    ("no overhead", 1000, |total, period, _| total * period),
    ("an overhead for each cycle", 1000, |total, period, overhead| {
        total * (period + overhead)
    }),
    ("what is given is flushed", 200, |total, period, overhead| {
        total * flushed(period) + flushed(overhead)
    }),
    ("what comes out is flushed", 200, |total, period, overhead| {
        flushed(flushed(total * period) + overhead)
    }),
];

#[test]
fn figures_would_be_others_if_they_were_made_in_another_way() {
    assert_eq!(others(|total, period, overhead| total * period + overhead), 0);
    for (name, least, way) in WRONG {
        let others = others(way);
        assert!(others >= least, "{name}: {others} figures differ");
    }
}

#[test]
fn verdicts_would_be_others_if_limits_were_flushed() {
    let would = |asked: &Asked| {
        let [low, high] = asked.figures.map(f64::from_bits);
        let (earliest, latest) = (f64::from_bits(asked.earliest), f64::from_bits(asked.latest));
        let late = flushed(high) <= flushed(latest);
        match asked.kind {
            0 => true,
            1 => late,
            _ => flushed(earliest) <= flushed(low) && late,
        }
    };
    let others = judged().filter(|asked| would(asked) != (asked.met == 1)).count();
    assert!(others >= 50, "{others} verdicts differ");
}

#[test]
fn sums_lie_in_the_middle_between_two_floats_and_go_to_the_even_one() {
    let ways = judged().flat_map(|asked| {
        let (period, overhead) = (f64::from_bits(asked.period), f64::from_bits(asked.overhead));
        told(asked).into_iter().filter_map(move |(total, told)| {
            let product = total * period;
            let half = (product.next_up() - product) / 2.0;
            (product.is_normal() && half == overhead && half > 0.0).then(|| told == product.to_bits())
        })
    });
    each(50, [false, true], ways);
}

#[test]
fn figures_are_infinite_by_the_product_and_by_the_sum() {
    let infinite = judged().flat_map(|asked| {
        let period = f64::from_bits(asked.period);
        let [low, high] = told(asked).map(|(total, told)| match told == f64::INFINITY.to_bits() {
            false => "finite",
            true if total * period == f64::INFINITY => "by the product",
            true => "by the sum",
        });
        [("low", low), ("high", high)]
    });
    let ways = ["by the product", "by the sum", "finite"];
    let expected = ["low", "high"]
        .into_iter()
        .flat_map(|which| ways.map(|way| (which, way)));
    each(10, expected, infinite);
}

#[test]
fn an_infinite_figure_meets_no_latest_time() {
    let infinite = |bits: u64| bits == f64::INFINITY.to_bits();
    let late = || judged().filter(|asked| infinite(asked.figures[1]));
    each(
        20,
        [(0, 1), (1, 0), (2, 0)],
        late().map(|asked| (asked.kind, asked.met)),
    );
    assert!(late().all(|asked| asked.met == u64::from(asked.kind == 0)));
}

#[test]
fn figures_are_exact_where_the_period_is_a_power_of_two() {
    let exact = |asked: &&Asked| {
        let period = f64::from_bits(asked.period);
        asked.overhead << 1 == 0 && (0..=30).any(|power| period == 0.5f64.powi(power))
    };
    let divided = judged().filter(exact).inspect(|asked| {
        for (total, told) in told(asked) {
            assert_eq!(f64::from_bits(told) / f64::from_bits(asked.period), total);
        }
    });
    let times = divided.count();
    assert!(times >= 20, "only {times} times");
}
