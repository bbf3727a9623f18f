//! Times of a text are kept as they are said, and figures are exact.

use charts::random::Random;
use desk::lexer::Line;
use desk::parse_time::a_time;
use desk::time::{column, figure, microseconds, Time};

/// The time that these words are.
pub fn time(words: &str) -> Time {
    match a_time(&mut Line::new(words, 0), "a time") {
        Ok(time) => time.value,
        Err(problem) => panic!("{words}: {}", problem.found),
    }
}

fn told(words: &str) -> String {
    microseconds(time(words).femtoseconds())
}

#[test]
fn a_time_is_kept_as_it_is_said() {
    let said = [
        ("0 us", "0"),
        ("0.125 us", "0.125"),
        ("0.125us", "0.125"),
        ("120 us", "120"),
        ("1_000 us", "1000"),
        ("3.5\u{B5}s", "3.5"),
        ("3.5 \u{3BC}s", "3.5"),
        ("1 ns", "0.001"),
        ("0.000001 ns", "0.000000001"),
        ("0.000000001 us", "0.000000001"),
        ("2 ms", "2000"),
        ("0.000000000000001 s", "0.000000001"),
        ("1000 s", "1000000000"),
        ("0.1000 us", "0.1"),
    ];
    for (words, us) in said {
        assert_eq!(told(words), us, "{words}");
    }
}

#[test]
fn what_is_handed_to_the_proved_function_is_the_nearest_number() {
    for (words, number) in [
        ("0.125 us", 0.125),
        ("0.1 us", 0.1),
        ("120 us", 120.0),
        ("1 ns", 0.001),
        ("1000 s", 1e9),
    ] {
        assert_eq!(time(words).binary64().to_bits(), f64::to_bits(number), "{words}");
    }
}

#[test]
fn a_column_has_its_points_in_line() {
    assert_eq!(
        column(&[1_000_000_000, 138_625_000_000, 27_000_000_000]),
        ["1.000", "138.625", "27.000"]
    );
    assert_eq!(column(&[1_000_000_000, 2_000_000_000]), ["1", "2"]);
    assert!(column(&[]).is_empty());
}

/// Cycles times period and overhead, digit by digit as by hand, on texts.
fn by_hand(cycles: u64, period: u64, overhead: u64) -> String {
    let digits = |number: u64| -> Vec<u32> {
        number
            .to_string()
            .bytes()
            .rev()
            .map(|digit| u32::from(digit - b'0'))
            .collect()
    };
    let mut sum = vec![0_u32; 48];
    for (one, left) in digits(cycles).into_iter().enumerate() {
        for (other, right) in digits(period).into_iter().enumerate() {
            sum[one + other] += left * right;
        }
    }
    for (place, digit) in digits(overhead).into_iter().enumerate() {
        sum[place] += digit;
    }
    for place in 0..sum.len() - 1 {
        sum[place + 1] += sum[place] / 10;
        sum[place] %= 10;
    }
    let text: String = sum.iter().rev().map(|digit| digit.to_string()).collect();
    let (whole, behind) = text.split_at(text.len() - 9);
    let whole = whole.trim_start_matches('0');
    let whole = if whole.is_empty() { "0" } else { whole };
    match behind.trim_end_matches('0') {
        "" => whole.to_string(),
        behind => format!("{whole}.{behind}"),
    }
}

#[test]
fn a_figure_is_what_it_is_by_hand() {
    let mut random = Random::new(17);
    for _ in 0..20_000 {
        let mut number = |most: u64| random.below(most) >> random.below(60);
        let (cycles, period, overhead) = (
            number(u64::MAX),
            number(1_000_000_000_000_000_001),
            number(1_000_000_000_000_000_001),
        );
        let of = |femtoseconds: u64| {
            time(&format!(
                "{}.{:09} us",
                femtoseconds / 1_000_000_000,
                femtoseconds % 1_000_000_000
            ))
        };
        let figure = microseconds(figure(cycles, of(period), of(overhead)));
        assert_eq!(
            figure,
            by_hand(cycles, period, overhead),
            "{cycles} {period} {overhead}"
        );
    }
}
