//! What glpsol writes of a program that it has solved (its option --write).

/// How it ended, with the values of the first columns.
#[derive(Debug, PartialEq)]
pub enum Solution {
    Best(Vec<f64>),
    /// Nothing keeps all conditions.
    None,
    /// There is always something smaller.
    Endless,
}

/// The solution that a file has, of so many columns; nothing where the file is no such one.
pub fn solution(text: &str, columns: usize) -> Option<Solution> {
    let mut values = vec![None; columns];
    let mut states = None;
    for line in text.lines() {
        let words: Vec<&str> = line.split_whitespace().collect();
        match words[..] {
            ["s", "bas", _, _, primal, dual, _] => states = Some((primal, dual)),
            ["j", column, _, value, _] => {
                let column: usize = column.parse().ok()?;
                let value: f64 = value.parse().ok().filter(|value: &f64| value.is_finite())?;
                if let Some(place) = column.checked_sub(1).and_then(|place| values.get_mut(place)) {
                    *place = Some(value);
                }
            }
            _ => {}
        }
    }
    match states? {
        ("f", "f") => values.into_iter().collect::<Option<_>>().map(Solution::Best),
        ("n", _) => Some(Solution::None),
        ("f", "n") => Some(Solution::Endless),
        _ => None,
    }
}
