//! Names that are meant: what is a letter or two away from what was written.

/// So many letters may differ, and of longer names none is looked for.
const APART: usize = 2;
const LONGEST: usize = 64;

/// How many letters have to be put in, left out or changed, or two neighbours swapped, to make one word of the other, if no more than so
/// many. Places that are further apart than that are not looked at: a text may have very many names.
fn distance(one: &[char], other: &[char], most: usize) -> Option<usize> {
    let far = most + 1;
    let mut before = [far; LONGEST + 1];
    let mut last = [far; LONGEST + 1];
    for (column, cell) in last.iter_mut().enumerate().take(far) {
        *cell = column;
    }
    for (row, letter) in one.iter().enumerate() {
        let mut next = [far; LONGEST + 1];
        if row < most {
            next[0] = row + 1;
        }
        for column in row.saturating_sub(most)..other.len().min(row + far) {
            let changed = last[column] + usize::from(*letter != other[column]);
            let is_swapped = row > 0 && column > 0 && one[row - 1] == other[column] && other[column - 1] == *letter;
            let swapped = if is_swapped { before[column - 1] + 1 } else { far };
            let shifted = last[column + 1].min(next[column]) + 1;
            next[column + 1] = changed.min(swapped).min(shifted).min(far);
        }
        if last.iter().chain(&next).all(|cell| *cell == far) {
            return None;
        }
        (before, last) = (last, next);
    }
    Some(last[other.len()]).filter(|found| *found <= most)
}

/// A name in small letters, if it is not too long.
fn letters(name: &str) -> Option<Vec<char>> {
    let letters = || name.chars().flat_map(char::to_lowercase);
    (name.len() <= LONGEST && letters().count() <= LONGEST).then(|| letters().collect())
}

/// The name nearest to what was written, if one is near; of names equally near, the first by its letters.
pub fn nearest<'a>(written: &str, names: impl IntoIterator<Item = &'a str>) -> Option<&'a str> {
    let written = letters(written)?;
    // a short name is like every other short name
    let most = APART.min(written.len() / 2);
    let found = names.into_iter().filter_map(|name| {
        // a small letter is seldom more than one
        if name.chars().count().abs_diff(written.len()) > most {
            return None;
        }
        let against = letters(name)?;
        Some((distance(&written, &against, most)?, name))
    });
    found.min().map(|(_, name)| name)
}
