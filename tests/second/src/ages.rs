//! What one touch does to a row of ages, a column for each block of the chart.

/// A touch of block `m`, whose must age is h: the younger ones of its set, under h, become older by one (rule 6.3).
pub fn touch_must(row: &mut [u8], sets: &[u8], m: usize) {
    let (h, set) = (row[m], sets[m]);
    for (age, &other) in row.iter_mut().zip(sets) {
        *age = if other == set && *age < h { *age + 1 } else { *age };
    }
    row[m] = 0;
}

/// A touch of block `m`, whose may age is h: those of its set that are h or under become older by one, up to the ways (rule 6.4).
pub fn touch_may(row: &mut [u8], sets: &[u8], ways: u8, m: usize) {
    let (h, set) = (row[m], sets[m]);
    for (age, &other) in row.iter_mut().zip(sets) {
        *age = if other == set && *age <= h && *age < ways {
            *age + 1
        } else {
            *age
        };
    }
    row[m] = 0;
}

/// Must ages meet: the larger of each. Whether any changed.
pub fn meet_must(row: &mut [u8], with: &[u8]) -> bool {
    let mut changed = false;
    for (age, &other) in row.iter_mut().zip(with) {
        changed |= *age < other;
        *age = (*age).max(other);
    }
    changed
}

/// May ages meet: the smaller of each. Whether any changed.
pub fn meet_may(row: &mut [u8], with: &[u8]) -> bool {
    let mut changed = false;
    for (age, &other) in row.iter_mut().zip(with) {
        changed |= *age > other;
        *age = (*age).min(other);
    }
    changed
}
