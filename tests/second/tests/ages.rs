//! One touch and one meeting (rules 6.3, 6.4 and 6.6), on the example of section 6: four ways, and the blocks a to e of one set.

use second::ages::{meet_may, meet_must, touch_may, touch_must};

const ROW: [u8; 5] = [0, 1, 1, 3, 4];
const ONE_SET: [u8; 5] = [0; 5];
const C: usize = 2;
const E: usize = 4;

fn must(m: usize) -> [u8; 5] {
    let mut row = ROW;
    touch_must(&mut row, &ONE_SET, m);
    row
}

fn may(m: usize) -> [u8; 5] {
    let mut row = ROW;
    touch_may(&mut row, &ONE_SET, 4, m);
    row
}

#[test]
fn touching_c_grows_what_must_says_is_below_it() {
    assert_eq!(must(C), [1, 1, 0, 3, 4]);
}

#[test]
fn touching_c_grows_what_may_says_is_at_or_below_it() {
    assert_eq!(may(C), [1, 2, 0, 3, 4]);
}

#[test]
fn touching_the_absent_e_grows_all_others_but_none_past_the_ways() {
    assert_eq!(must(E), [1, 2, 2, 4, 0]);
    assert_eq!(may(E), [1, 2, 2, 4, 0]);
}

#[test]
fn a_touch_leaves_other_sets_alone() {
    let mut row = ROW;
    touch_must(&mut row, &[0, 1, 0, 1, 0], E);
    assert_eq!(row, [1, 1, 2, 3, 0]);
    let mut row = ROW;
    touch_may(&mut row, &[0, 1, 0, 1, 0], 4, E);
    assert_eq!(row, [1, 1, 2, 3, 0]);
}

#[test]
fn meeting_takes_the_larger_must_age() {
    let mut row = [1, 3];
    assert!(meet_must(&mut row, &[2, 4]));
    assert_eq!(row, [2, 4]);
    assert!(!meet_must(&mut row, &[2, 4]));
    assert!(!meet_must(&mut row, &[1, 3]));
}

#[test]
fn meeting_takes_the_smaller_may_age() {
    let mut row = [2, 4];
    assert!(meet_may(&mut row, &[1, 3]));
    assert_eq!(row, [1, 3]);
    assert!(!meet_may(&mut row, &[1, 3]));
    assert!(!meet_may(&mut row, &[2, 4]));
}
