//! That what compares lets no difference pass, of a buffer or of anything else.

use charts::random::Random;
use charts::Chart;
use compare::given::Given;
use compare::guarded::{byte, Guarded};
use compare::same::{holds, same};
use compare::written::Written;

/// A buffer of so many bytes, the same each time but for their number.
fn buffer(length: usize) -> Guarded<u8> {
    Guarded::of(&mut Random::new(1), length, byte)
}

/// Whether a buffer passes that differs so from what it is held to.
fn passes(change: fn(&mut [u8])) -> bool {
    let mut changed = buffer(100);
    change(changed.lent_mut());
    changed.same("a buffer", &buffer(100)).is_ok()
}

#[test]
fn the_very_buffer_passes() {
    assert!(passes(|_| ()));
}

#[test]
fn another_first_byte_is_refused() {
    assert!(!passes(|lent| lent[0] ^= 1));
}

#[test]
fn another_last_byte_is_refused() {
    assert!(!passes(|lent| lent[99] ^= 1));
}

#[test]
fn other_guards_are_refused() {
    let other = Guarded::of(&mut Random::new(1), 0, |number| byte(number) ^ 1);
    assert!(buffer(0).same("a buffer", &other).is_err());
}

#[test]
#[should_panic(expected = "they are equally long")]
fn a_shorter_buffer_is_refused() {
    let _ = buffer(99).same("a buffer", &buffer(100));
}

#[test]
fn another_answer_is_refused() {
    assert!(same("an answer", &[1, 2, 3], &[1, 2, 3]).is_ok());
    assert!(same("an answer", &[1, 2, 3], &[1, 2, 4]).is_err());
    assert!(holds(true, String::new).is_ok());
    assert!(holds(false, String::new).is_err());
}

#[test]
fn bytes_written_from_other_numbers_are_refused() {
    let sample = Given::of_chart(&Chart::sample());
    let mut other = sample.clone();
    other.lists[5][2] = 1;
    let mut written = Written::default();
    assert_eq!(written.add(&sample, &[1, 2]), Ok(true));
    assert_eq!(written.add(&sample, &[1, 2]), Ok(false));
    assert_eq!(written.add(&other, &[1, 3]), Ok(true));
    assert!(written.add(&other, &[1, 2]).is_err());
}
