//! The limits that the wrapper names are those of the second program. tests/header holds the C header's to the same.

use second::limits;

#[test]
fn the_wrappers_limits_are_the_second_programs() {
    assert_eq!(veilbuzz::NODES, limits::NODES);
    assert_eq!(veilbuzz::BLOCKS, limits::BLOCKS);
    assert_eq!(veilbuzz::WAYS, limits::WAYS);
    assert_eq!(veilbuzz::TOUCHES, limits::TOUCHES);
    assert_eq!(veilbuzz::AGES, limits::AGES);
    assert_eq!(veilbuzz::CLASSES, limits::CLASSES);
    assert_eq!(veilbuzz::LONGEST, limits::LONGEST);
    assert_eq!(veilbuzz::PASSES, limits::PASSES);
}
