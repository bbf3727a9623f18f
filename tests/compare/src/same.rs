use std::fmt::Debug;

/// What a comparison comes to: something, or words for the first difference.
pub type Held<T = ()> = Result<T, String>;

/// Holds the archive's to the second program's.
pub fn same<T: PartialEq + Debug>(what: &str, ours: &T, second: &T) -> Held {
    if ours == second {
        return Ok(());
    }
    Err(format!(
        "{what}: the archive's is {ours:?}, the second program's {second:?}"
    ))
}

/// Holds a statement to be true. The words say what is the case if it is not.
pub fn holds(truth: bool, words: impl FnOnce() -> String) -> Held {
    if truth {
        return Ok(());
    }
    Err(words())
}
