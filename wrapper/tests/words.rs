//! What a refusal and a class say.

use veilbuzz::{Class, Refusal, BLOCKS, NODES, PASSES};

fn refusal(number: usize, place: usize) -> String {
    Refusal { number, place }.to_string()
}

#[test]
fn a_refusal_says_its_number_its_place_what_was_found_and_what_to_do() {
    assert_eq!(
        refusal(9, 2),
        "refused 9 at 2: a record breaks its rules \
         (mend that node's record; if both its arrows lead to one node: one arrow, or the other target; \
         if its last byte is past the last address: a smaller size)"
    );
    assert_eq!(
        refusal(17, 5),
        "refused 17 at 5: a floor above 0 stands at a node without a mark (no walk comes there: make it 0)"
    );
}

#[test]
fn what_was_found_and_what_to_do_are_told_apart() {
    let cut = Refusal { number: 1, place: 0 };
    assert_eq!(cut.found(), Some("the chart has fewer than 8 bytes"));
    assert_eq!(cut.mend(), Some("give the whole file"));
    for number in (1..=18).chain(23..=25) {
        let told = Refusal { number, place: 7 };
        let (found, mend) = told.found().zip(told.mend()).expect("there are words");
        assert_eq!(told.to_string(), format!("refused {number} at 7: {found} ({mend})"));
    }
}

#[test]
fn the_limits_stand_in_the_words() {
    let says = |number, what: String| assert!(refusal(number, 0).contains(&what), "{}", refusal(number, 0));
    says(5, format!("N, is not 1 to {NODES} "));
    says(10, format!("over {BLOCKS} blocks "));
    says(12, format!("allow {PASSES} passes,"));
}

#[test]
fn each_refusal_has_words_of_its_own() {
    let mut words: Vec<String> = (1..=18)
        .chain(23..=25)
        .map(|number| {
            let text = refusal(number, 0);
            let (_, words) = text.split_once(": ").expect("there are words");
            words.into()
        })
        .collect();
    words.sort();
    words.dedup();
    assert_eq!(words.len(), 21);
}

#[test]
fn a_number_that_nothing_is_refused_by_has_no_words() {
    for number in [0, 19, 20, 21, 22, 26, usize::MAX] {
        let none = Refusal { number, place: 3 };
        assert_eq!(none.to_string(), format!("refused {number} at 3"));
        assert_eq!((none.found(), none.mend()), (None, None));
    }
}

#[test]
fn the_words_of_classes_are_those_of_the_report() {
    let words: Vec<String> = (0..=5)
        .map(|number| Class::of(number).expect("a class").to_string())
        .collect();
    assert_eq!(words, ["unreached", "hit", "miss", "unsure", "none", "kept"]);
    assert_eq!(Class::of(6), None);
}
