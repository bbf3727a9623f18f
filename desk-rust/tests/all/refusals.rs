//! `./desk refusal` tells the words of each refusal, and its section of the page of refusals as it stands there.

use crate::json::read;
use crate::place::Place;
use reports::tree::text;
use veilbuzz::Refusal;

/// The refusals that there are: the numbers in between are set aside.
fn numbers() -> impl Iterator<Item = usize> {
    (1..=18).chain(23..=25)
}

/// What was found, and what to do.
fn words(number: usize) -> (&'static str, &'static str) {
    let refusal = Refusal { number, place: 0 };
    refusal.found().zip(refusal.mend()).expect("there are words")
}

#[test]
fn each_refusal_is_listed_with_what_was_found() {
    let place = Place::new("refusals-listed");
    let expected: String = numbers()
        .map(|number| format!("{number:>3}  {}\n", words(number).0))
        .collect();
    assert_eq!(place.run("./desk refusal").out, expected);
    let json = read(&place.run("./desk refusal --json").out);
    let all = json.at("refusals").list();
    assert_eq!(all.len(), numbers().count());
    for (number, refusal) in numbers().zip(all) {
        let told = (refusal.at("found").text(), refusal.at("mend").text());
        assert_eq!((refusal.at("number").count(), told), (number, words(number)));
    }
}

#[test]
fn each_refusal_is_explained_as_the_page_does() {
    let page = text("docs/REFUSALS.md");
    let place = Place::new("refusals");
    for number in numbers() {
        let (_, after) = page
            .split_once(&format!("\n## {number}. "))
            .unwrap_or_else(|| panic!("the page has no section {number}"));
        let section = after.split("\n## ").next().expect("there is a first part");
        let (title, section) = section.split_once('\n').expect("a section has a title");
        let (found, mend) = words(number);
        let said = place.run(&format!("./desk refusal {number}"));
        let expected = format!("Refusal {number}: {found}\nWhat to do: {mend}\n\n{}\n", section.trim());
        assert_eq!((said.out, said.status), (expected, 0));
        let json = read(&place.run(&format!("./desk refusal {number} --json")).out);
        let told = ["title", "found", "mend", "text"].map(|name| json.at(name).text());
        assert_eq!(json.at("number").count(), number);
        assert_eq!(told, [title, found, mend, section.trim()]);
    }
}
