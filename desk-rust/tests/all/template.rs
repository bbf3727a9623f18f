//! What `./desk new` prints is a text that the desk answers, in all ways.

use crate::place::Place;

#[test]
fn what_new_prints_is_answered() {
    let place = Place::new("new");
    let new = place.run("./desk new > mine.txt");
    assert_eq!((new.status, new.err.as_str()), (0, ""));
    for command in [
        "./desk report mine.txt",
        "./desk totals mine.txt",
        "./desk deadline mine.txt",
        "./desk why mine.txt look",
        "./desk chart mine.txt -o mine.chart",
        "./desk draw mine.txt -o mine.svg",
        "./desk page mine.txt -o mine.html",
        "./desk report mine.chart",
    ] {
        let said = place.run(command);
        assert_eq!((said.status, said.err.as_str()), (0, ""), "{command}");
        assert!(said.out.starts_with("mine."), "{command}: {}", said.out);
    }
}
