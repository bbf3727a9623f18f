//! Two charts side by side: what differs, and which line causes it.

use crate::comparing::{compared, words};
use crate::json::Json;
use crate::trying::chain;
use reports::folder::{names, text};

/// A text of the folder with pieces of it changed, each of which has to be there.
fn changed(text: &str, pieces: &[(&str, &str)]) -> String {
    pieces.iter().fold(text.to_string(), |text, (from, to)| {
        assert!(text.contains(from), "no '{from}'");
        text.replace(from, to)
    })
}

fn totals(json: &Json) -> [u64; 2] {
    ["low", "high"].map(|side| json.at("totals").at(side).number())
}

/// The number of a line in one of the texts; 0 where it is not there.
fn line(line: &Json, side: &str) -> usize {
    match line.at(side) {
        Json::Null => 0,
        version => version.at("line").count(),
    }
}

#[test]
fn the_cause_of_the_winch_is_the_line_of_the_cache_alone() {
    let (built, swapped) = (text("winch-as-built.txt"), text("winch-swapped.txt"));
    let json = compared(&built, &swapped);
    assert_eq!(
        [totals(json.at("one")), totals(json.at("other"))],
        [[1093, 1150], [67, 200]]
    );
    assert_eq!((json.at("classes").list().len(), json.at("same").count()), (12, 8));
    let [only] = json.at("lines").list() else {
        panic!("one line differs");
    };
    assert_eq!((line(only, "one"), line(only, "other")), (4, 4));
    assert_eq!(
        only.at("one").at("text").text(),
        "cache line 16 sets 8 ways 2 start unknown"
    );
    let alone = only.at("alone");
    assert_eq!((alone.at("classes").count(), totals(alone)), (12, [67, 200]));
    assert_eq!(alone.at("all"), &Json::Bool(true));
    let words = words(&built, &swapped);
    let cause = "alone it causes all of it: other classes at 12 nodes, low total 1093 -> 67, high total 1150 -> 200, verdict NOT MET -> MET\n";
    assert!(words.ends_with(cause), "{words}");
    assert!(words.lines().count() <= 35, "{words}");
}

#[test]
fn a_chart_does_not_differ_from_itself() {
    for name in names(".txt").iter().filter(|name| !name.starts_with("refused-")) {
        let text = text(&format!("{name}.txt"));
        let json = compared(&text, &text);
        for field in ["classes", "only_in_one", "only_in_other", "lines"] {
            assert_eq!(json.at(field).list(), [], "{name}");
        }
        assert_eq!(json.at("one"), json.at("other"), "{name}");
        assert!(words(&text, &text).ends_with("\n\nnothing differs, comments, spaces and the order of lines aside\n"));
    }
}

#[test]
fn of_several_lines_the_one_that_causes_it_is_told() {
    let built = text("winch-as-built.txt");
    let other = changed(
        &built,
        &[
            ("at motor      = 0x20000200", "at motor = 0x2000_0200"),
            ("brake + 0x10 ", "brake + 16 "),
            ("ways 2", "ways 6"),
            ("visits 0    # old", "visits 0..0 # old"),
        ],
    );
    let json = compared(&built, &other);
    let lines = json.at("lines").list();
    let causing: Vec<usize> = lines
        .iter()
        .filter(|line| line.at("alone").at("classes").count() > 0)
        .map(|each| line(each, "one"))
        .collect();
    assert_eq!((lines.len(), causing), (5, vec![4]));
    let alls = lines
        .iter()
        .filter(|line| line.at("alone").at("all") == &Json::Bool(true));
    assert_eq!(alls.count(), 1);
    let words = words(&built, &other);
    assert_eq!(
        words
            .matches("alone it changes no class, no total and no verdict\n")
            .count(),
        4,
        "{words}"
    );
    assert_eq!(words.matches("alone it causes all of it: ").count(), 1, "{words}");
    assert!(!words.contains("no line that was tried"), "{words}");
}

#[test]
fn where_two_lines_cause_it_together_none_is_told_to_cause_all() {
    let built = text("winch-as-built.txt");
    let other = changed(&built, &[("ways 2", "ways 6"), ("miss 20", "miss 30")]);
    let json = compared(&built, &other);
    let lines = json.at("lines").list();
    assert_eq!(lines.len(), 2);
    assert!(lines
        .iter()
        .all(|line| line.at("alone").at("all") == &Json::Bool(false)));
    assert!(words(&built, &other).ends_with("no line that was tried causes all of it alone\n"));
}

#[test]
fn lines_are_matched_by_what_they_are_about() {
    let head = "cache line 16 sets 8 ways 2 start unknown\nentry a\n";
    let one = format!("{head}a: -> b\nb:\nfact a <= 1\nfact b <= 7\nloop b at most 2 per a\nfact a + b <= 8\n");
    let other =
        format!("b:\nfact a + b <= 9\nfact b <= 7\nloop b at most 3 per a\n\nfact b - a >= 1\n{head}a: -> b # b\n");
    let json = compared(&one, &other);
    let pairs: Vec<[usize; 2]> = json
        .at("lines")
        .list()
        .iter()
        .map(|each| ["one", "other"].map(|side| line(each, side)))
        .collect();
    // of the line 'fact b - a' there is no version in the one: the names are in another order
    assert_eq!(pairs, [[5, 0], [0, 6], [7, 4], [8, 2]]);
}

#[test]
fn the_words_that_differ_are_marked_under_both() {
    let head = "cache line 16 sets 8 ways 2 start unknown\nentry a\n";
    let one = format!("{head}a: read 0x10 -> b\nb:visits 1\n");
    let other = format!("{head}a: read 0x20+4  -> b   # so\nb: visits 0..1\n");
    let words = words(&one, &other);
    let marked = "\
A 3 | a: read 0x10 -> b
    |         ^^^^
B 3 | a: read 0x20+4 -> b
    |         ^^^^^^
";
    assert!(words.contains(marked), "{words}");
    let marked = "\
A 4 | b:visits 1
B 4 | b: visits 0..1
    |           ^^^
";
    assert!(words.contains(marked), "{words}");
}

#[test]
fn of_a_long_line_what_lies_around_the_difference_is_shown() {
    let terms = " + a".repeat(200);
    let text = |limit: &str| format!("{}fact n0{} <= {limit}\n", chain(2), terms.replace('a', "n1"));
    let words = words(&text("7"), &text("8"));
    let lines: Vec<&str> = words.lines().filter(|line| line.contains(" | ")).collect();
    assert!(lines.iter().all(|line| line.chars().count() < 160), "{words}");
    assert!(words.contains("n1 <= 7\n") && words.contains("n1 <= 8\n"), "{words}");
    assert_eq!(words.matches('^').count(), 1, "{words}");
    let words = self::words(&text("7"), &chain(2));
    assert!(words.contains(" | fact n0 + n1 ") && !words.contains('^'), "{words}");
}

#[test]
fn forty_lines_are_tried_and_the_others_are_listed() {
    let one = chain(100);
    let other = changed(&one, &[("->", "step ->")]);
    let json = compared(&one, &other);
    let not_tried = |line: &&Json| line.at("alone").at("why_not") == &Json::Text("not-tried".into());
    let lines = json.at("lines").list();
    assert_eq!(lines.len(), 99);
    assert_eq!(lines.iter().filter(not_tried).count(), 59);
    assert!(!lines[..40].iter().any(|line| not_tried(&line)));
    let words = words(&one, &other);
    assert!(
        words.ends_with("59 more differ; they are not tried, and --json lists more of them\n"),
        "{words}"
    );
    assert_eq!(words.matches("alone it changes no class\n").count(), 40, "{words}");
}

#[test]
fn what_is_no_chart_with_one_line_is_told_with_its_fault() {
    let head = "cache line 16 sets 8 ways 2 start unknown\nentry a\n";
    let json = compared(&format!("{head}a:\n"), &format!("{head}a: -> b\nb: read 0x00\n"));
    let [arrow, node] = json.at("lines").list() else {
        panic!("two lines differ");
    };
    let alone = arrow.at("alone");
    assert_eq!(alone.at("why_not").text(), "no-chart");
    assert_eq!(alone.at("what").text(), "no node is called 'b'");
    assert_eq!(node.at("alone").at("classes").count(), 0);
}
