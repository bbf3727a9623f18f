//! The rules, the definitions that cite them, the trace from each rule to what keeps it, and the links of all pages: that each leads to
//! what there is.

use reports::pages::{anchors, cells, has_word, links, pieces, Piece};
use reports::program::file;
use reports::rules::{cited, cited_at, comments, sections, Cited, Number, Rule};
use reports::tree::{files, text, texts};
use std::collections::BTreeSet;
use std::path::Path;

const RULES: &str = "docs/RULES.md";
const TRACE: &str = "docs/TRACE.md";

/// How many rules each section has at least: a number belongs to its rule for good.
const AT_LEAST: [usize; 18] = [4, 12, 4, 7, 3, 7, 9, 2, 6, 4, 22, 9, 3, 4, 6, 8, 6, 10];

/// The numbers of refusals that nothing gives yet: they are passed over in section 11.
const FREE: std::ops::RangeInclusive<usize> = 19..=22;

/// All rules, in their order.
fn rules() -> Vec<Rule> {
    sections(&text(RULES))
        .iter()
        .flat_map(|section| section.rules())
        .collect()
}

/// The numbers of all rules, also of those that have fallen.
fn numbers() -> BTreeSet<Number> {
    rules().iter().map(|rule| rule.number).collect()
}

/// The rules that have not fallen.
fn standing() -> Vec<Number> {
    rules()
        .iter()
        .filter(|rule| !rule.fallen)
        .map(|rule| rule.number)
        .collect()
}

/// Fails with all faults at once.
fn no_faults(what: &str, faults: Vec<String>) {
    assert!(
        faults.is_empty(),
        "{what}, {} in all:\n{}",
        faults.len(),
        faults.join("\n")
    );
}

/// Fails where a check has so little to look at that it would hold of nothing.
fn enough(what: &str, least: usize, found: usize) {
    assert!(found >= least, "only {found} {what}, fewer than {least}");
}

/// What is wrong with the citations of a text.
fn faults_of(place: &str, text: &str, there: &BTreeSet<Number>) -> Vec<String> {
    let fault = |cited: Cited| match cited.rules() {
        None => vec![format!("{place}: {cited} is no range of rules")],
        Some(numbers) => numbers
            .iter()
            .filter(|number| !there.contains(number))
            .map(|number| format!("{place}: there is no rule {number}"))
            .collect(),
    };
    cited(text).into_iter().flat_map(fault).collect()
}

/// The files of definitions, each with its text.
fn definitions() -> Vec<(String, String)> {
    in_crates("specs")
        .into_iter()
        .filter(|(name, _)| name.ends_with(".antt"))
        .collect()
}

/// The texts under such a folder of each crate.
fn in_crates(folder: &str) -> Vec<(String, String)> {
    texts("crates")
        .into_iter()
        .filter(|(name, _)| name.split('/').nth(2) == Some(folder))
        .collect()
}

/// The pages in Markdown.
fn pages() -> Vec<String> {
    ["docs", "README.md", "charts", "tests"]
        .iter()
        .flat_map(|name| files(name))
        .filter(|name| name.ends_with(".md"))
        .collect()
}

/// A name as seen from a page, without an anchor; the page itself where there is nothing but one.
fn from_page(page: &str, target: &str) -> String {
    let path = target.split('#').next().unwrap_or("");
    if path.is_empty() {
        return page.to_string();
    }
    let mut parts: Vec<&str> = page.split('/').collect();
    parts.pop();
    for part in path.split('/').filter(|part| !part.is_empty() && *part != ".") {
        if part != ".." {
            parts.push(part);
        } else if parts.pop().is_none() {
            parts.push("..");
        }
    }
    parts.join("/")
}

#[test]
fn sections_are_numbered_from_1_on_and_each_has_an_example() {
    let page = text(RULES);
    let sections = sections(&page);
    enough("sections", 16, sections.len());
    let headings = page.lines().filter(|line| line.starts_with("## ")).count();
    assert_eq!(sections.len(), headings, "a heading of {RULES} has no number");
    for (before, section) in sections.iter().enumerate() {
        assert_eq!(section.number, before + 1, "{RULES} has a section out of its order");
        assert!(
            section.has_example(),
            "section {} of {RULES} has no example",
            section.number
        );
    }
}

#[test]
fn the_rules_of_a_section_are_numbered_without_a_gap() {
    let page = text(RULES);
    enough("rules", 80, rules().len());
    for section in sections(&page) {
        // refusals are numbered from 1, and a rule of all of them goes before
        let first = if section.number == 11 { 0 } else { 1 };
        let there: Vec<String> = section.rules().iter().map(|rule| rule.number.to_string()).collect();
        let wanted: Vec<String> = (first..)
            .filter(|place| section.number != 11 || !FREE.contains(place))
            .take(there.len())
            .map(|place| format!("{}.{place}", section.number))
            .collect();
        assert_eq!(there, wanted, "section {} of {RULES}", section.number);
        let least = AT_LEAST.get(section.number - 1).copied().unwrap_or(1);
        enough(&format!("rules in section {}", section.number), least, there.len());
        for rule in section.rules() {
            enough(&format!("words in rule {}", rule.number), 5, rule.words);
        }
    }
    let bold = page.split("**").skip(1).step_by(2);
    let bold = bold.filter(|words| Number::begins(words).is_some_and(|(_, rest)| rest.is_empty()));
    assert_eq!(
        bold.count(),
        rules().len(),
        "a number in bold begins no rule of {RULES}"
    );
}

#[test]
fn the_page_of_rules_names_no_other_rule() {
    let there = numbers();
    let page = text(RULES);
    let strange = page
        .lines()
        .flat_map(Number::all)
        .filter(|number| !there.contains(number));
    let faults = strange.map(|number| format!("{RULES}: there is no rule {number}"));
    no_faults("numbers that are no rule's", faults.collect());
}

/// The runs of three numbers or more in a text, each as one line of words.
fn runs(text: &str) -> Vec<String> {
    let is_number = |word: &&str| {
        word.len() < 3
            && word.chars().all(|sign| sign.is_ascii_hexdigit())
            && word.contains(|sign: char| sign.is_ascii_digit())
    };
    let mut runs = vec![vec![]];
    for word in text.split_inclusive([' ', '\n', ',', ':', ';', '.', '`', '(', ')']) {
        let (bare, end) = word.split_at(word.len() - 1);
        match Some(bare).filter(is_number) {
            Some(number) => runs.last_mut().expect("there is one").push(number.to_string()),
            None if bare.is_empty() && end == "`" => (),
            None => runs.push(vec![]),
        }
        if !matches!(end, " " | "\n") {
            runs.push(vec![]);
        }
    }
    runs.into_iter()
        .filter(|run| run.len() > 2)
        .map(|run| run.join(" "))
        .collect()
}

#[test]
fn the_numbers_of_an_example_stand_in_the_soundings() {
    let sounded: Vec<String> = [
        "demands/specs/Charts",
        "demands/specs/Examples",
        "demands/specs/Certifying",
        "demands/specs/Varied",
        "demands/specs/Soundings",
        "writer/specs/Sounded",
    ]
    .iter()
    .map(|name| text(&format!("crates/{name}.antt")))
    .collect();
    let sounded = sounded
        .join("\n")
        .replace("0x", "")
        .split_whitespace()
        .filter(|word| *word != "∷")
        .collect::<Vec<_>>()
        .join(" ");
    let page = text(RULES);
    let examples: Vec<&str> = page
        .split("*Example.*")
        .skip(1)
        .map(|rest| rest.split("\n[Where").next().unwrap_or(""))
        .collect();
    let shown: Vec<String> = examples.iter().flat_map(|example| runs(example)).collect();
    enough("runs of numbers in examples", 20, shown.len());
    let faults = shown.into_iter().filter(|run| !has_word(&sounded, run));
    no_faults("numbers of examples that no sounding has", faults.collect());
}

#[test]
fn each_source_file_begins_with_what_it_is() {
    let bare = in_crates("src")
        .into_iter()
        .filter(|(name, text)| name.ends_with(".rt") && !text.starts_with("//"));
    no_faults("source files without a head", bare.map(|(name, _)| name).collect());
}

#[test]
fn the_rows_of_the_trace_name_no_other_rule() {
    let there = numbers();
    let page = text(TRACE);
    let told = page.lines().filter(|line| line.starts_with('|')).flat_map(Number::all);
    let strange = told.filter(|number| !there.contains(number));
    no_faults(
        "numbers that are no rule's",
        strange.map(|number| number.to_string()).collect(),
    );
}

#[test]
fn each_rule_is_one_of_the_papers_or_of_the_projects_own() {
    let page = text(TRACE);
    let map = page
        .split("\n## ")
        .find(|section| section.starts_with("From the paper to the rules"))
        .expect("the map from the paper to the rules");
    // "7.2 and 7.3, 7.4; whole: 7.7" and the like: a cell is read as one citation after the other
    let told = map
        .split(['|', ';', ':', '(', ')'])
        .flat_map(|words| cited(&format!("rules {}", words.trim_start_matches([',', ' ', '\n']))))
        .filter_map(Cited::rules)
        .flatten();
    let told = BTreeSet::from_iter(told);
    let untold = standing().into_iter().filter(|rule| !told.contains(rule));
    no_faults(
        "rules that the map does not have",
        untold.map(|rule| rule.to_string()).collect(),
    );
}

#[test]
fn definitions_cite_rules_that_there_are() {
    let there = BTreeSet::from_iter(standing());
    let mut faults = vec![];
    for (name, source) in definitions() {
        for comment in comments(&source) {
            faults.extend(faults_of(&format!("{name}:{}", comment.line), &comment.text, &there));
        }
    }
    no_faults("citations of no rule in definitions", faults);
}

#[test]
fn each_rule_is_cited_at_a_definition() {
    let mut at_definitions = BTreeSet::new();
    for (_, source) in definitions() {
        for comment in comments(&source).iter().filter(|comment| comment.at_definition) {
            at_definitions.extend(cited(&comment.text).into_iter().filter_map(Cited::rules).flatten());
        }
    }
    let missing = standing().into_iter().filter(|number| !at_definitions.contains(number));
    let faults = missing.map(|number| format!("no comment above or inside a definition cites rule {number}"));
    no_faults("rules without a definition", faults.collect());
}

#[test]
fn each_file_of_definitions_begins_with_its_rules_or_says_that_it_has_none() {
    let mut faults = vec![];
    let files = definitions();
    enough("files of definitions", 60, files.len());
    for (name, source) in files.iter().filter(|(name, _)| !name.ends_with("/Lib.antt")) {
        let comments = comments(source);
        let Some(head) = comments.first().filter(|comment| comment.line == 1) else {
            faults.push(format!("{name} does not begin with a comment"));
            continue;
        };
        let told = cites(&head.text);
        let inside = comments.iter().filter(|comment| comment.at_definition);
        let untold: BTreeSet<String> = inside
            .flat_map(|comment| cites(&comment.text))
            .filter(|rule| !told.contains(rule))
            .collect();
        // demands say rules again, and soundings try them
        if !name.starts_with("crates/demands/") && !untold.is_empty() {
            faults.push(format!("{name}: its first comment does not cite {untold:?}"));
        }
        let words = head.words();
        let says_none = has_word(&words, "no rule") || words.contains("Nothing here is a rule");
        if cited(&head.text).is_empty() && !says_none {
            faults.push(format!(
                "{name}: its first comment cites no rule, and does not say that there is none"
            ));
        }
    }
    no_faults("heads of files of definitions", faults);
}

#[test]
fn what_is_cited_elsewhere_is_a_rule() {
    // only a page of docs/ may speak of a rule that has fallen
    let (there, standing) = (numbers(), BTreeSet::from_iter(standing()));
    let mut elsewhere: Vec<(String, String)> =
        ["tests", "wrapper", "include", "examples", "charts", "docs", "README.md"]
            .iter()
            .flat_map(|name| texts(name))
            .collect();
    for folder in ["src", "proofs", "must-fail"] {
        elsewhere.extend(in_crates(folder));
    }
    let citations: usize = elsewhere.iter().map(|(_, text)| cited(text).len()).sum();
    enough("citations outside of definitions", 40, citations);
    let faults = elsewhere.iter().flat_map(|(name, text)| {
        let is_page = name.starts_with("docs/");
        faults_of(name, text, if is_page { &there } else { &standing })
    });
    no_faults("citations of no rule that stands", faults.collect());
}

/// The rows of a section of the trace that begin with a rule's number, each with its number.
fn rows(lines: &[String]) -> Vec<(Number, Vec<String>)> {
    lines
        .iter()
        .filter_map(|line| cells(line))
        .filter_map(|row| {
            let (number, _) = Number::begins(row[0].trim_start_matches(['[', '*']))?;
            Some((number, row))
        })
        .collect()
}

#[test]
fn the_trace_has_one_whole_row_for_each_rule_in_order() {
    let trace = sections(&text(TRACE));
    let mut faults = vec![];
    for section in sections(&text(RULES)) {
        let there: Vec<_> = trace
            .iter()
            .filter(|other| other.number == section.number)
            .flat_map(|section| rows(&section.lines))
            .collect();
        let standing = section.rules().into_iter().filter(|rule| !rule.fallen);
        let wanted: Vec<String> = standing.map(|rule| rule.number.to_string()).collect();
        let told: Vec<String> = there.iter().map(|(number, _)| number.to_string()).collect();
        if told != wanted {
            faults.push(format!(
                "section {} has rows for {told:?}, and its rules are {wanted:?}",
                section.number
            ));
        }
        for (number, row) in there {
            if row.len() != 5 || row.iter().any(String::is_empty) {
                faults.push(format!("the row of {number} has not five cells with something in each"));
            }
        }
    }
    let rules = numbers();
    for section in trace
        .iter()
        .filter(|trace| rules.iter().all(|rule| rule.section != trace.number))
    {
        faults.push(format!("section {} is no section of {RULES}", section.number));
    }
    no_faults("faults of docs/TRACE.md", faults);
}

#[test]
fn each_definition_of_a_row_is_one_that_cites_the_rule() {
    let mut faults = vec![];
    for (number, row) in sections(&text(TRACE)).iter().flat_map(|section| rows(&section.lines)) {
        // definition, promise, proof, test: where their links may lead; of a function that the kit proves by itself there is no file of a proof
        let places: [&[&str]; 4] = [
            &["/specs/"],
            &["/specs/", "/src/"],
            &["/proofs/", "/src/"],
            &["../tests/", "/specs/", "/must-fail/"],
        ];
        for (cell, places) in row[1..].iter().zip(places) {
            let strange = |link: &String| !places.iter().any(|place| link.contains(place));
            if links(cell).is_empty() || links(cell).iter().any(strange) {
                faults.push(format!(
                    "{number}: no link, or one that leads elsewhere than {places:?}, in {cell}"
                ));
            }
        }
        let (mut path, mut named) = (String::new(), 0);
        for piece in pieces(&row[1]) {
            match piece {
                Piece::Link(target) => path = from_page(TRACE, &target),
                Piece::Code(name) => {
                    named += 1;
                    let source = if path.contains("/specs/") {
                        text(&path)
                    } else {
                        String::new()
                    };
                    let mut rules = cited_at(&source, &name).into_iter().filter_map(Cited::rules).flatten();
                    if !rules.any(|rule| rule == number) {
                        faults.push(format!(
                            "{path}: `{name}` is not defined there or does not cite rule {number}"
                        ));
                    }
                }
            }
        }
        if named == 0 {
            faults.push(format!("the row of {number} names no definition"));
        }
    }
    no_faults("definitions of docs/TRACE.md", faults);
}

/// Whether a file has a name as a whole word, or some file under a folder.
fn names(path: &str, name: &str) -> bool {
    texts(path).iter().any(|(_, text)| has_word(text, name))
}

#[test]
fn each_link_and_each_name_of_the_trace_leads_to_what_is_there() {
    let mut faults = vec![];
    let mut led = 0;
    let crates = texts("crates");
    for cell in text(TRACE).lines().filter_map(cells).flatten() {
        // where the last link of this cell leads
        let mut path = None;
        for piece in pieces(&cell) {
            match (piece, &path) {
                (Piece::Link(target), _) if target.contains(':') => path = None,
                (Piece::Link(target), _) => {
                    let leads = from_page(TRACE, &target);
                    led += 1;
                    if !file(&leads).exists() {
                        faults.push(format!("there is no {leads}"));
                    }
                    path = Some(leads).filter(|leads| file(leads).exists());
                }
                (Piece::Code(name), Some(path)) if !names(path, &name) => {
                    faults.push(format!("{path} has no `{name}`"));
                }
                (Piece::Code(name), None)
                    if !name.contains([' ', '/']) && !crates.iter().any(|(_, text)| has_word(text, &name)) =>
                {
                    faults.push(format!("the crates have no `{name}`"));
                }
                (Piece::Code(_), _) => (),
            }
        }
    }
    no_faults("what docs/TRACE.md leads to and is not there", faults);
    enough("links in the rows of docs/TRACE.md", numbers().len(), led);
}

#[test]
fn each_link_of_a_page_leads_to_a_file() {
    let mut faults = vec![];
    let mut led = 0;
    for page in pages() {
        for target in links(&text(&page)) {
            led += 1;
            let leads = from_page(&page, &target);
            if !file(&leads).exists() {
                faults.push(format!("{page}: there is no {leads}"));
            }
        }
    }
    enough("links", 20, led);
    no_faults("links to no file", faults);
}

#[test]
fn each_anchor_in_a_link_is_that_of_a_heading() {
    let mut faults = vec![];
    let mut led = 0;
    for page in pages() {
        for target in links(&text(&page)) {
            let (Some((_, anchor)), leads) = (target.split_once('#'), from_page(&page, &target)) else {
                continue;
            };
            if Path::new(&leads).extension().is_some_and(|end| end == "md") && file(&leads).exists() {
                led += 1;
                if !anchors(&text(&leads)).iter().any(|other| other == anchor) {
                    faults.push(format!("{page}: {leads} has no heading for #{anchor}"));
                }
            }
        }
    }
    enough("links to headings", 14, led);
    no_faults("links to no heading", faults);
}

/// What a text cites, a range as all of its rules.
fn cites(text: &str) -> Vec<String> {
    let cited = cited(text).into_iter().filter_map(Cited::rules).flatten();
    cited.map(|number| number.to_string()).collect()
}

#[test]
fn rules_are_cited_alone_in_lists_and_in_ranges() {
    assert_eq!(cites("Rule 6.3. What it says of A is not 2.1"), ["6.3"]);
    assert_eq!(cites("(rule 6.3's touch, rules 6.4 and 6.5)"), ["6.3", "6.4", "6.5"]);
    assert_eq!(cites("Rules 2.1, 2.2 and 2.6: a record"), ["2.1", "2.2", "2.6"]);
    assert_eq!(cites("rules 7.2 to 7.6"), ["7.2", "7.3", "7.4", "7.5", "7.6"]);
    assert_eq!(
        cites("by rules 12.1, 12.4 to 12.6, and 9.5, as it was"),
        ["12.1", "12.4", "12.5", "12.6", "9.5"]
    );
}

#[test]
fn a_citation_goes_on_over_the_end_of_a_line_of_comment() {
    assert_eq!(cites("-- as in rules\n-- 6.3 and\n  -- 6.4"), ["6.3", "6.4"]);
    assert_eq!(
        cites("//! by rules 7.2\n//! to 7.4 and no\n//! other"),
        ["7.2", "7.3", "7.4"]
    );
    assert_eq!(cites("/* rule\n * 1.1 */"), ["1.1"]);
}

#[test]
fn other_numbers_are_no_citations() {
    for text in [
        "a rule that takes 0.5 s",
        "by rule, 0.5 s",
        "the rules. 1.95 is a version",
        "rule 1.2.3, rule 6.3x, rule 9 and rule 11.n",
        "a ruler 6.3 inches long",
        "6.3 and 6.4",
    ] {
        assert_eq!(cites(text), [""; 0], "{text}");
    }
    assert_eq!(cites("rule 6.3 and 16 bits, 0.5 s"), ["6.3"]);
}

#[test]
fn a_range_keeps_to_its_section_and_goes_upward() {
    // pieced together, so that these are no citations of this file
    for range in ["6.7 to 7.2", "6.4 to 6.3"] {
        let there = numbers();
        let faults = faults_of("here", &format!("rules {range}"), &there);
        assert_eq!(faults, [format!("here: {range} is no range of rules")]);
    }
    let faults = faults_of(
        "here",
        "rules 6.3 to 6.5",
        &BTreeSet::from([Number { section: 6, place: 4 }]),
    );
    assert_eq!(faults, ["here: there is no rule 6.3", "here: there is no rule 6.5"]);
}

#[test]
fn a_rule_may_have_fallen_and_keeps_its_number() {
    let page = "## 1. One\n\n- **1.1** This\n  stands.\n- **1.2** *fallen*: nobody\n  asks.\n\n*Example.* None.\n\n## Other\n- **1.3** no\n\n\
                ## 2. Two\n| **2.0** | stands |\n| **2.1** | *fallen* |\n";
    let rules = sections(page)
        .iter()
        .flat_map(|section| section.rules())
        .collect::<Vec<_>>();
    let told: Vec<String> = rules
        .iter()
        .map(|rule| format!("{} {}", rule.number, rule.fallen))
        .collect();
    assert_eq!(told, ["1.1 false", "1.2 true", "2.0 false", "2.1 true"]);
}

#[test]
fn a_comment_is_at_a_definition_only_directly_above_or_inside_it() {
    let source = "-- head,\n-- two lines\nuse a\n\n-- of a part\n\n-- above\nabbrev pub f : A\nf = b -- behind\n  -- inside\n  c\n-- above use\nuse d\n-- end\n";
    let told: Vec<(usize, String, bool)> = comments(source)
        .iter()
        .map(|comment| (comment.line, comment.words(), comment.at_definition))
        .collect();
    let wanted = [
        (1, "head, two lines", false),
        (5, "of a part", false),
        (7, "above", true),
        (9, "behind", true),
        (10, "inside", true),
        (12, "above use", false),
        (14, "end", false),
    ];
    assert_eq!(told, wanted.map(|(line, words, at)| (line, words.to_string(), at)));
    assert!(!comments("-- head\nabbrev pub f : A\n")[0].at_definition);
}

#[test]
fn a_whole_word_has_no_sign_of_a_name_beside_it() {
    for text in ["touch", "a touch.", "(touch)", "touch-formed touch"] {
        assert!(has_word(text, "touch"), "{text}");
    }
    for text in [
        "touched",
        "touch-formed",
        "untouch",
        "touch'",
        "touch_all",
        "touch2",
        "",
    ] {
        assert!(!has_word(text, "touch"), "{text}");
    }
    assert!(!has_word("anything", ""));
}

#[test]
fn links_names_cells_and_anchors_are_found_in_odd_places() {
    let link = |target: &str| Piece::Link(target.to_string());
    let code = |name: &str| Piece::Code(name.to_string());
    assert_eq!(
        pieces("a[0], [`x`](y.md#z): `n`, `m` and ![a picture](p.svg)"),
        [link("y.md#z"), code("n"), code("m"), link("p.svg")]
    );
    assert_eq!(
        links("[over the\nend](a.md)\n\n```\n[none](b.md)\n```\n| [row](c.md) |\n| `[none](d.md)` | <https://e> [site](https://f) |"),
        ["a.md", "c.md"]
    );
    assert_eq!(
        cells("| a | b \\| c |  |"),
        Some(vec!["a".into(), "b \\| c".into(), "".into()])
    );
    assert_eq!(cells("no row |"), None);
    assert_eq!(
        anchors("# From rule to `code`, and back\n## 1. Chart\n## Twice\n## Twice\n#no\n```\n# none\n```"),
        ["from-rule-to-code-and-back", "1-chart", "twice", "twice-1"]
    );
    assert_eq!(from_page("docs/landings/a.md", "../TRACE.md#b"), "docs/TRACE.md");
    assert_eq!(from_page("README.md", "#b"), "README.md");
    assert_eq!(from_page("README.md", "../a"), "../a");
}
