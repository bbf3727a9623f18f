//! The page: one file of HTML that is whole, asks for nothing outside it, and tells what the other commands tell.

use crate::json::read;
use crate::place::Place;
use crate::trying::{chain, known, made};
use crate::xml::{element, Element};
use desk::findings::Findings;
use desk::known::Known;
use desk::page_html::html;
use desk::sha256::sha256;
use reports::program::file;
use reports::tree::text;
use std::fs;
use veilbuzz::VERSION;

fn page(known: &Known) -> String {
    let findings = Findings::of(known).unwrap_or_else(|trouble| panic!("{}", trouble.words()));
    html(&findings, None, None).unwrap_or_else(|trouble| panic!("{}", trouble.words()))
}

fn of_chart(name: &str) -> String {
    page(&known(&fs::read(file("charts").join(name)).expect("it is there")))
}

/// The page as a tree: it is written so that XML can be read of it too.
fn tree(page: &str) -> Element {
    let html = page.strip_prefix("<!DOCTYPE html>\n").expect("it says that it is HTML");
    element(html).expect("it is well-formed")
}

/// Without its style, which is the same on each page.
fn body(page: &str) -> &str {
    page.split_once("<body>").expect("there is a body").1
}

#[test]
fn a_page_is_whole_and_needs_nothing_beside_it() {
    for name in [
        "winch-as-built.txt",
        "winch-facts.txt",
        "loop.chart",
        "straddle.txt",
        "class-unreached.txt",
    ] {
        let page = of_chart(name);
        assert_eq!(tree(&page).named("section").len(), 6, "{name}");
        // the name of what a picture is, and arrowheads that are in it
        let outside = page
            .replace("http://www.w3.org/2000/svg", "")
            .replace("url(#chart-head)", "");
        for sign in ["<script", "http:", "https:", "url(", "@import", "src=", "href="] {
            assert!(!outside.contains(sign), "{name} has {sign}");
        }
    }
}

#[test]
fn a_page_has_all_parts() {
    let page = of_chart("winch-as-built.txt");
    let parts = [
        "<h1>tried</h1>",
        "8 sets of 2 ways of 16-byte lines, 256 bytes; contents at the start unknown",
        "<strong>NOT MET</strong> latest 120 us; the high total comes to 145.75 us, 25.75 us too late. Even the low total is 18.625 us too late",
        "<svg",
        "<td><b>rock_brake</b></td><td><span class=\"class hit\">hit</span></td><td>read 1 byte at 0x20000190 (brake + 0x10)</td>",
        "title=\"set 0: 6 blocks for 2 ways, over-full by more than twice\"",
        "title=\"set 1: 1 block for 2 ways, has room\"",
        "title=\"set 7: 0 blocks for 2 ways, no block\"",
        "<td class=\"number\"><b>1093</b></td><td class=\"number\"><b>1150</b></td>",
        "<td class=\"number\">17.4 %</td>",
        "block 0x2000019, first load",
        "<td class=\"number\">1</td><td class=\"number\">10</td></tr>",
        "<tr><td>high total</td><td class=\"number\">1150</td><td class=\"number\">145.750</td></tr>",
        "least recently used",
    ];
    for part in parts {
        assert!(body(&page).contains(part), "no {part}");
    }
    assert!(page.contains(&format!("Veilbuzz {VERSION}")));
    let met = of_chart("winch-swapped.txt");
    assert!(met.contains("<strong>MET</strong> latest 120 us; the high total comes to 27 us, 93 us before it."));
}

#[test]
fn with_facts_a_page_has_them_and_their_bounds() {
    let page = of_chart("winch-facts.txt");
    for part in [
        "<code>fact clear_tension + rock_tension &lt;= 10</code>",
        "<code>loop motor_holds at most 6 per power_on</code>",
        "<td class=\"number\"><b>1093</b></td><td class=\"number\"><b>1264</b></td>",
        "the high bound comes to 160 us, 40 us too late",
        "tested and not proved",
    ] {
        assert!(body(&page).contains(part), "no {part}");
    }
}

#[test]
fn what_a_text_does_not_say_is_said_to_be_missing() {
    let page = of_chart("loop.chart");
    for part in [
        "No verdict on a deadline",
        "totals need the cost of a hit and of a miss",
        "a verdict needs a line 'clock' and a line 'deadline'",
    ] {
        assert!(page.contains(part), "no {part}");
    }
    assert!(
        !page.contains("low total"),
        "nothing is claimed of totals that there are not"
    );
}

#[test]
fn each_class_of_the_report_is_on_the_page() {
    let place = Place::new("page-classes");
    for name in ["winch-as-built", "straddle", "class-unreached", "nested", "branch"] {
        let report = read(&place.run(&format!("./desk report --json charts/{name}.txt")).out);
        let page = of_chart(&format!("{name}.txt"));
        let nodes = page
            .split_once("<section id=\"nodes\">")
            .expect("nodes")
            .1
            .split_once("</section>")
            .expect("an end")
            .0;
        let rows: Vec<&str> = nodes.lines().filter(|line| line.starts_with("<tr><td><b>")).collect();
        let told = report.at("nodes").list();
        assert_eq!(rows.len(), told.len());
        for (row, node) in rows.into_iter().zip(told) {
            assert!(row.contains(&format!("<b>{}</b>", node.at("name").text())), "{row}");
            let touches = node.at("touches").list();
            let mut at = row;
            for touch in touches {
                let mark = format!("<span class=\"class {0}\">{0}</span>", touch.at("class").text());
                at = at.split_once(&mark).unwrap_or_else(|| panic!("{row} has no {mark}")).1;
            }
            assert_eq!(
                row.matches("<span class=\"class ").count(),
                touches.len().max(1),
                "{row}"
            );
        }
    }
}

#[test]
fn the_checksum_is_that_of_sha256sum() {
    let place = Place::new("page-checksum");
    let sum = place
        .run("./desk chart charts/loop.txt -o loop.chart >/dev/null && sha256sum loop.chart")
        .out;
    let sum = sum.split(' ').next().expect("a sum");
    assert!(of_chart("loop.txt").contains(sum) && of_chart("loop.chart").contains(sum));
    assert_eq!(
        sha256(b""),
        "e3b0c44298fc1c149afbf4c8996fb92427ae41e4649b934ca495991b7852b855"
    );
    assert_eq!(
        sha256(b"abc"),
        "ba7816bf8f01cfea414140de5dae2223b00361a396177a9cb410ff61f20015ad"
    );
    assert_eq!(
        sha256(&b"a".repeat(1_000_000)),
        "cdc76e5c9914fb9281a1c7e284d73e67f1809a48a497200e046d39ccc7112cd0"
    );
    for length in [1, 54, 55, 56, 57, 63, 64, 65, 119, 120, 128] {
        let bytes: Vec<u8> = (0..length).map(|place| place as u8).collect();
        fs::write(place.path("bytes"), &bytes).expect("it can be written");
        let sum = place.run("sha256sum bytes").out;
        assert_eq!(sum.split(' ').next(), Some(sha256(&bytes).as_str()), "{length} bytes");
    }
}

#[test]
fn no_name_breaks_out_of_a_page() {
    let text = "cache line 16 sets 1 ways 1 start empty\nentry \u{5D0}$.x\n\u{5D0}$.x: read 0x00 -> \u{5D0}$.x\n";
    assert!(tree(&page(&made(text)))
        .named("b")
        .iter()
        .any(|bold| bold.text == "\u{5D0}$.x"));
    let mut known = made(text);
    known.file = "</title><script>alert('x')</script>&amp;\u{1}.txt".into();
    let page = page(&known);
    assert!(
        !page.contains("<script>") && page.contains("&lt;script&gt;alert('x')&lt;/script&gt;&amp;amp;\u{FFFD}.txt")
    );
}

#[test]
fn the_same_chart_gives_the_same_page() {
    assert_eq!(of_chart("winch-as-built.txt"), of_chart("winch-as-built.txt"));
}

/// What is claimed as proved, and as assumed.
fn claims(page: &str) -> &str {
    let (_, claims) = page.split_once("<section id=\"assured\">").expect("there are claims");
    claims.split_once("</section>").expect("they end").0
}

#[test]
fn nothing_is_claimed_of_what_there_is_not() {
    let without_solver = Place::new("page-claims");
    without_solver.run("PATH=/nowhere ./desk page charts/winch-facts.txt -o facts.html");
    let unsolved = fs::read_to_string(without_solver.path("facts.html")).expect("it is written");
    let [total, bound, verdict] = ["the low total", "the high bound", "the verdict on the deadline"];
    for (page, told, untold) in [
        (
            of_chart("winch-as-built.txt"),
            vec![total, verdict],
            vec![bound, "the facts"],
        ),
        (
            of_chart("winch-facts.txt"),
            vec![total, bound, "the facts"],
            vec![verdict],
        ),
        (unsolved, vec![total, verdict, "the facts"], vec![bound]),
        (of_chart("nested.txt"), vec![bound, "the facts"], vec![total, verdict]),
        (
            of_chart("loop.chart"),
            vec![],
            vec![total, bound, verdict, "visited", "cycle"],
        ),
    ] {
        let claims = claims(&page);
        assert!(told.iter().all(|claim| claims.contains(claim)), "{told:?}: {claims}");
        assert!(
            !untold.iter().any(|claim| claims.contains(claim)),
            "{untold:?}: {claims}"
        );
    }
    let crossed = text("desk-rust/tests/golden/texts/due-bounds-crossed.txt");
    let why = "No verdict on a deadline: whether the deadline is met cannot be told; no walk keeps all facts";
    assert!(page(&made(&crossed)).contains(why));
}

#[test]
fn the_text_has_a_checksum_of_its_own() {
    let place = Place::new("page-text");
    let sum = place.run("sha256sum charts/winch-facts.txt").out;
    let sum = sum.split(' ').next().expect("a sum");
    assert!(of_chart("winch-facts.txt").contains(sum) && !of_chart("winch-as-built.txt").contains(sum));
    assert!(of_chart("loop.chart").contains("<code>sha256sum FILE</code>"));
}

#[test]
fn costs_of_the_call_are_told() {
    let known = known(&fs::read(file("charts/winch-as-built.txt")).expect("it is there"));
    let findings = Findings::of(&known).unwrap_or_else(|trouble| panic!("{}", trouble.words()));
    let page = html(&findings, None, Some(1)).unwrap_or_else(|trouble| panic!("{}", trouble.words()));
    assert!(page.contains("<b>Costs were given at the call</b>, and go before those of the text: 1 for a miss."));
    assert!(page.contains("<strong>MET</strong>") && !of_chart("winch-as-built.txt").contains("given at the call"));
}

#[test]
fn a_picture_that_is_too_large_for_a_sheet_is_not_printed() {
    let small = page(&made(&chain(8)));
    let large = page(&made(&chain(200)));
    assert!(small.contains("<div class=\"picture\">") && !small.contains("too large for a sheet"));
    assert!(large.contains("<div class=\"picture large\">") && large.contains("too large for a sheet"));
}
