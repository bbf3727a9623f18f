//! What the pages show of the desk is what it writes: each line `$ ./desk ..` in a block of a page is run, and what stands under it, up to
//! the next `$` or the end of the block, is held to what comes. A line `..` there stands for lines that are left out.

use crate::place::Place;
use reports::tree::{files, text};

/// A line of shell that a page shows, and the lines under it.
#[derive(Debug, PartialEq)]
struct Shown {
    command: String,
    lines: Vec<String>,
}

/// The blocks of code of a page, set in or between fences, without what they are set in by.
fn blocks(page: &str) -> Vec<Vec<&str>> {
    let mut blocks: Vec<Vec<&str>> = vec![];
    let (mut fenced, mut inside, mut margin) = (false, false, 0);
    for line in page.lines() {
        let set_in = line.len() - line.trim_start().len();
        if line.trim_start().starts_with("```") {
            fenced = !fenced;
            inside = false;
        } else if line.trim().is_empty() && inside {
            blocks.last_mut().expect("a block is open").push("");
        } else if fenced || set_in >= 4 {
            if !inside {
                blocks.push(vec![]);
                margin = if fenced { 0 } else { set_in };
            }
            inside = true;
            blocks
                .last_mut()
                .expect("a block is open")
                .push(&line[margin.min(set_in)..]);
        } else {
            inside = false;
        }
    }
    blocks
}

/// What a block shows. A command that is handed lines, up to one that its `<<` names, has them with it.
fn shown(block: &[&str]) -> Vec<Shown> {
    let mut shown: Vec<Shown> = vec![];
    let mut until = None;
    for line in block {
        if let (Some(end), Some(last)) = (&until, shown.last_mut()) {
            last.command += &format!("\n{line}");
            if line == end {
                until = None;
            }
        } else if let Some(command) = line.strip_prefix("$ ") {
            until = command
                .split_once("<<")
                .map(|(_, end)| end.trim_matches('\'').to_string());
            shown.push(Shown {
                command: command.to_string(),
                lines: vec![],
            });
        } else if let Some(last) = shown.last_mut() {
            last.lines.push(line.trim_end().to_string());
        }
    }
    for each in &mut shown {
        while each.lines.last().is_some_and(String::is_empty) {
            each.lines.pop();
        }
    }
    shown
}

/// Whether a page's lines are all that was written, but for those that it leaves out.
fn tells(lines: &[String], written: &[&str]) -> bool {
    match lines.split_first() {
        None => written.is_empty(),
        Some((first, rest)) if first == ".." => (0..=written.len()).any(|from| tells(rest, &written[from..])),
        Some((first, rest)) => written.first() == Some(&first.as_str()) && tells(rest, &written[1..]),
    }
}

#[test]
fn blocks_and_what_they_show_are_read() {
    let page = "words\n\n    $ ./desk a\n    b\n\n      c\n    $ cat > x <<'END'\n    $ y\n    END\n\nwords\n```sh\n$ ./desk d\n..\ne\n```\n";
    let of = |command: &str, lines: &[&str]| Shown {
        command: command.into(),
        lines: lines.iter().map(|line| line.to_string()).collect(),
    };
    let all: Vec<Shown> = blocks(page).iter().flat_map(|block| shown(block)).collect();
    let expected = [
        of("./desk a", &["b", "", "  c"]),
        of("cat > x <<'END'\n$ y\nEND", &[]),
        of("./desk d", &["..", "e"]),
    ];
    assert_eq!(all, expected);
    assert!(tells(&all[2].lines, &["x", "y", "e"]) && tells(&all[2].lines, &["e"]));
    assert!(!tells(&all[2].lines, &["e", "x"]) && !tells(&all[0].lines, &["b", ""]) && !tells(&[], &["b"]));
}

#[test]
fn what_the_pages_show_of_the_desk_is_what_it_writes() {
    let pages = ["README.md", "charts/README.md"]
        .map(String::from)
        .into_iter()
        .chain(files("docs"));
    let (mut run, mut differences) = (0, vec![]);
    for page in pages.filter(|page| page.ends_with(".md") && !page.starts_with("docs/landings/")) {
        let place = Place::new(&format!("page-{}", page.replace('/', "-")));
        for Shown { command, lines } in blocks(&text(&page)).iter().flat_map(|block| shown(block)) {
            if command.contains("./desk") || command.starts_with("cat docs/") {
                let said = place.run(&command);
                let written = format!("{}{}", said.out, said.err);
                let written: Vec<&str> = written.lines().map(str::trim_end).collect();
                run += 1;
                if !tells(&lines, &written) {
                    differences.push(format!("{page}: $ {command}\n{}", written.join("\n")));
                }
            } else if command.contains(" > ") && !command.contains("./report") {
                // it makes what a later one reads
                place.run(&command);
            }
        }
    }
    assert!(
        differences.is_empty(),
        "these pages do not show what is written:\n{}",
        differences.join("\n\n")
    );
    assert!(run >= 5, "only {run} calls of the desk are shown");
}
