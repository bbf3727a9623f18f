//! Help: each command has its own, with an example that works; and how long an answer takes.

use crate::place::Place;
use crate::running::{desk, said};
use desk::args::COMMANDS;
use desk::help::help;
use reports::program::file;
use std::time::{Duration, Instant};

#[test]
fn each_command_has_help_with_an_example_that_works() {
    let place = Place::new("help");
    for (command, name, _, options) in COMMANDS {
        let help = help(Some(command));
        let call = format!("./desk {name}");
        assert!(help.starts_with(&call) && help.contains("[--json]"), "{help}");
        assert!(options.iter().all(|option| help.contains(option)), "{help}");
        let examples: Vec<&str> = help
            .lines()
            .filter_map(|line| line.strip_prefix("    ./desk "))
            .collect();
        assert!(!examples.is_empty(), "{help}");
        for example in examples {
            let said = place.run(&format!("./desk {example}"));
            assert_eq!((said.status, said.err.as_str()), (0, ""), "./desk {example}");
        }
        assert!(desk::help::help(None).contains(&call), "{name} is listed");
    }
}

/// The quickest of some: the machine may have other things to do.
#[test]
fn a_report_takes_far_less_than_50_ms() {
    let taken = (0..20).map(|_| {
        let begin = Instant::now();
        assert_eq!(
            said(desk(&file(""), &["report", "charts/winch-as-built.txt"]), b"").status,
            0
        );
        begin.elapsed()
    });
    let quickest = taken.min().expect("there are some");
    assert!(quickest < Duration::from_millis(25), "{quickest:?}");
}
