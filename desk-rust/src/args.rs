//! From the words of a call to what is asked.

use crate::expect::a_short_number;
use crate::lexer::{Kind, Line};
use crate::near::nearest;
use crate::trouble::Trouble;
use std::ffi::{OsStr, OsString};

#[derive(Clone, Copy, Debug, PartialEq, Eq)]
pub enum Command {
    Report,
    Totals,
    Deadline,
    Why,
    Draw,
    Page,
    Compare,
    Chart,
    Text,
    New,
    Refusal,
}

/// A command, its name, the least and the most words that it takes, and its options.
type Known = (Command, &'static str, [usize; 2], &'static [&'static str]);

pub const COMMANDS: [Known; 11] = [
    (Command::Report, "report", [1, 1], &[]),
    (Command::Totals, "totals", [1, 1], &["--hit", "--miss"]),
    (Command::Deadline, "deadline", [1, 1], &["--hit", "--miss"]),
    (Command::Why, "why", [2, 2], &[]),
    (Command::Draw, "draw", [1, 1], &["-o", "--dot"]),
    (Command::Page, "page", [1, 1], &["-o", "--hit", "--miss"]),
    (Command::Compare, "compare", [2, 2], &["--hit", "--miss"]),
    (Command::Chart, "chart", [1, 1], &["-o"]),
    (Command::Text, "text", [1, 1], &["-o"]),
    (Command::New, "new", [0, 0], &[]),
    (Command::Refusal, "refusal", [0, 1], &[]),
];

/// What is asked.
#[derive(Debug)]
pub enum Asked {
    /// Of one command, or of all.
    Help(Option<Command>),
    Version,
    Run(Call),
}

/// A command with its words and options.
#[derive(Debug)]
pub struct Call {
    pub command: Command,
    pub words: Vec<OsString>,
    pub json: bool,
    pub output: Option<OsString>,
    /// Whether the source of a picture is asked for, and not the picture.
    pub dot: bool,
    pub hit: Option<u16>,
    pub miss: Option<u16>,
}

/// Whether the answer is for a script, also where the call is wrong.
pub fn for_a_script(words: &[OsString]) -> bool {
    words
        .iter()
        .take_while(|word| *word != "--")
        .any(|word| word == "--json")
}

pub fn asked(words: Vec<OsString>) -> Result<Asked, Trouble> {
    let mut words = words.into_iter();
    let Some(first) = words.next() else {
        return Err(Trouble::Usage(
            "say what is to be done, as in: ./desk report charts/loop.txt; './desk --help' lists the commands".into(),
        ));
    };
    let name = first.to_string_lossy();
    match name.as_ref() {
        "--help" | "-h" => return Ok(Asked::Help(None)),
        "help" => {
            let of = words.next().map(|word| word.to_string_lossy().into_owned());
            return Ok(Asked::Help(of.and_then(|of| command(&of)).map(|command| command.0)));
        }
        "--version" | "-V" => return Ok(Asked::Version),
        _ => {}
    }
    let Some((command, _, [least, most], options)) = command(&name) else {
        return Err(no_command(&name));
    };
    let mut call = Call {
        command,
        words: vec![],
        json: false,
        output: None,
        dot: false,
        hit: None,
        miss: None,
    };
    let mut only_words = false;
    while let Some(word) = words.next() {
        let text = word.to_string_lossy().into_owned();
        if only_words || text == "-" || !text.starts_with('-') {
            call.words.push(word);
            continue;
        }
        let (option, joined) = match text.split_once('=') {
            Some((option, value)) => (option, Some(OsString::from(value))),
            None => (text.as_str(), None),
        };
        match option {
            "--" => only_words = true,
            "--help" | "-h" => return Ok(Asked::Help(Some(command))),
            "--json" => call.json = true,
            _ if !options.contains(&option) => return Err(no_option(&name, option, options)),
            "--dot" => call.dot = true,
            _ => {
                let value = joined.or_else(|| words.next());
                let value = value.ok_or_else(|| usage(&name, &format!("{option} has nothing behind it")))?;
                match option {
                    "-o" => call.output = Some(value),
                    "--hit" => call.hit = Some(cost(&name, option, &value)?),
                    _ => call.miss = Some(cost(&name, option, &value)?),
                }
            }
        }
    }
    let given = call.words.len();
    if given < least {
        let missing = match (given, command) {
            (0, _) => "name a file",
            (_, Command::Compare) => "name a second file",
            _ => "name a node",
        };
        return Err(usage(&name, missing));
    }
    if given > most {
        return Err(usage(
            &name,
            &format!("'{}' is one word too many", call.words[most].to_string_lossy()),
        ));
    }
    Ok(Asked::Run(call))
}

fn command(name: &str) -> Option<Known> {
    COMMANDS.into_iter().find(|command| command.1 == name)
}

/// What is wrong with a call of a command.
fn usage(name: &str, what: &str) -> Trouble {
    Trouble::Usage(format!("{what}; './desk {name} --help' says how to call it"))
}

fn no_command(name: &str) -> Trouble {
    let near = nearest(name, COMMANDS.map(|command| command.1));
    Trouble::Usage(match near {
        Some(near) => format!("there is no command '{name}'; is '{near}' meant? './desk --help' lists them"),
        None if std::path::Path::new(name).exists() => {
            format!(
                "say what is to be done with {name}, as in: ./desk report {name}; './desk --help' lists the commands"
            )
        }
        None => format!("there is no command '{name}'; './desk --help' lists them"),
    })
}

fn no_option(name: &str, option: &str, options: &[&str]) -> Trouble {
    let all = options.iter().copied().chain(["--json", "--help"]);
    usage(
        name,
        &match nearest(option, all) {
            Some(near) => format!("'{name}' has no option {option}, but {near}"),
            None => format!("'{name}' has no option {option}"),
        },
    )
}

fn cost(name: &str, option: &str, value: &OsStr) -> Result<u16, Trouble> {
    let text = value.to_string_lossy();
    let mut line = Line::new(&text, 0);
    let cost = a_short_number(&mut line, "")
        .ok()
        .filter(|_| line.peek().kind == Kind::End);
    cost.map(|cost| cost.value).ok_or_else(|| {
        usage(
            name,
            &format!("{option} is a number from 0 to {}, and not '{text}'", u16::MAX),
        )
    })
}
