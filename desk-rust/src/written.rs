//! Where what a command makes goes: to a file, or to standard output.

use crate::answer::Answer;
use crate::args::Call;
use crate::input::STANDARD_INPUT;
use crate::json::Value;
use crate::known::Known;
use crate::run::Output;
use crate::trouble::Trouble;
use crate::words::counted;
use std::ffi::OsStr;
use std::fs;
use std::os::unix::fs::MetadataExt;

/// Writes a file, but not over the one that was read.
pub fn write(call: &Call, output: &OsStr, bytes: &[u8]) -> Result<(), Trouble> {
    let name = output.to_string_lossy();
    let source = match &call.words[0] {
        word if word == STANDARD_INPUT => OsStr::new("/dev/stdin"),
        word => word,
    };
    // by the file itself, whatever names it has
    let itself = |path: &OsStr| fs::metadata(path).map(|file| (file.dev(), file.ino())).ok();
    if itself(output).is_some_and(|output| itself(source) == Some(output)) {
        return Err(Trouble::Usage(format!(
            "{name} is what is read; give what is written another name"
        )));
    }
    fs::write(output, bytes).map_err(|error| Trouble::Files(format!("{name} cannot be written: {error}")))
}

/// Where something is to go that is no answer in words.
pub struct Goal<'a> {
    call: &'a Call,
    /// Standard output if there is none.
    file: Option<&'a OsStr>,
}

impl<'a> Goal<'a> {
    /// Where a call says that it is to go: what is made, and a call that says it.
    pub fn of(call: &'a Call, made: &str, example: &str) -> Result<Goal<'a>, Trouble> {
        let Some(output) = call.output.as_deref() else {
            return Err(Trouble::Usage(format!(
                "say where the {made} is to go, as in: ./desk {example}"
            )));
        };
        if output == STANDARD_INPUT {
            return Goal::standard_output(call, made, "-o -");
        }
        let file = Some(output);
        Ok(Goal { call, file })
    }

    /// Standard output, which a word of the call stands for.
    pub fn standard_output(call: &'a Call, made: &str, word: &str) -> Result<Goal<'a>, Trouble> {
        match call.json {
            true => Err(Trouble::Usage(format!(
                "--json and {word} both want standard output; name a file for the {made}"
            ))),
            false => Ok(Goal { call, file: None }),
        }
    }

    /// Brings it there. An answer says what was written, with more fields for scripts.
    pub fn reached(self, known: &Known, bytes: Vec<u8>, more: Vec<(&'static str, Value)>) -> Result<Output, Trouble> {
        let Some(file) = self.file else {
            return Ok(Output::Bytes(bytes));
        };
        write(self.call, file, &bytes)?;
        let (file, nodes) = (file.to_string_lossy(), known.nodes.len());
        let words = format!("{file}: {} bytes, {}\n", bytes.len(), counted(nodes, "node"));
        let fields = [
            ("file", known.file.as_str().into()),
            ("written", file.as_ref().into()),
            ("bytes", bytes.len().into()),
            ("nodes", nodes.into()),
        ];
        let json = Value::Object(fields.into_iter().chain(more).collect());
        Ok(Output::Answer(Answer::plain(&words, json)))
    }
}
