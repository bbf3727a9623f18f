//! Every command as it is called: golden/sessions/ has lines `$ ./desk ..`, each with what it writes, standard error after standard output, and
//! the exit status where that is not 0.

use crate::golden::{difference, folder, hold, names};
use crate::json::read;
use crate::place::Place;
use reports::each::each;
use std::fs;
use std::sync::Mutex;

/// The lines of a session that are run.
fn commands(session: &str) -> Vec<&str> {
    session.lines().filter_map(|line| line.strip_prefix("$ ")).collect()
}

/// A command with all that it writes, as a session has it.
fn shown(place: &Place, command: &str) -> String {
    let said = place.run(command);
    let status = match said.status {
        0 => String::new(),
        status => format!("(status {status})\n"),
    };
    for text in [&said.out, &said.err] {
        assert!(
            text.is_empty() || text.ends_with('\n'),
            "{command}: its last line is not ended"
        );
    }
    if command.contains("--json") && !command.contains('|') && !command.contains(" -- ") {
        read(&said.out);
    }
    format!("$ {command}\n{}{}{status}", said.out, said.err)
}

#[test]
fn each_session_goes_as_its_golden_file_has_it() {
    let folder = folder("sessions");
    let sessions = names(&folder, ".session");
    assert!(sessions.len() >= 10, "only {} sessions", sessions.len());
    let differences = Mutex::new(vec![]);
    each(&sessions, |name| {
        let file = folder.join(format!("{name}.session"));
        let session = fs::read_to_string(&file).expect("the session can be read");
        let place = Place::new(&format!("session-{name}"));
        let shown: Vec<String> = commands(&session)
            .iter()
            .map(|command| shown(&place, command))
            .collect();
        assert!(!shown.is_empty(), "{name} has no command");
        let difference = difference(&file, &shown.join("\n"));
        differences.lock().expect("no other thread failed").extend(difference);
    });
    hold(differences.into_inner().expect("no thread failed"));
}
