//! A limit that holds even if a call into the archive never comes back.

use std::collections::HashMap;
use std::io::{stderr, Write};
use std::process::exit;
use std::sync::{Arc, Condvar, Mutex};
use std::thread::{self, ThreadId};
use std::time::Instant;

/// The chart that each thread has under way, by a number, and whether all is done.
#[derive(Default)]
struct Under {
    charts: HashMap<ThreadId, u64>,
    ended: bool,
}

/// Ends the process with a failure at some time, unless it is ended itself before.
pub struct Watch(Arc<(Mutex<Under>, Condvar)>);

impl Watch {
    pub fn until(last: Instant, name: String) -> Watch {
        let shared = Arc::new((Mutex::new(Under::default()), Condvar::new()));
        let watch = Watch(shared.clone());
        thread::spawn(move || {
            let (under, changed) = &*shared;
            let left = last.saturating_duration_since(Instant::now());
            let lock = under.lock().expect("no panic");
            let (under, _) = changed
                .wait_timeout_while(lock, left, |under| !under.ended)
                .expect("no panic");
            if !under.ended {
                let charts = under.charts.values();
                // not by eprintln, which the harness keeps back
                let _ = writeln!(stderr(), "{name}: the time is over, and under way are {charts:?}");
                exit(1);
            }
        });
        watch
    }

    /// Says which chart this thread takes up.
    pub fn now(&self, chart: u64) {
        let (under, _) = &*self.0;
        under
            .lock()
            .expect("no panic")
            .charts
            .insert(thread::current().id(), chart);
    }

    pub fn end(self) {
        let (under, changed) = &*self.0;
        under.lock().expect("no panic").ended = true;
        changed.notify_all();
    }
}
