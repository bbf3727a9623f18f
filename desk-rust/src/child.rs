//! Waiting for a child process, and no longer than a while.

use std::process::Child;
use std::thread;
use std::time::{Duration, Instant};

/// Whether a child has succeeded, once it has ended; one that does not end until the last moment is ended.
pub fn ended(child: &mut Child, last: Instant) -> Option<bool> {
    loop {
        match child.try_wait() {
            Ok(Some(status)) => return Some(status.success()),
            Ok(None) if Instant::now() < last => thread::sleep(Duration::from_millis(1)),
            _ => {
                let _ = child.kill();
                let _ = child.wait();
                return None;
            }
        }
    }
}
