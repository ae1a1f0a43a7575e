//! A line on standard error that says how far the work is, where that is a terminal and the
//! work takes longer than a second.

use std::io::{self, IsTerminal, Write};
use std::sync::{Arc, Mutex};
use std::thread::{self, JoinHandle};
use std::time::{Duration, Instant};

const BEFORE: Duration = Duration::from_secs(1);
const BETWEEN: Duration = Duration::from_millis(200);

/// What is said; nothing once the work is done.
type Said = Arc<Mutex<Option<String>>>;

pub struct Progress {
    said: Said,
    shower: Option<JoinHandle<()>>,
}

impl Progress {
    pub fn start() -> Progress {
        let said = Said::new(Mutex::new(Some(String::new())));
        let shared = Arc::clone(&said);
        let shown = io::stderr().is_terminal();
        Progress { said, shower: shown.then(|| thread::spawn(move || show(&shared))) }
    }

    pub fn say(&self, words: impl FnOnce() -> String) {
        if self.shower.is_some() {
            self.set(Some(words()));
        }
    }

    fn set(&self, words: Option<String>) {
        *self.said.lock().expect("nobody fails while it is held") = words;
    }
}

impl Drop for Progress {
    fn drop(&mut self) {
        self.set(None);
        if let Some(shower) = self.shower.take() {
            shower.thread().unpark();
            let _ = shower.join();
        }
    }
}

/// Shows what is said until there is no more of it, and leaves an empty line.
fn show(said: &Said) {
    let start = Instant::now();
    loop {
        thread::park_timeout(BETWEEN);
        let words = said.lock().expect("nobody fails while it is held").clone();
        let late = start.elapsed() >= BEFORE;
        if late {
            let _ = write!(io::stderr(), "\r{}\x1b[K", words.as_deref().unwrap_or(""));
        }
        if words.is_none() {
            return;
        }
    }
}
