use crate::program;
use std::env;
use std::ffi::OsStr;
use std::io::{self, IsTerminal, Write};
use std::time::{Duration, Instant};

/// What takes less time shows nothing.
const NOTICEABLE: Duration = Duration::from_secs(1);
const PAUSE: Duration = Duration::from_millis(200);

/// Empties the line in which the cursor stands.
const CLEAR: &str = "\r\x1b[K";

/// How far a long run has come, on the last line of a terminal.
#[derive(Debug)]
pub struct Progress {
    on: bool,
    /// As in '3 … ...'.
    what: &'static str,
    /// When it is shown next.
    due: Instant,
    shown: bool,
}

impl Progress {
    /// On the standard error, if that is a terminal that can go back in its line. Where the answers
    /// go to one, they are their own progress, and what is `typed` there should stay readable.
    pub fn new(typed: bool, what: &'static str) -> Progress {
        let terminal = io::stderr().is_terminal() && !is_dumb(env::var_os("TERM").as_deref());
        let on = terminal && !io::stdout().is_terminal() && !typed;
        Progress { on, what, due: Instant::now() + NOTICEABLE, shown: false }
    }

    /// How many are answered, and how much of the input that is.
    pub fn show(&mut self, answered: u64, done: u64, of: Option<u64>) {
        if !self.on || Instant::now() < self.due {
            return;
        }
        let percent = of.and_then(|of| done.saturating_mul(100).checked_div(of));
        let share = percent.map_or(String::new(), |percent| format!(" ({percent} %)"));
        put(&format!("{CLEAR}{}: {answered} {}{share} ...", program::name(), self.what));
        self.due = Instant::now() + PAUSE;
        self.shown = true;
    }

    /// Before something else is written, and at the end.
    pub fn clear(&mut self) {
        if self.shown {
            put(CLEAR);
        }
        self.shown = false;
    }
}

impl Drop for Progress {
    fn drop(&mut self) {
        self.clear();
    }
}

/// Whether a terminal of this kind only shows one character behind the other.
pub fn is_dumb(kind: Option<&OsStr>) -> bool {
    kind.is_none_or(|kind| kind == "dumb")
}

/// Whether it can be written is no matter: nothing depends on it.
fn put(text: &str) {
    let _ = io::stderr().lock().write_all(text.as_bytes());
}
