//! How far a long run has come, on stderr: in place on a terminal, else a line now and then.

use std::io::{self, IsTerminal};
use std::sync::atomic::{AtomicU64, Ordering};
use std::sync::mpsc::{self, RecvTimeoutError};
use std::thread;
use std::time::{Duration, Instant};

const ON_A_TERMINAL: Duration = Duration::from_millis(500);
const ELSEWHERE: Duration = Duration::from_secs(10);

pub struct Progress {
    total: u64,
    done: AtomicU64,
}

impl Progress {
    #[must_use]
    pub fn new(total: u64) -> Progress {
        Progress { total, done: AtomicU64::new(0) }
    }

    pub fn add(&self, done: u64) {
        self.done.fetch_add(done, Ordering::Relaxed);
    }

    /// Does the work, and shows meanwhile how far it has come.
    pub fn shown<T>(&self, work: impl FnOnce() -> T) -> T {
        let (working, finished) = mpsc::channel::<()>();
        let terminal = io::stderr().is_terminal();
        let every = if terminal { ON_A_TERMINAL } else { ELSEWHERE };
        let started = Instant::now();
        let show = move || {
            while finished.recv_timeout(every) == Err(RecvTimeoutError::Timeout) {
                let line = line(self.done.load(Ordering::Relaxed), self.total, started.elapsed());
                if terminal {
                    eprint!("\r{line}\x1b[K");
                } else {
                    eprintln!("{line}");
                }
            }
            if terminal {
                eprint!("\r\x1b[K");
            }
        };
        thread::scope(|scope| {
            scope.spawn(show);
            let result = work();
            drop(working);
            result
        })
    }
}

/// `75,000,000 of 300,000,000, 25.0 %, 750,000 per second, 5 min 0 s left`.
#[must_use]
pub fn line(done: u64, total: u64, elapsed: Duration) -> String {
    let percent = if total == 0 { 100.0 } else { done as f64 * 100.0 / total as f64 };
    let rate = done as f64 / elapsed.as_secs_f64().max(1e-9);
    let left = match total.saturating_sub(done) {
        0 => String::from("0 s"),
        _ if done == 0 => String::from("unknown time"),
        rest => span(Duration::from_secs_f64(rest as f64 / rate)),
    };
    let (done, total, rate) = (grouped(done), grouped(total), grouped(rate as u64));
    format!("{done} of {total}, {percent:.1} %, {rate} per second, {left} left")
}

/// `1 h 2 min`, `5 min 0 s` or `59 s`.
#[must_use]
pub fn span(time: Duration) -> String {
    let seconds = time.as_secs();
    match (seconds / 3600, seconds / 60 % 60, seconds % 60) {
        (0, 0, seconds) => format!("{seconds} s"),
        (0, minutes, seconds) => format!("{minutes} min {seconds} s"),
        (hours, minutes, _) => format!("{hours} h {minutes} min"),
    }
}

/// With a comma before every three digits.
#[must_use]
pub fn grouped(number: u64) -> String {
    let digits = number.to_string();
    let mut text = String::new();
    for (place, digit) in digits.char_indices() {
        if place > 0 && (digits.len() - place).is_multiple_of(3) {
            text.push(',');
        }
        text.push(digit);
    }
    text
}

#[cfg(test)]
mod tests {
    use super::{grouped, line, span, Progress};
    use std::time::Duration;

    #[test]
    fn a_line_has_count_share_rate_and_rest() {
        let text = line(75_000_000, 300_000_000, Duration::from_secs(100));
        let expected = "75,000,000 of 300,000,000, 25.0 %, 750,000 per second, 5 min 0 s left";
        assert_eq!(text, expected);
    }

    #[test]
    fn a_line_at_both_ends() {
        let second = Duration::from_secs(1);
        assert_eq!(line(0, 10, second), "0 of 10, 0.0 %, 0 per second, unknown time left");
        assert_eq!(line(10, 10, second), "10 of 10, 100.0 %, 10 per second, 0 s left");
        assert_eq!(line(0, 0, Duration::ZERO), "0 of 0, 100.0 %, 0 per second, 0 s left");
    }

    #[test]
    fn times_and_numbers() {
        let spans = [59, 60, 3599, 3600, 7325].map(|s| span(Duration::from_secs(s)));
        assert_eq!(spans, ["59 s", "1 min 0 s", "59 min 59 s", "1 h 0 min", "2 h 2 min"]);
        let numbers = [0, 999, 1000, 123_456, 1_234_567].map(grouped);
        assert_eq!(numbers, ["0", "999", "1,000", "123,456", "1,234,567"]);
    }

    #[test]
    fn the_work_is_done_and_its_result_given_back() {
        let progress = Progress::new(3);
        let result = progress.shown(|| {
            progress.add(3);
            7
        });
        assert_eq!((result, progress.done.into_inner()), (7, 3));
    }
}
