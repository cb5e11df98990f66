use crate::usage::{quoted, Usage};
use std::ffi::OsStr;
use std::io::{self, BufRead, BufReader, Read};

/// The most bytes of a line, its end among them. A question has some 60, a pair of dates 22.
const LONGEST: u64 = 65_536;

/// How much is read at a time.
const BUFFER: usize = 65_536;

const BYTE_ORDER_MARK: &[u8] = b"\xef\xbb\xbf";

/// A line without its end.
#[derive(Clone, Copy, Debug, PartialEq, Eq)]
pub struct Line<'a> {
    /// From 1.
    pub number: u64,
    pub text: &'a [u8],
    /// Whether the text is only the beginning of a line that is too long.
    pub cut: bool,
}

impl<'a> Line<'a> {
    /// Whether it is blank or a comment. Behind the blanks of a line that is too long something may
    /// follow.
    pub fn is_passed_over(&self) -> bool {
        match self.text.iter().find(|byte| !matches!(byte, b' ' | b'\t')) {
            Some(first) => *first == b'#',
            None => !self.cut,
        }
    }

    /// The text, or why there is none.
    pub fn read(&self) -> Result<&'a str, Usage> {
        if self.cut {
            return Err(Usage::new(format!("erwartet weniger als {LONGEST} Bytes")));
        }
        str::from_utf8(self.text).map_err(|_| {
            let shown = String::from_utf8_lossy(self.text);
            Usage::new(format!("erwartet Text in UTF-8, nicht {}", quoted(OsStr::new(&*shown))))
        })
    }
}

/// The lines of an input. One ends with a line feed, before which a carriage return may stand, or
/// with the input; before the first a byte order mark may stand.
#[derive(Debug)]
pub struct Lines<R> {
    bytes: BufReader<R>,
    line: Vec<u8>,
    number: u64,
    done: u64,
    ended: bool,
}

impl<R: Read> Lines<R> {
    pub fn new(input: R) -> Lines<R> {
        let bytes = BufReader::with_capacity(BUFFER, input);
        Lines { bytes, line: Vec::new(), number: 0, done: 0, ended: false }
    }

    /// The next line, or none at the end. No more of a line is kept than may be of one.
    pub fn next(&mut self) -> io::Result<Option<Line<'_>>> {
        self.line.clear();
        // Who types and ends the input in a line would have to end it once more.
        if self.ended {
            return Ok(None);
        }
        self.done += (&mut self.bytes).take(LONGEST).read_until(b'\n', &mut self.line)? as u64;
        let whole = self.line.last() == Some(&b'\n');
        let cut = !whole && self.line.len() as u64 == LONGEST;
        if cut {
            self.done += self.bytes.skip_until(b'\n')? as u64;
        }
        self.ended = !whole && !cut;
        if self.line.is_empty() {
            return Ok(None);
        }
        self.number += 1;
        let text = self.line.strip_suffix(b"\n").unwrap_or(&self.line);
        let text = text.strip_suffix(b"\r").unwrap_or(text);
        let marked = text.strip_prefix(BYTE_ORDER_MARK).filter(|_| self.number == 1);
        Ok(Some(Line { number: self.number, text: marked.unwrap_or(text), cut }))
    }

    /// Whether the next line may have to be waited for.
    pub fn must_wait(&self) -> bool {
        !self.bytes.buffer().contains(&b'\n')
    }

    /// How many bytes the lines so far had.
    pub fn done(&self) -> u64 {
        self.done
    }

    pub fn input(&self) -> &R {
        self.bytes.get_ref()
    }
}

#[cfg(test)]
mod tests {
    use super::*;

    /// The lines by number, text and whether they are cut.
    fn lines(input: &[u8]) -> Vec<(u64, Vec<u8>, bool)> {
        let mut lines = Lines::new(input);
        let mut all = Vec::new();
        while let Some(line) = lines.next().expect("a slice is read") {
            all.push((line.number, line.text.to_vec(), line.cut));
        }
        assert_eq!(lines.done(), input.len() as u64);
        assert!(lines.must_wait());
        all
    }

    fn texts(input: &[u8]) -> Vec<Vec<u8>> {
        lines(input).into_iter().map(|(_, text, _)| text).collect()
    }

    #[test]
    fn a_line_ends_with_its_end_or_with_the_input() {
        assert_eq!(lines(b""), []);
        assert_eq!(texts(b"\n"), [b""]);
        assert_eq!(texts(b"a\r\nb\n\r\n\rc\r\r\nd"), [&b"a"[..], b"b", b"", b"\rc\r", b"d"]);
        assert_eq!(texts(b"a\r"), [b"a"]);
        assert_eq!(lines(b"\n\na")[2], (3, b"a".to_vec(), false));
    }

    #[test]
    fn a_byte_order_mark_is_one_at_the_beginning_only() {
        assert_eq!(texts(b"\xef\xbb\xbfa\n\xef\xbb\xbfb"), [&b"a"[..], b"\xef\xbb\xbfb"]);
        assert_eq!(texts(b"\xef\xbb\xbf"), [b""]);
        assert_eq!(texts(b"\xef\xbba"), [b"\xef\xbba"]);
    }

    #[test]
    fn a_line_that_is_too_long_is_cut_and_the_next_is_not() {
        let longest = LONGEST as usize;
        for (len, cut) in [(longest - 1, false), (longest, true), (3 * longest, true)] {
            let input = [vec![b'x'; len], b"\nb\n".to_vec()].concat();
            let found = lines(&input);
            assert_eq!((found[0].1.len(), found[0].2), (len.min(longest), cut));
            assert_eq!(found[1..], [(2, b"b".to_vec(), false)]);
        }
    }

    /// A sender that gives one byte at a time, and an error at last.
    struct Slow<'a>(&'a [u8]);

    impl Read for Slow<'_> {
        fn read(&mut self, buffer: &mut [u8]) -> io::Result<usize> {
            let (first, rest) = self.0.split_first().ok_or(io::ErrorKind::TimedOut)?;
            self.0 = rest;
            buffer[0] = *first;
            Ok(1)
        }
    }

    #[test]
    fn lines_come_in_pieces_until_one_fails() {
        let mut lines = Lines::new(Slow(b"ab\r\nc\nd"));
        for text in [&b"ab"[..], b"c"] {
            let line = lines.next().expect("it is read").expect("a line");
            assert_eq!((line.text, line.cut), (text, false));
            assert!(lines.must_wait());
        }
        assert_eq!(lines.next().map_err(|error| error.kind()), Err(io::ErrorKind::TimedOut));
    }
}
