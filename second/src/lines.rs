//! Lines out of input of any length, each held no further than is needed to judge it.

use std::io::{self, BufRead};

pub const LONGEST_LINE: usize = 2048;

/// A line as it was read: its octets without LF and without one CR before that LF.
pub struct Line {
    pub number: u64,
    pub octets: Vec<u8>,
    keep: usize,
    dropped: bool,
}

impl Line {
    /// Keeps lines up to `longest` octets whole. Of longer ones only the first octets are kept.
    pub fn new(longest: usize) -> Line {
        // One more for the CR that is not counted.
        let keep = longest.saturating_add(1);
        Line { number: 0, octets: Vec::new(), keep, dropped: false }
    }

    pub fn is_too_long(&self) -> bool {
        self.dropped || self.octets.len() >= self.keep
    }

    /// Reads the next line and says whether there was one.
    pub fn next(&mut self, input: &mut impl BufRead) -> io::Result<bool> {
        self.octets.clear();
        self.dropped = false;
        self.number += 1;
        let mut any = false;
        loop {
            let ready = input.fill_buf()?;
            if ready.is_empty() {
                return Ok(any);
            }
            any = true;
            let end = ready.iter().position(|octet| *octet == b'\n');
            self.append(&ready[..end.unwrap_or(ready.len())]);
            let used = end.map_or(ready.len(), |at| at + 1);
            input.consume(used);
            if end.is_some() {
                self.drop_one_cr();
                return Ok(true);
            }
        }
    }

    fn append(&mut self, octets: &[u8]) {
        let room = self.keep - self.octets.len();
        self.octets.extend_from_slice(&octets[..octets.len().min(room)]);
        self.dropped |= octets.len() > room;
    }

    fn drop_one_cr(&mut self) {
        if !self.dropped && self.octets.last() == Some(&b'\r') {
            self.octets.pop();
        }
    }
}

#[cfg(test)]
mod tests {
    use super::*;
    use std::io::BufReader;

    /// Every line, and whether it is too long, read through a buffer of `size` octets.
    fn all(input: &[u8], size: usize) -> Vec<(Vec<u8>, bool)> {
        let mut reader = BufReader::with_capacity(size, input);
        let mut line = Line::new(4);
        let mut found = Vec::new();
        while line.next(&mut reader).unwrap() {
            found.push((line.octets.clone(), line.is_too_long()));
        }
        found
    }

    #[test]
    fn lines_are_the_same_whatever_the_buffer() {
        let input = b"\n\r\nab\r\nabcd\r\nabcd\nabcde\r\nabcde\n\r\r\nabcdef\r\nab\r";
        let expected: Vec<(&[u8], bool)> = vec![
            (b"", false),
            (b"", false),
            (b"ab", false),
            (b"abcd", false),
            (b"abcd", false),
            (b"abcde", true),
            (b"abcde", true),
            (b"\r", false),
            (b"abcde", true),
            (b"ab\r", false),
        ];
        let expected: Vec<_> = expected.into_iter().map(|(l, b)| (l.to_vec(), b)).collect();
        for size in 1..40 {
            assert_eq!(all(input, size), expected, "buffer of {size}");
        }
    }
}
