//! The logical lines of a text.

use std::ffi::{c_int, c_void};

unsafe extern "C" {
    fn memchr(text: *const c_void, byte: c_int, count: usize) -> *const c_void;
}

/// Where a byte stands in a text. The search is that of the C library.
pub fn find(text: &[u8], byte: u8) -> Option<usize> {
    // SAFETY: the pointer and the count are those of one slice.
    let found = unsafe { memchr(text.as_ptr().cast(), byte.into(), text.len()) };
    (!found.is_null()).then(|| found as usize - text.as_ptr() as usize)
}

/// The offset behind the line feed of a physical line, or the length of the text.
pub fn line_end(text: &[u8], start: usize) -> usize {
    find(&text[start..], b'\n').map_or(text.len(), |it| start + it + 1)
}

/// Whether a physical line goes on below.
pub fn is_continued(line: &[u8]) -> bool {
    let Some(line) = line.strip_suffix(b"\n") else {
        return false;
    };
    let line = line.strip_suffix(b"\r").unwrap_or(line);
    line.iter().rev().take_while(|it| **it == b'\\').count() % 2 == 1
}

/// Where a logical line stands in the text, and whether it has folds.
pub struct Found {
    pub start: usize,
    pub end: usize,
    pub has_folds: bool,
}

/// The logical lines of a text.
pub struct Lines<'a> {
    pub text: &'a [u8],
    pub at: usize,
}

impl Iterator for Lines<'_> {
    type Item = Found;

    fn next(&mut self) -> Option<Found> {
        let (start, mut last) = (self.at, self.at);
        while self.at < self.text.len() {
            last = self.at;
            self.at = line_end(self.text, last);
            if !is_continued(&self.text[last..self.at]) {
                break;
            }
        }
        (start < self.at).then_some(Found { start, end: self.at, has_folds: start < last })
    }
}
