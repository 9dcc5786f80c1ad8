//! What a line is, and where its parts stand: offsets in the line as it stands, with its folds.

use crate::bytes::{after_reference, is_blank, trimmed};
use std::ops::Range;

pub enum Class {
    Assign {
        name: Range<usize>,
        operator_end: usize,
    },
    Rule {
        targets: Range<usize>,
        separator_end: usize,
    },
    Recipe,
    /// A blank line or a comment.
    Between,
    Other,
}

/// Whether a backslash and a line feed stand here.
fn is_fold(line: &[u8], at: usize) -> bool {
    line[at..].starts_with(b"\\\n")
}

/// The offset of the next byte that is no blank and no fold.
pub fn after_blanks(line: &[u8], mut at: usize) -> usize {
    while at < line.len() {
        match line[at] {
            b' ' | b'\t' => at += 1,
            b'\\' if is_fold(line, at) => at += 2,
            _ => break,
        }
    }
    at
}

/// The offset behind the unit that begins here: a reference, a backslash with its byte, or a byte.
fn after_unit(line: &[u8], at: usize) -> usize {
    match line[at] {
        b'$' => after_reference(line, at),
        b'\\' => line.len().min(at + 2),
        _ => at + 1,
    }
}

pub fn class_of(line: &[u8]) -> Class {
    if line[0] == b'\t' {
        return Class::Recipe;
    }
    let start = after_blanks(line, 0);
    let mut at = start;
    while at < line.len() {
        match line[at] {
            b'=' => {
                let is_long = at > start && matches!(line[at - 1], b'+' | b'?' | b'!');
                return assign(line, start, at - is_long as usize, at + 1);
            }
            b':' => {
                let colons = line[at..].iter().take_while(|it| **it == b':').count();
                return match line.get(at + colons) {
                    Some(b'=') => assign(line, start, at, at + colons + 1),
                    _ => Class::Rule { targets: start..at, separator_end: at + colons.min(2) },
                };
            }
            b'#' | b';' | b'\n' => break,
            b'$' | b'\\' => at = after_unit(line, at),
            _ => at += 1,
        }
    }
    if at == start && line.get(at) != Some(&b';') { Class::Between } else { Class::Other }
}

/// An assignment whose operator stands here. Its name is the last word before that.
fn assign(line: &[u8], start: usize, operator: usize, operator_end: usize) -> Class {
    let end = trimmed(&line[..operator]);
    let name = line[start..end].iter().rposition(|it| is_blank(*it)).map_or(start, |it| start + it + 1);
    Class::Assign { name: name..end, operator_end }
}

/// Where the value of an assignment stands. An empty one stands before the comment or the line end.
pub fn value_of(line: &[u8], operator_end: usize) -> Range<usize> {
    let start = after_blanks(line, operator_end);
    let (mut at, mut end) = (start, start);
    while at < line.len() && !matches!(line[at], b'#' | b'\n') {
        let next = if is_fold(line, at) { after_blanks(line, at) } else { after_unit(line, at) };
        let is_gap = is_blank(line[at]) || is_fold(line, at);
        (at, end) = (next, if is_gap { end } else { next });
    }
    if start < end { start..end } else { at..at }
}

/// Where the words from here to the comment or the line end stand.
pub fn words(line: &[u8], from: usize) -> impl Iterator<Item = Range<usize>> {
    let mut at = from;
    std::iter::from_fn(move || {
        let ends_word = |at| matches!(line[at], b' ' | b'\t' | b'\n' | b'#' | b';') || is_fold(line, at);
        let start = after_blanks(line, at);
        at = start;
        while at < line.len() && !ends_word(at) {
            at = after_unit(line, at);
        }
        (start < at).then_some(start..at)
    })
}

/// The words of a rule, the separator not among them: where its targets and its prerequisites stand.
pub fn words_of_rule(line: &[u8]) -> impl Iterator<Item = Range<usize>> {
    let (targets, from) = match class_of(line) {
        Class::Rule { targets, separator_end } => (targets, separator_end),
        _ => (0..0, line.len()),
    };
    words(&line[..targets.end], targets.start).chain(words(line, from))
}

/// Where a word stands with the blanks and folds before it.
pub fn with_gap(line: &[u8], word: Range<usize>) -> Range<usize> {
    let mut start = trimmed(&line[..word.start]);
    while line[..start].ends_with(b"\\\n") {
        start = trimmed(&line[..start - 2]);
    }
    start..word.end
}
