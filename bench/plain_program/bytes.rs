//! Blanks, references, words, hashes and numbers.

use crate::lines::find;

pub fn is_blank(byte: u8) -> bool {
    byte == b' ' || byte == b'\t'
}

/// The offset of the next byte that is no blank, or the length of the text.
pub fn after_blanks(text: &[u8], at: usize) -> usize {
    at + text[at..].iter().take_while(|it| is_blank(**it)).count()
}

/// The length of a text without the blanks at its end.
pub fn trimmed(text: &[u8]) -> usize {
    text.len() - text.iter().rev().take_while(|it| is_blank(**it)).count()
}

/// The offset behind a reference, which begins at the `$` at this offset.
pub fn after_reference(text: &[u8], at: usize) -> usize {
    let (open, close) = match text.get(at + 1) {
        Some(b'(') => (b'(', b')'),
        Some(b'{') => (b'{', b'}'),
        _ => return text.len().min(at + 2),
    };
    let mut depth = 1;
    let mut at = at + 2;
    while at < text.len() && depth > 0 {
        depth += (text[at] == open) as usize;
        depth -= (text[at] == close) as usize;
        at += 1;
    }
    at
}

/// The words of a part of a text, each with its offset. A blank in a reference ends none. In a tidy
/// part no reference stands and no blank but the space, so the next space ends a word.
pub struct Words<'a> {
    text: &'a [u8],
    at: usize,
    is_tidy: bool,
}

pub fn words(text: &[u8], start: usize, end: usize) -> Words<'_> {
    Words { text: &text[..end], at: start, is_tidy: false }
}

pub fn words_of_part(text: &[u8], start: usize, end: usize, is_tidy: bool) -> Words<'_> {
    Words { text: &text[..end], at: start, is_tidy }
}

impl<'a> Iterator for Words<'a> {
    type Item = (usize, &'a [u8]);

    fn next(&mut self) -> Option<(usize, &'a [u8])> {
        let start = after_blanks(self.text, self.at);
        let mut at = start;
        if self.is_tidy {
            at = find(&self.text[start..], b' ').map_or(self.text.len(), |it| start + it);
        }
        while at < self.text.len() && !is_blank(self.text[at]) {
            at = if self.text[at] == b'$' { after_reference(self.text, at) } else { at + 1 };
        }
        self.at = at;
        (start < at).then(|| (start, &self.text[start..at]))
    }
}

pub fn hash(name: &[u8]) -> u32 {
    let mut hash = name.len() as u64;
    let mut parts = name.chunks_exact(8);
    for part in &mut parts {
        hash = mixed(hash, u64::from_le_bytes(part.try_into().unwrap()));
    }
    let mut last = [0; 8];
    last[..parts.remainder().len()].copy_from_slice(parts.remainder());
    (mixed(hash, u64::from_le_bytes(last)) >> 32) as u32
}

fn mixed(hash: u64, part: u64) -> u64 {
    (hash.rotate_left(5) ^ part).wrapping_mul(0x517c_c1b7_2722_0a95)
}

/// The digits of a number.
pub struct Digits {
    all: [u8; 20],
    first: usize,
}

impl Digits {
    pub fn of(mut number: usize) -> Digits {
        let mut digits = Digits { all: [0; 20], first: 20 };
        loop {
            digits.first -= 1;
            digits.all[digits.first] = b'0' + (number % 10) as u8;
            number /= 10;
            if number == 0 {
                return digits;
            }
        }
    }

    pub fn as_bytes(&self) -> &[u8] {
        &self.all[self.first..]
    }
}
