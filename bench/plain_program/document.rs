//! The lines of a text, in a linked list, and what takes edits back.

use crate::lines::Lines;
use crate::parts::{Class, class_of, words_of_rule};
use crate::table::Table;
use std::io::{self, BufWriter, Write};
use std::mem;

/// Under what the lines are noted: names of variables, targets, targets and prerequisites, their texts.
#[derive(Default)]
pub struct Wanted {
    pub variables: bool,
    pub targets: bool,
    pub words: bool,
    pub texts: bool,
}

/// Where a line stands in the text, and the lines beside it. It keeps these while it is out of the
/// list, so that it finds its way back.
struct Line {
    start: u32,
    end: u32,
    before: u32,
    after: u32,
    is_in: bool,
}

/// A change of the list. It takes itself back, and makes itself again.
enum Change {
    /// A line has this text in place of the one that it has now.
    Text { line: u32, start: u32, end: u32 },
    /// A line is put in or taken out.
    Line(u32),
}

pub struct Document {
    /// The text that was read, and behind it each line that is new.
    text: Vec<u8>,
    /// The first one is none: it stands before the first line and after the last.
    lines: Vec<Line>,
    wanted: Wanted,
    pub variables: Table,
    /// By targets, and where that is wanted by prerequisites too.
    pub rules: Table,
    /// By what they say, without the line feed.
    pub texts: Table,
    /// What each edit has changed. The last one may still be at work.
    done: Vec<Vec<Change>>,
    undone: Vec<Vec<Change>>,
}

impl Document {
    pub fn open(text: Vec<u8>, wanted: Wanted) -> Document {
        let size_if = |is_wanted| text.len() / 64 * is_wanted as usize;
        let mut document = Document {
            text: Vec::new(),
            lines: Vec::with_capacity(text.len() / 32),
            variables: Table::new(size_if(wanted.variables)),
            rules: Table::new(size_if(wanted.targets || wanted.words)),
            texts: Table::new(size_if(wanted.texts)),
            wanted,
            done: Vec::new(),
            undone: Vec::new(),
        };
        document.lines.push(Line { start: 0, end: 0, before: 0, after: 0, is_in: true });
        let found = Lines { text: &text, at: 0 }.map(|it| (it.start as u32, it.end as u32));
        for (number, (start, end)) in (1..).zip(found) {
            document.lines.push(Line { start, end, before: number - 1, after: number + 1, is_in: true });
        }
        let last = document.lines.len() as u32 - 1;
        document.lines[last as usize].after = 0;
        (document.lines[0].before, document.lines[0].after) = (last, 1.min(last));
        document.text = text;
        (1..=last).for_each(|it| document.note(it));
        document
    }

    pub fn write_to(&self, out: &mut dyn Write) -> io::Result<()> {
        let mut out = BufWriter::with_capacity(64 * 1024, out);
        let (mut start, mut end) = (0, 0);
        let mut line = self.after(0);
        while line > 0 {
            let it = &self.lines[line as usize];
            if it.start != end {
                out.write_all(&self.text[start as usize..end as usize])?;
                start = it.start;
            }
            (end, line) = (it.end, it.after);
        }
        out.write_all(&self.text[start as usize..end as usize])?;
        out.flush()
    }

    pub fn line(&self, line: u32) -> &[u8] {
        let it = &self.lines[line as usize];
        &self.text[it.start as usize..it.end as usize]
    }

    pub fn is_in(&self, line: u32) -> bool {
        self.lines[line as usize].is_in
    }

    /// The line below, or 0.
    pub fn after(&self, line: u32) -> u32 {
        self.lines[line as usize].after
    }

    /// The line above, or 0.
    pub fn before(&self, line: u32) -> u32 {
        self.lines[line as usize].before
    }

    /// Notes a line under its names.
    pub fn note(&mut self, number: u32) {
        let it = &self.lines[number as usize];
        let line = &self.text[it.start as usize..it.end as usize];
        if self.wanted.texts {
            self.texts.put_in(line.strip_suffix(b"\n").unwrap_or(line), number);
        }
        match class_of(line) {
            Class::Assign { name, .. } if self.wanted.variables => {
                self.variables.put_in(&line[name], number);
            }
            Class::Rule { targets, .. } if self.wanted.targets || self.wanted.words => {
                let end = if self.wanted.words { line.len() } else { targets.end };
                let words = words_of_rule(line).take_while(|it| it.end <= end);
                words.for_each(|it| self.rules.put_in(&line[it], number));
            }
            _ => {}
        }
    }

    /// Notes the line of a rule under one more word.
    pub fn note_word(&mut self, word: &[u8], line: u32) {
        if !self.rules.lines(word).any(|it| it == line) {
            self.rules.put_in(word, line);
        }
    }

    /// Begins an edit.
    pub fn begin(&mut self) {
        self.undone.clear();
        self.done.push(Vec::new());
    }

    fn make(&mut self, mut change: Change) {
        self.flip(&mut change);
        self.done.last_mut().expect("no edit has begun").push(change);
    }

    /// Gives a line the text of these parts.
    pub fn exchange(&mut self, line: u32, parts: &[&[u8]]) {
        let (start, end) = self.put_down(parts);
        self.make(Change::Text { line, start, end });
    }

    /// Puts in a line with the text of these parts below another.
    pub fn put_in(&mut self, before: u32, parts: &[&[u8]]) {
        let (start, end) = self.put_down(parts);
        let after = self.after(before);
        self.lines.push(Line { start, end, before, after, is_in: false });
        let line = self.lines.len() as u32 - 1;
        self.make(Change::Line(line));
        self.note(line);
    }

    pub fn take_out(&mut self, line: u32) {
        self.make(Change::Line(line));
    }

    fn put_down(&mut self, parts: &[&[u8]]) -> (u32, u32) {
        let start = self.text.len() as u32;
        parts.iter().for_each(|it| self.text.extend_from_slice(it));
        (start, self.text.len() as u32)
    }

    /// Makes a change, or takes it back.
    fn flip(&mut self, change: &mut Change) {
        match change {
            Change::Text { line, start, end } => {
                let line = &mut self.lines[*line as usize];
                mem::swap(&mut line.start, start);
                mem::swap(&mut line.end, end);
            }
            Change::Line(number) => {
                let line = &mut self.lines[*number as usize];
                line.is_in = !line.is_in;
                let (before, after) = (line.before, line.after);
                let beside = if line.is_in { (*number, *number) } else { (after, before) };
                self.lines[before as usize].after = beside.0;
                self.lines[after as usize].before = beside.1;
            }
        }
    }

    pub fn undo(&mut self) -> Option<()> {
        let mut edit = self.done.pop()?;
        edit.iter_mut().rev().for_each(|it| self.flip(it));
        self.undone.push(edit);
        Some(())
    }

    pub fn redo(&mut self) -> Option<()> {
        let mut edit = self.undone.pop()?;
        edit.iter_mut().for_each(|it| self.flip(it));
        self.done.push(edit);
        Some(())
    }
}
