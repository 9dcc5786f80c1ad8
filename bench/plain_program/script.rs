//! The commands of a script, each as its fields.

use crate::bytes::is_blank;
use crate::document::Wanted;
use std::borrow::Cow;

pub type Command<'a> = Vec<Cow<'a, [u8]>>;

/// The commands, each with the number of its line.
pub fn commands(script: &[u8]) -> Vec<(usize, Command<'_>)> {
    let lines = (1..).zip(script.split(|it| *it == b'\n')).filter(|(_, it)| it.first() != Some(&b'#'));
    lines.map(|(number, it)| (number, fields(it))).filter(|(_, it)| !it.is_empty()).collect()
}

/// What some commands look up.
pub fn wanted(commands: &[(usize, Command<'_>)]) -> Wanted {
    let mut wanted = Wanted::default();
    for (_, command) in commands {
        match &command[0][..] {
            b"set" | b"append" | b"drop" | b"all" | b"nth" | b"unset" => wanted.variables = true,
            b"prepend" | b"replace" | b"subst" | b"operator" => wanted.variables = true,
            b"add-before" | b"add-after" | b"set-if" | b"comment-out" => wanted.variables = true,
            b"line-replace" => wanted.texts = true,
            b"assign" | b"rule" if command[1].ends_with(b"-var") => wanted.variables = true,
            b"assign" | b"rule" if &command[1][..] == b"bottom" => {}
            b"rename" => wanted.words = true,
            b"undo" | b"redo" => {}
            _ => wanted.targets = true,
        }
    }
    wanted
}

fn fields(mut line: &[u8]) -> Command<'_> {
    let mut fields = Vec::new();
    while let Some(start) = line.iter().position(|it| !is_blank(*it)) {
        let (field, rest) = match line[start] {
            b'"' => quoted(&line[start + 1..]),
            _ => {
                let line = &line[start..];
                let end = line.iter().position(|it| is_blank(*it)).unwrap_or(line.len());
                (Cow::Borrowed(&line[..end]), &line[end..])
            }
        };
        fields.push(field);
        line = rest;
    }
    fields
}

/// The field before the next quote, and the line behind that.
fn quoted(line: &[u8]) -> (Cow<'_, [u8]>, &[u8]) {
    let end = line.iter().position(|it| matches!(it, b'"' | b'\\')).expect("a quote is not closed");
    if line[end] == b'"' {
        return (Cow::Borrowed(&line[..end]), &line[end + 1..]);
    }
    let (mut field, mut at) = (line[..end].to_vec(), end);
    while line[at] != b'"' {
        at += (line[at] == b'\\') as usize;
        field.push(line[at]);
        at += 1;
    }
    (Cow::Owned(field), &line[at + 1..])
}
