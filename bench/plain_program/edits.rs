//! The edits, one after the other over the document. None means that one is refused.

use crate::document::Document;
use crate::parts::{Class, after_blanks, class_of, value_of, with_gap, words, words_of_rule};
use crate::script::Command;
use std::ops::Range;

pub fn obey(document: &mut Document, command: &Command<'_>) -> Option<()> {
    let fields: Vec<&[u8]> = command.iter().map(|it| &it[..]).collect();
    match fields[..] {
        [b"undo"] => return document.undo(),
        [b"redo"] => return document.redo(),
        _ => document.begin(),
    }
    match fields[..] {
        [b"all", ref command @ ..] => {
            let lines: Vec<u32> = variables(document, command.get(1)?).collect();
            for line in &lines {
                change(document, *line, command)?;
            }
            lines.first()?;
        }
        [b"nth", number, ref command @ ..] => {
            // (the table has the last line first)
            let lines: Vec<u32> = variables(document, command.get(1)?).collect();
            change(document, *lines.iter().rev().nth(index_of(number)?)?, command)?;
        }
        [b"set" | b"append" | b"drop" | b"prepend" | b"replace" | b"subst" | b"operator", name, ..] => {
            change(document, variable(document, name)?, &fields)?;
        }
        [kind @ (b"add-before" | b"add-after"), name, word, new] => {
            put_beside(document, variable(document, name)?, kind == b"add-after", word, new)?;
        }
        [b"set-if", name, old, value] => {
            let number = only(variables(document, name).filter(|it| has_value(document, *it, old)))?;
            give(document, number, value, false)?;
        }
        [b"unset", name] => document.take_out(variable(document, name)?),
        [b"comment-out", name] => {
            let number = variable(document, name)?;
            let line = document.line(number).to_vec();
            document.exchange(number, &[b"#", &line]);
        }
        [b"assign", ref place @ .., name, operator, value] => {
            let gap: &[u8] = if value.is_empty() { b"" } else { b" " };
            document.put_in(place_of(document, place)?, &[name, b" ", operator, gap, value, b"\n"]);
        }
        [b"rule", ref place @ .., targets, separator, prerequisites] => {
            let parts = line_of_rule(targets, separator, prerequisites);
            document.put_in(place_of(document, place)?, &parts);
        }
        [b"unrule", target] => unrule(document, target)?,
        [b"depend", target, word] => depend(document, target, word, false)?,
        [b"depend-order", target, word] => depend(document, target, word, true)?,
        [b"undepend", target, word] => undepend(document, target, word)?,
        [b"depend-replace", target, old, new] => depend_on_other(document, target, old, new)?,
        [b"recipe", target, line] => {
            document.put_in(end_of_rule(document, target)?, &[b"\t", line, b"\n"]);
        }
        [b"recipe-set", target, number, line] => {
            document.exchange(recipe_line(document, target, number)?, &[b"\t", line, b"\n"]);
        }
        [b"recipe-del", target, number] => document.take_out(recipe_line(document, target, number)?),
        [b"recipe-insert", target, number, line] => {
            let below = place_in_recipe(document, target, number)?;
            document.put_in(below, &[b"\t", line, b"\n"]);
        }
        [b"recipe-subst", target, old, new] => substitute_in_recipe(document, target, old, new)?,
        [b"rename", old, new] => rename(document, old, new)?,
        [b"insert", b"after-rule", target, line] => {
            document.put_in(end_of_rule(document, target)?, &[line, b"\n"]);
        }
        [b"line-replace", old, new] => {
            let number = only(lines_that_say(document, old))?;
            document.exchange(number, &[new, b"\n"]);
        }
        _ => return None,
    }
    Some(())
}

/// The only line of some.
fn only(mut lines: impl Iterator<Item = u32>) -> Option<u32> {
    let first = lines.next()?;
    lines.next().is_none().then_some(first)
}

/// The lines that assign a variable.
fn variables(document: &Document, name: &[u8]) -> impl Iterator<Item = u32> {
    document.variables.lines(name).filter(move |number| {
        let line = document.line(*number);
        let is_named = matches!(class_of(line), Class::Assign { name: it, .. } if line[it.clone()] == *name);
        is_named && document.is_in(*number)
    })
}

/// Whether a line assigns this value.
fn has_value(document: &Document, number: u32, value: &[u8]) -> bool {
    let line = document.line(number);
    matches!(class_of(line), Class::Assign { operator_end, .. } if line[value_of(line, operator_end)] == *value)
}

/// The lines that say a text.
fn lines_that_say(document: &Document, text: &[u8]) -> impl Iterator<Item = u32> {
    document.texts.lines(text).filter(move |it| {
        document.is_in(*it) && document.line(*it).strip_suffix(b"\n") == Some(text)
    })
}

fn variable(document: &Document, name: &[u8]) -> Option<u32> {
    only(variables(document, name))
}

fn is_rule_of(document: &Document, number: u32, target: &[u8]) -> bool {
    let line = document.line(number);
    let Class::Rule { targets, .. } = class_of(line) else {
        return false;
    };
    document.is_in(number) && words(&line[..targets.end], targets.start).any(|it| line[it] == *target)
}

/// The line of the rule of a target.
fn rule(document: &Document, target: &[u8]) -> Option<u32> {
    only(document.rules.lines(target).filter(|it| is_rule_of(document, *it, target)))
}

/// A copy of this line, and the offset behind its separator.
fn copied(document: &Document, number: u32) -> Option<(Vec<u8>, usize)> {
    match class_of(document.line(number)) {
        Class::Rule { separator_end, .. } => Some((document.line(number).to_vec(), separator_end)),
        _ => None,
    }
}

/// The line below which a place is.
fn place_of(document: &Document, place: &[&[u8]]) -> Option<u32> {
    Some(match place {
        [b"bottom"] => document.before(0),
        [b"after-var", name] => variable(document, name)?,
        [b"before-var", name] => document.before(variable(document, name)?),
        [b"before-rule", target] => document.before(rule(document, target)?),
        _ => return None,
    })
}

/// Changes one of the lines of a variable as a command says, whose name is passed over.
fn change(document: &mut Document, number: u32, command: &[&[u8]]) -> Option<()> {
    match command {
        [kind @ (b"set" | b"append"), _, text] => give(document, number, text, *kind == b"append"),
        [b"drop", _, word] => drop_word(document, number, word),
        [b"prepend", _, text] => prepend(document, number, text),
        [b"replace", _, word, text] => exchange_places(document, number, text, |line, value| {
            let all = words(&line[..value.end], value.start);
            all.filter(|it| line[it.clone()] == **word).collect()
        }),
        [b"subst", _, old, new] => {
            exchange_places(document, number, new, |line, value| occurrences(line, value, old))
        }
        [b"operator", _, text] => set_operator(document, number, text),
        _ => None,
    }
}

/// Gives a variable another value, or one more word.
fn give(document: &mut Document, number: u32, value: &[u8], is_more: bool) -> Option<()> {
    let line = document.line(number).to_vec();
    let Class::Assign { operator_end, .. } = class_of(&line) else {
        return None;
    };
    let old = value_of(&line, operator_end);
    let start = if is_more { old.end } else { old.start };
    let gap: &[u8] = if is_more && !old.is_empty() { b" " } else { b"" };
    document.exchange(number, &[&line[..start], gap, value, &line[old.end..]]);
    Some(())
}

/// Puts a text before a value.
fn prepend(document: &mut Document, number: u32, text: &[u8]) -> Option<()> {
    let line = document.line(number).to_vec();
    let Class::Assign { operator_end, .. } = class_of(&line) else {
        return None;
    };
    let value = value_of(&line, operator_end);
    let gap: &[u8] = if value.is_empty() { b"" } else { b" " };
    document.exchange(number, &[&line[..value.start], text, gap, &line[value.start..]]);
    Some(())
}

/// Puts a text in some places of a value.
fn exchange_places(
    document: &mut Document,
    number: u32,
    text: &[u8],
    places: impl Fn(&[u8], Range<usize>) -> Vec<Range<usize>>,
) -> Option<()> {
    let line = document.line(number).to_vec();
    let Class::Assign { operator_end, .. } = class_of(&line) else {
        return None;
    };
    let found = places(&line, value_of(&line, operator_end));
    document.exchange(number, &replaced(&line, found.into_iter(), text)?);
    Some(())
}

/// Where a text stands in a part of a line, from the left.
fn occurrences(line: &[u8], part: Range<usize>, text: &[u8]) -> Vec<Range<usize>> {
    let (mut found, mut at) = (Vec::new(), part.start);
    while at + text.len() <= part.end {
        let is_here = line[at..].starts_with(text);
        if is_here {
            found.push(at..at + text.len());
        }
        at += if is_here { text.len() } else { 1 };
    }
    found
}

/// Puts a word beside another one of a value, with what separates that one from its neighbour.
fn put_beside(document: &mut Document, number: u32, is_after: bool, word: &[u8], new: &[u8]) -> Option<()> {
    let line = document.line(number).to_vec();
    let Class::Assign { operator_end, .. } = class_of(&line) else {
        return None;
    };
    let value = value_of(&line, operator_end);
    let all: Vec<_> = words(&line[..value.end], value.start).collect();
    let places = |text: &[u8]| all.iter().filter(|it| line[(*it).clone()] == *text).count();
    if places(word) != 1 || places(new) != 0 {
        return None;
    }
    let at = all.iter().position(|it| line[it.clone()] == *word)?;
    let gap = |left: usize| Some(&line[all.get(left)?.end..all.get(left + 1)?.start]);
    let (before, after) = (at.checked_sub(1).and_then(gap), gap(at));
    let nearest = if is_after { after.or(before) } else { before.or(after) };
    let separator = nearest.unwrap_or(b" ");
    let Range { start, end } = all[at].clone();
    if is_after {
        document.exchange(number, &[&line[..end], separator, new, &line[end..]]);
    } else {
        document.exchange(number, &[&line[..start], new, separator, &line[start..]]);
    }
    Some(())
}

/// Gives an assignment another operator.
fn set_operator(document: &mut Document, number: u32, text: &[u8]) -> Option<()> {
    let line = document.line(number).to_vec();
    let Class::Assign { name, operator_end } = class_of(&line) else {
        return None;
    };
    let start = after_blanks(&line, name.end);
    document.exchange(number, &[&line[..start], text, &line[operator_end..]]);
    Some(())
}

/// Takes a word out of a value; at the front of the value it goes with the blanks after it.
fn drop_word(document: &mut Document, number: u32, word: &[u8]) -> Option<()> {
    let line = document.line(number).to_vec();
    let Class::Assign { operator_end, .. } = class_of(&line) else {
        return None;
    };
    let value = value_of(&line, operator_end);
    let all: Vec<_> = words(&line[..value.end], value.start).collect();
    let goes = |it: &&Range<usize>| line[(*it).clone()] == *word;
    let front = all.iter().take_while(goes).count();
    let next = all.iter().skip(1).map(|it| it.start).chain([after_blanks(&line, value.end)]);
    let at_front = all.iter().zip(next).take(front).map(|(it, next)| it.start..next);
    let behind = all[front..].iter().filter(goes).map(|it| with_gap(&line, it.clone()));
    document.exchange(number, &replaced(&line, at_front.chain(behind), b"")?);
    Some(())
}

/// The parts of the line of a new rule.
fn line_of_rule<'a>(targets: &'a [u8], separator: &'a [u8], prerequisites: &'a [u8]) -> Vec<&'a [u8]> {
    let after_space = |field: &'a [u8]| words(field, 0).flat_map(move |it| [&b" "[..], &field[it]]);
    let mut parts: Vec<&[u8]> = after_space(targets).skip(1).collect();
    parts.push(separator);
    parts.extend(after_space(prerequisites));
    parts.push(b"\n");
    parts
}

/// The recipe lines of a rule.
fn recipe(document: &Document, header: u32) -> impl Iterator<Item = u32> {
    let mut line = header;
    std::iter::from_fn(move || {
        loop {
            line = document.after(line);
            match (line > 0).then(|| class_of(document.line(line))) {
                Some(Class::Recipe) => return Some(line),
                Some(Class::Between) => {}
                _ => return None,
            }
        }
    })
}

/// The last line of the recipe of a rule, or the rule's where it has none.
fn end_of_rule(document: &Document, target: &[u8]) -> Option<u32> {
    let header = rule(document, target)?;
    Some(recipe(document, header).last().unwrap_or(header))
}

/// The index of what a number counts from 1.
fn index_of(number: &[u8]) -> Option<usize> {
    str::from_utf8(number).ok()?.parse::<usize>().ok()?.checked_sub(1)
}

fn recipe_line(document: &Document, target: &[u8], number: &[u8]) -> Option<u32> {
    recipe(document, rule(document, target)?).nth(index_of(number)?)
}

/// The line of a rule below which a new recipe line gets a number.
fn place_in_recipe(document: &Document, target: &[u8], number: &[u8]) -> Option<u32> {
    let index = index_of(number)?;
    let header = rule(document, target)?;
    let lines: Vec<u32> = recipe(document, header).collect();
    match lines.get(index) {
        Some(line) => Some(document.before(*line)),
        None if index == lines.len() => Some(*lines.last().unwrap_or(&header)),
        None => None,
    }
}

fn unrule(document: &mut Document, target: &[u8]) -> Option<()> {
    let header = rule(document, target)?;
    let Class::Rule { targets, .. } = class_of(document.line(header)) else {
        return None;
    };
    let is_alone = words(&document.line(header)[..targets.end], targets.start).count() == 1;
    let last = recipe(document, header).last().unwrap_or(header);
    let mut line = header;
    while is_alone && line != last {
        let next = document.after(line);
        document.take_out(line);
        line = next;
    }
    is_alone.then(|| document.take_out(last))
}

fn depend(document: &mut Document, target: &[u8], word: &[u8], is_order: bool) -> Option<()> {
    let number = rule(document, target)?;
    let (line, from) = copied(document, number)?;
    let all: Vec<_> = words(&line, from).collect();
    let bar = all.iter().position(|it| line[it.clone()] == *b"|");
    let (normal, order) = all.split_at(bar.unwrap_or(all.len()));
    let (list, before) = if is_order { (order, &all[..]) } else { (normal, normal) };
    if list.iter().any(|it| line[it.clone()] == *word) {
        return None;
    }
    let at = before.last().map_or(from, |it| it.end);
    let gap: &[u8] = if is_order && bar.is_none() { b" | " } else { b" " };
    let behind: &[u8] = if line.get(at) == Some(&b'|') { b" " } else { b"" };
    document.exchange(number, &[&line[..at], gap, word, behind, &line[at..]]);
    document.note_word(word, number);
    Some(())
}

/// The parts of a line in which other bytes stand in some places, if there are any.
fn replaced<'a>(
    line: &'a [u8],
    places: impl Iterator<Item = Range<usize>>,
    new: &'a [u8],
) -> Option<Vec<&'a [u8]>> {
    let (mut parts, mut at) = (Vec::new(), 0);
    for it in places {
        parts.extend([&line[at..it.start], new]);
        at = it.end;
    }
    parts.push(&line[at..]);
    (at > 0).then_some(parts)
}

fn undepend(document: &mut Document, target: &[u8], word: &[u8]) -> Option<()> {
    let number = rule(document, target)?;
    let (line, from) = copied(document, number)?;
    let places = words(&line, from).filter(|it| line[it.clone()] == *word).map(|it| with_gap(&line, it));
    document.exchange(number, &replaced(&line, places, b"")?);
    Some(())
}

/// Puts a prerequisite in the place of another.
fn depend_on_other(document: &mut Document, target: &[u8], old: &[u8], new: &[u8]) -> Option<()> {
    let number = rule(document, target)?;
    let (line, from) = copied(document, number)?;
    if words(&line, from).any(|it| line[it] == *new) {
        return None;
    }
    let places = words(&line, from).filter(|it| line[it.clone()] == *old);
    document.exchange(number, &replaced(&line, places, new)?);
    document.note_word(new, number);
    Some(())
}

/// Puts a text in the place of another in the recipe of a rule.
fn substitute_in_recipe(document: &mut Document, target: &[u8], old: &[u8], new: &[u8]) -> Option<()> {
    let lines: Vec<u32> = recipe(document, rule(document, target)?).collect();
    let mut is_found = false;
    for number in lines {
        let line = document.line(number).to_vec();
        let found = occurrences(&line, 1..line.len(), old);
        if let Some(parts) = replaced(&line, found.into_iter(), new) {
            document.exchange(number, &parts);
            is_found = true;
        }
    }
    is_found.then_some(())
}

fn rename(document: &mut Document, old: &[u8], new: &[u8]) -> Option<()> {
    let has_target = |it| document.rules.lines(it).any(|line| is_rule_of(document, line, it));
    if !has_target(old) || has_target(new) {
        return None;
    }
    let lines: Vec<u32> = document.rules.lines(old).filter(|it| document.is_in(*it)).collect();
    for number in lines {
        let line = document.line(number).to_vec();
        let places = words_of_rule(&line).filter(|it| line[it.clone()] == *old);
        // a line that holds the word twice is noted twice, and has it no more when it comes again
        if let Some(parts) = replaced(&line, places, new) {
            document.exchange(number, &parts);
            document.note_word(new, number);
        }
    }
    Some(())
}
