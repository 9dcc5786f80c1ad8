//! A plain program for speed alone, which bench/many builds and measures beside mkedit:
//!
//!     plain edit SCRIPT FILE    does the commands of the script and writes the text
//!
//! It cuts the text into a linked list of lines and notes in tables under which names they stand; then
//! each edit looks its lines up there. It does the edits of bench/many, `undo` and `redo` as mkedit does
//! over the texts there, and `nth` before edits of a value; it promises nothing, and leaves this out:
//!
//!     most causes of refusal    it ends where a line is not there, or is there twice, and tests no field
//!     contexts                  a line that begins with a tab is a recipe line, and each other line
//!                               is read as if it stood at the top: it knows no conditionals, no
//!                               defines, no recipe prefix that is set
//!     assignments for targets, static patterns, inline recipes, rough lines
//!                               it reads such a line as a rule with other words
//!     a CR or a NUL, a last line without line end, an empty value in `set`
//!     `nth` before other edits, groups, and a depth: it can undo every edit

#[allow(dead_code, reason = "numbers are not written here")]
mod bytes;
mod document;
mod edits;
#[allow(dead_code, reason = "folds are not looked at here")]
mod lines;
mod parts;
mod script;
mod table;

use document::Document;
use std::fs::File;
use std::io;
use std::os::fd::AsFd;
use std::{env, fs, mem, process};

fn main() -> io::Result<()> {
    let words: Vec<String> = env::args().skip(1).collect();
    let ["edit", script, name] = [&words[0][..], &words[1], &words[2]] else {
        panic!("usage: plain edit SCRIPT FILE");
    };
    let script = fs::read(script)?;
    let commands = script::commands(&script);
    let mut document = Document::open(fs::read(name)?, script::wanted(&commands));
    for (number, command) in &commands {
        if edits::obey(&mut document, command).is_none() {
            eprintln!("plain: script line {number} is refused");
            process::exit(1);
        }
    }
    document.write_to(&mut File::from(io::stdout().as_fd().try_clone_to_owned()?))?;
    mem::forget(document);
    Ok(())
}
