//! Prints a makefile after the commands of a script: edit SCRIPT MAKEFILE
//!
//!     rustc --edition 2021 edit.rs -L FOLDER -l mkedit
//!
//! FOLDER has the library. The status is 0, or 1 if a command was refused, or 2 for anything else; then
//! nothing is printed.
use std::{env, fs, io, io::Write, process::ExitCode};

// What mkedit.h declares of a run, and three of its answers.
#[repr(C)]
#[derive(Default)]
struct Told {
    text: usize,
    report: usize,
    line: u64,
}
#[rustfmt::skip]
extern "C" {
    fn mkedit_run_into(
        text: *const u8, text_length: usize, script: *const u8, script_length: usize, depth: u32,
        out: *mut u8, out_room: usize, report: *mut u8, report_room: usize, told: *mut Told,
    ) -> u32;
}
const DONE: u32 = 0;
const REFUSED: u32 = 1;
const NO_ROOM: u32 = 7;
const USAGE: &str = "usage: edit SCRIPT MAKEFILE, two files that can be read\n";

/// Runs a script over a makefile: the text after it, or the status and what to say.
fn run(text: &[u8], script: &[u8]) -> Result<Vec<u8>, (u8, String)> {
    let (mut out, mut report, mut told) = (vec![0; text.len()], vec![0; 64], Told::default());
    loop {
        // Each pointer comes with the length of its slice, and no two of them overlap.
        #[rustfmt::skip]
        let answer = unsafe {
            mkedit_run_into(
                text.as_ptr(), text.len(), script.as_ptr(), script.len(), 100,
                out.as_mut_ptr(), out.len(), report.as_mut_ptr(), report.len(), &mut told,
            )
        };
        out.resize(told.text, 0);
        report.resize(told.report, 0);
        match answer {
            NO_ROOM => continue,
            DONE => return Ok(out),
            REFUSED => return Err((1, String::from_utf8_lossy(&report).into())),
            _ => return Err((2, format!("edit: answer {answer}, line {}\n", told.line))),
        }
    }
}

fn main() -> ExitCode {
    let files: Option<Vec<_>> = env::args_os().skip(1).map(|it| fs::read(it).ok()).collect();
    let made = match files.as_deref() {
        Some([script, makefile]) => run(makefile, script),
        _ => Err((2, USAGE.into())),
    };
    let mut stdout = io::stdout();
    match made.map(|text| stdout.write_all(&text).and_then(|()| stdout.flush())) {
        Ok(written) => ExitCode::from(if written.is_ok() { 0 } else { 2 }),
        Err((status, said)) => {
            eprint!("{said}");
            ExitCode::from(status)
        }
    }
}
