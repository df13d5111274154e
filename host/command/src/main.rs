//! `journal`: lists, searches and checks journal files, makes them, appends to them and exchanges their
//! entries as text. `./run` in the repository's root builds it and runs it; `./run --help` says how it is
//! used.
//!
//! What a file holds and what an append does is told by the proved archive. This program has what
//! such a library leaves to its host: files, locks, syncs, clocks, ids, words and columns.
mod answer;
mod append;
mod appends;
mod arguments;
mod arrays;
mod batch;
mod beside;
mod calendar;
mod carry;
mod check;
mod columns;
mod copy;
mod done;
mod doubt;
mod export;
mod facts;
mod fault;
mod files;
mod foreign;
mod form;
mod fresh;
mod fronts;
mod help;
mod help_reads;
mod help_writes;
mod ids;
mod image;
mod import;
mod input;
mod journal;
mod json;
mod lines;
mod new;
mod parts;
mod payload;
mod place;
mod plain;
mod planned;
mod progress;
mod questions;
mod read;
mod redo;
mod room;
mod selection;
mod separated;
mod settle;
mod shape;
mod signals;
mod sizes;
mod source;
mod stamps;
mod system;
mod table;
mod text;
mod texts;
mod times;
mod ways;
mod why;
mod why_batch;
mod why_damaged;
mod why_file;
mod why_new;
mod why_order;
mod why_text;
mod why_walk;
mod words;
mod writes;
mod zone;

use answer::Answer;
use arguments::Command;
use fault::Fault;
use std::io::{BufWriter, Write};
use std::process::ExitCode;

/// What the library's calls need is below 2 MiB. The first thread may have less: `ulimit -s`.
const STACK: usize = 8 << 20;

fn main() -> ExitCode {
    signals::end_at_a_closed_pipe();
    signals::fail_at_the_limit_of_a_file();
    // The thread that works is the one that signals end: it knows when they have to wait.
    let obeyed = signals::hold();
    let thread = std::thread::Builder::new()
        .stack_size(STACK)
        .spawn(move || {
            obeyed.again();
            let words: Vec<_> = std::env::args_os().skip(1).collect();
            arguments::command(&words).and_then(carry_out)
        });
    let done = match thread.map(|thread| thread.join()) {
        Ok(Ok(done)) => done,
        Ok(Err(panic)) => std::panic::resume_unwind(panic),
        Err(error) => Err(Fault::memory(&error)),
    };
    obeyed.again();
    match done {
        Ok(()) => ExitCode::SUCCESS,
        Err(fault) => {
            // Where standard error takes nothing, there is nobody to tell.
            let _ = std::io::stderr().write_all(fault.line().as_bytes());
            ExitCode::from(fault.status)
        }
    }
}

fn carry_out(command: Command) -> Result<(), Fault> {
    let mut out = BufWriter::new(Answer::new());
    match command {
        Command::Help(text) => out.write_all(text.as_bytes()).map_err(Fault::answer)?,
        Command::Version => {
            writeln!(out, "journal {}", env!("CARGO_PKG_VERSION")).map_err(Fault::answer)?
        }
        Command::List { files, which, form } => read::list(files, &which, &form, &mut out)?,
        Command::Show { files, wanted } => read::show(files, &wanted, &mut out)?,
        Command::Find { files, by, form } => read::find(files, &by, &form, &mut out)?,
        Command::Newest {
            files,
            name,
            which,
            form,
        } => read::newest(files, &name, &which, form, &mut out)?,
        Command::Values { files, name } => read::values(files, &name, &mut out)?,
        Command::Export { files } => export::export(files, &mut out)?,
        Command::Check { file } => check::check(&file, &mut out)?,
        Command::Why { file, form } => facts::why(&file, form, &mut out)?,
        Command::Foreign { file, form } => foreign::foreign(&file, &form, &mut out)?,
        Command::Room(shape) => room::room(&shape, &mut out)?,
        // What these say is said by themselves: it is no answer that could be asked for again.
        Command::Write(write) => return writes::carry_out(write),
    }
    out.flush().map_err(Fault::answer)
}
