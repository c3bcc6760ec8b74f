//! A command-line program over the engine: shows, lists, checks and draws programs, drives the engine in an order of jobs that is asked for,
//! and explains why a program is refused. `keshtiwol --help` tells how.

mod ahead;
mod answers;
mod arguments;
mod bodies;
mod dot;
mod explain;
mod hex;
mod items;
mod layout;
mod moment;
mod names;
mod number;
mod order;
mod outline;
mod picture;
mod status;
mod svg;
#[cfg(test)]
mod tests;

use std::ffi::OsString;
use std::fs::{self, File};
use std::io::{self, Read, Write};
use std::path::{Path, PathBuf};
use std::process::ExitCode;

use arguments::{Form, Program, Request, Source};
use keshtiwol::{Machine, PROGRAM_BYTES};
use moment::Moment;
use picture::Picture;

/// The longest file of hexadecimal text: a program with 250 characters of comment for each byte.
const TEXT_BYTES: usize = 1 << 20;

/// Why nothing was written, in words for people.
enum Failure {
    /// By the engine: the program, or a step that was chosen. By this tool: an order of jobs that is not fair.
    Refused(String),
    CommandLine(String),
    /// A file can't be read or written.
    File(String),
    /// The engine can't be driven in an order that is fair.
    Contradiction(String),
}

fn main() -> ExitCode {
    let arguments: Vec<OsString> = std::env::args_os().skip(1).collect();
    let (status, message) = match answer(arguments) {
        Ok(()) => return ExitCode::SUCCESS,
        Err(Failure::Refused(message)) => (1, message),
        Err(Failure::CommandLine(message)) => (2, format!("{message}\n'keshtiwol --help' tells more")),
        Err(Failure::File(message)) => (2, message),
        Err(Failure::Contradiction(message)) => {
            (3, format!("{message}\nthe order is fair, so this contradicts what is proved of the engine"))
        }
    };
    // Where the standard error is closed too, the status alone has to do.
    let _ = writeln!(io::stderr(), "keshtiwol: {message}");
    ExitCode::from(status)
}

fn answer(arguments: Vec<OsString>) -> Result<(), Failure> {
    match arguments::read(arguments).map_err(Failure::CommandLine)? {
        Request::Help => write(None, arguments::HELP),
        Request::Version => write(None, &answers::versions()),
        Request::Job(number) => write(None, &answers::job(number)),
        Request::Show { program, names } => write(None, &outline::outline(load(&program)?.program(), &names)),
        Request::List(program) => {
            let mut machine = load(&program)?;
            let steps = answers::lowest_first(&mut machine);
            write(None, &answers::listing(&machine, &steps))
        }
        Request::Order { program, jobs } => {
            let mut machine = load(&program)?;
            order::judge(machine.program(), &jobs).map_err(|unfair| Failure::Refused(unfair.to_string()))?;
            let steps = order::drive(&mut machine, &jobs).map_err(|stuck| Failure::Contradiction(stuck.to_string()))?;
            write(None, &answers::listing(&machine, &steps))
        }
        Request::Check(program) => write(None, &answers::summary(&load(&program)?)),
        Request::Draw { program, form, schedule, names, out } => {
            let moment = Moment::reach(load(&program)?, &schedule).map_err(|step| Failure::Refused(step.to_string()))?;
            let picture = Picture::of(&moment, &names);
            let text = match form {
                Form::Dot => dot::dot(&picture),
                Form::Svg => svg::svg(&picture),
            };
            write(out, &text)
        }
    }
}

fn load(program: &Program) -> Result<Machine, Failure> {
    let bytes = match &program.source {
        Source::Text(text) => from_text(text)?,
        Source::TextFile(path) => from_text(&text_of(path)?)?,
        // One byte more than a program may have, so that a longer file is refused and an endless one is not read on.
        Source::ByteFile(path) => read(path, PROGRAM_BYTES + 1)?,
    };
    Machine::load_in(&bytes, program.edition).map_err(|refusal| Failure::Refused(explain::explain(&bytes, program.edition, refusal)))
}

fn from_text(text: &str) -> Result<Vec<u8>, Failure> {
    hex::bytes(text).map_err(|malformed| Failure::CommandLine(malformed.to_string()))
}

fn text_of(path: &Path) -> Result<String, Failure> {
    let text = read(path, TEXT_BYTES + 1)?;
    if text.len() > TEXT_BYTES {
        return Err(Failure::File(format!("{} has more than {TEXT_BYTES} bytes of text", path.display())));
    }
    Ok(String::from_utf8_lossy(&text).into_owned())
}

/// The file's first bytes, or the standard input's.
fn read(path: &Path, most: usize) -> Result<Vec<u8>, Failure> {
    let most = most as u64;
    let mut bytes = Vec::new();
    let all = if path == Path::new("-") {
        io::stdin().take(most).read_to_end(&mut bytes)
    } else {
        File::open(path).and_then(|file| file.take(most).read_to_end(&mut bytes))
    };
    all.map_err(|error| Failure::File(format!("{} can't be read: {error}", path.display())))?;
    Ok(bytes)
}

/// Writes to the file, or to the standard output. A reader that has left has had enough.
fn write(out: Option<PathBuf>, text: &str) -> Result<(), Failure> {
    let out = out.filter(|path| path != Path::new("-"));
    let written = match &out {
        Some(path) => fs::write(path, text),
        None => io::stdout().write_all(text.as_bytes()).and_then(|()| io::stdout().flush()),
    };
    match written {
        Err(error) if error.kind() != io::ErrorKind::BrokenPipe => {
            let name = out.map_or("the standard output".to_string(), |path| path.display().to_string());
            Err(Failure::File(format!("{name} can't be written: {error}")))
        }
        _ => Ok(()),
    }
}
