//! The command line: what is asked for, and of which program.

use std::ffi::OsString;
use std::path::PathBuf;

use keshtiwol::Edition;

use crate::moment::Schedule;
use crate::names::Names;

pub const HELP: &str = "\
keshtiwol shows, lists, checks and draws programs of the task-graph engine, and has their jobs answered in a fair order.

    keshtiwol show PROGRAM [OPTIONS]   an item a line: its offset, its bytes, and what it is, indented by its level
    keshtiwol list PROGRAM             each step of a run, the lowest vertex first, in the lines of the lister
    keshtiwol order PROGRAM --jobs O,O,...
                                       steps that answer the jobs in this order, in the same lines
    keshtiwol check PROGRAM            whether it loads; then its items, and the rows and steps that it needs
    keshtiwol dot PROGRAM [OPTIONS]    the graph after some steps, as text for Graphviz
    keshtiwol svg PROGRAM [OPTIONS]    the same as a picture
    keshtiwol job NUMBER               the bytes of a job with this number, 0 to 4294967295
    keshtiwol --help | --version

PROGRAM is one of
    03 02 01 05 00 00 01 06 00    its bytes as hexadecimal text: two digits each, spaces or commas between bytes or
                                  not, 0x before them or not; # starts a comment, to the end of the line
    --hex-file PATH               a file of such text
    --file PATH                   a file of the bytes themselves
A PATH of - is the standard input, or behind -o the standard output.
With --edition 2 its forks are done as in the second edition, without a third vertex; without it as in the first.

OPTIONS of show, dot and svg
    --name JOB=WORDS    write WORDS where 'job JOB' would stand; may be given for several jobs
of dot and svg
    --steps N           take N steps, the lowest vertex first; more than there are lead to the end.
                        Without it and --then: up to the first moment with the most edges held
    --then V,V,...      then step these vertices, in this order; without --steps, from loading on
    -o PATH             write to this file and not to the standard output
of order
    --jobs O,O,...      the jobs in a fair order: each once, and none before one that comes ahead of it. O is the offset
                        at which a job starts, as show tells it; the value is empty where the program has no jobs

The exit status is 1 where the program or a step of --then is refused or the order of --jobs is not fair, 2 where the
command line is wrong or a file can't be read or written, 3 where the engine can't be driven in a fair order, which
contradicts what is proved of it, and otherwise 0.
";

#[derive(Debug, PartialEq)]
pub enum Request {
    Help,
    Version,
    Job(u32),
    Show { program: Program, names: Names },
    List(Program),
    Order { program: Program, jobs: Vec<usize> },
    Check(Program),
    Draw { program: Program, form: Form, schedule: Schedule, names: Names, out: Option<PathBuf> },
}

#[derive(Debug, PartialEq)]
pub enum Form {
    Dot,
    Svg,
}

#[derive(Debug, PartialEq)]
pub struct Program {
    pub source: Source,
    pub edition: Edition,
}

/// Where the program comes from.
#[derive(Debug, PartialEq)]
pub enum Source {
    /// Hexadecimal text.
    Text(String),
    TextFile(PathBuf),
    ByteFile(PathBuf),
}

/// What was met so far behind the command.
#[derive(Default)]
struct Given {
    texts: Vec<String>,
    file: Option<Source>,
    edition: Option<Edition>,
    steps: Option<u64>,
    then: Option<Vec<u32>>,
    jobs: Option<Vec<usize>>,
    names: Names,
    out: Option<PathBuf>,
    /// All that were met.
    options: Vec<String>,
}

/// The options that a command takes. None where there is no such command.
fn options_of(command: &str) -> Option<&'static [&'static str]> {
    match command {
        "job" => Some(&[]),
        "list" | "check" => Some(&["--file", "--hex-file", "--edition"]),
        "order" => Some(&["--file", "--hex-file", "--edition", "--jobs"]),
        "show" => Some(&["--file", "--hex-file", "--edition", "--name"]),
        "dot" | "svg" => Some(&["--file", "--hex-file", "--edition", "--name", "--steps", "--then", "-o"]),
        _ => None,
    }
}

/// Reads the arguments behind the program's name, or tells in words what is wrong with them.
pub fn read(arguments: Vec<OsString>) -> Result<Request, String> {
    if arguments.iter().any(|argument| argument == "--help" || argument == "-h") {
        return Ok(Request::Help);
    }
    let mut arguments = arguments.into_iter();
    let command = arguments.next().ok_or("a command is missing")?.to_string_lossy().into_owned();
    if command == "--version" {
        return Ok(Request::Version);
    }
    let options = options_of(&command).ok_or(format!("there is no command '{command}'"))?;
    let mut given = Given::default();
    while let Some(argument) = arguments.next() {
        given.take(argument.to_string_lossy().into_owned(), &mut arguments)?;
    }
    if let Some(option) = given.options.iter().find(|option| !options.contains(&option.as_str())) {
        return Err(format!("{command} takes no {option}"));
    }
    given.request(&command)
}

impl Given {
    fn take(&mut self, argument: String, rest: &mut impl Iterator<Item = OsString>) -> Result<(), String> {
        if !argument.starts_with('-') {
            self.texts.push(argument);
            return Ok(());
        }
        let option = argument.as_str();
        let mut value = || rest.next().ok_or(format!("{option} wants a value behind it"));
        match option {
            "--file" => once(&mut self.file, "the program", Source::ByteFile(value()?.into()))?,
            "--hex-file" => once(&mut self.file, "the program", Source::TextFile(value()?.into()))?,
            "--edition" => once(&mut self.edition, option, edition(&value()?.to_string_lossy())?)?,
            "--steps" => once(&mut self.steps, option, number(option, &value()?.to_string_lossy())?)?,
            "--then" => once(&mut self.then, option, numbers(option, &value()?.to_string_lossy())?)?,
            "--jobs" => {
                let value = value()?;
                let jobs = if value.is_empty() { Vec::new() } else { numbers(option, &value.to_string_lossy())? };
                once(&mut self.jobs, option, jobs)?;
            }
            "--name" => {
                let (job, words) = name(&value()?.to_string_lossy())?;
                if self.names.insert(job, words).is_some() {
                    return Err(format!("job {job} is named twice"));
                }
            }
            "-o" => once(&mut self.out, option, value()?.into())?,
            _ => return Err(format!("there is no option '{option}'")),
        }
        self.options.push(argument);
        Ok(())
    }

    fn request(self, command: &str) -> Result<Request, String> {
        if command == "job" {
            return job(&self.texts);
        }
        let source = match (self.file, self.texts.is_empty()) {
            (Some(file), true) => file,
            (None, false) => Source::Text(self.texts.join(" ")),
            (None, true) => return Err(format!("{command} wants a program: hexadecimal text, --hex-file or --file")),
            (Some(_), false) => return Err(format!("the program is given twice, as a file and as text: '{}'", self.texts.join(" "))),
        };
        let program = Program { source, edition: self.edition.unwrap_or_default() };
        let form = match command {
            "show" => return Ok(Request::Show { program, names: self.names }),
            "list" => return Ok(Request::List(program)),
            "order" => {
                let jobs = self.jobs.ok_or("order wants --jobs: where each job starts, in the order that is asked for")?;
                return Ok(Request::Order { program, jobs });
            }
            "check" => return Ok(Request::Check(program)),
            "dot" => Form::Dot,
            _ => Form::Svg,
        };
        let schedule = Schedule::new(self.steps, self.then);
        Ok(Request::Draw { program, form, schedule, names: self.names, out: self.out })
    }
}

fn job(texts: &[String]) -> Result<Request, String> {
    match texts {
        [] => Err("job wants a number".to_string()),
        [text] => text.parse().map(Request::Job).map_err(|_| format!("a job's number is one of 0 to {}, not '{text}'", u32::MAX)),
        _ => Err(format!("job wants one number, not '{}'", texts.join(" "))),
    }
}

fn once<T>(place: &mut Option<T>, what: &str, value: T) -> Result<(), String> {
    match place.replace(value) {
        Some(_) => Err(format!("{what} is given twice")),
        None => Ok(()),
    }
}

fn number<T: std::str::FromStr>(option: &str, text: &str) -> Result<T, String> {
    text.parse().map_err(|_| format!("{option}: '{text}' is no number, or too large"))
}

fn numbers<T: std::str::FromStr>(option: &str, text: &str) -> Result<Vec<T>, String> {
    text.split(',').map(|text| number(option, text)).collect()
}

fn edition(text: &str) -> Result<Edition, String> {
    let numbered = |edition: &Edition| u32::from(*edition).to_string() == text;
    [Edition::First, Edition::Second].into_iter().find(numbered).ok_or(format!("--edition is 1 or 2, not '{text}'"))
}

fn name(text: &str) -> Result<(u32, String), String> {
    let (job, words) = text.split_once('=').ok_or(format!("--name wants JOB=WORDS, not '{text}'"))?;
    if words.trim().is_empty() {
        return Err(format!("--name: no words in '{text}'"));
    }
    // XML has no place for these, whatever the escape.
    if words.chars().any(|c| c.is_control() || c == '\u{FFFE}' || c == '\u{FFFF}') {
        return Err(format!("--name: the words for job {job} have a character that can't be shown"));
    }
    Ok((number("--name", job)?, words.to_string()))
}

#[cfg(test)]
mod tests {
    use super::*;

    fn read_line(line: &[&str]) -> Result<Request, String> {
        read(line.iter().map(OsString::from).collect())
    }

    fn first(source: Source) -> Program {
        Program { source, edition: Edition::First }
    }

    #[test]
    fn programs() {
        assert_eq!(read_line(&["list", "03", "0201", "05"]), Ok(Request::List(first(Source::Text("03 0201 05".into())))));
        assert_eq!(read_line(&["list", ""]), Ok(Request::List(first(Source::Text("".into())))));
        assert_eq!(read_line(&["check", "--file", "-"]), Ok(Request::Check(first(Source::ByteFile("-".into())))));
        // What stands behind an option is its value, whatever it looks like.
        assert_eq!(read_line(&["check", "--hex-file", "--file"]), Ok(Request::Check(first(Source::TextFile("--file".into())))));
    }

    #[test]
    fn editions() {
        for (number, edition) in [("1", Edition::First), ("2", Edition::Second)] {
            let program = || Program { source: Source::Text("00".into()), edition };
            assert_eq!(read_line(&["list", "--edition", number, "00"]), Ok(Request::List(program())));
            assert_eq!(read_line(&["check", "00", "--edition", number]), Ok(Request::Check(program())));
            assert_eq!(read_line(&["show", "00", "--edition", number]), Ok(Request::Show { program: program(), names: Names::new() }));
            let order = Request::Order { program: program(), jobs: vec![7] };
            assert_eq!(read_line(&["order", "--edition", number, "00", "--jobs", "7"]), Ok(order));
            for command in ["dot", "svg"] {
                let Ok(Request::Draw { program: drawn, .. }) = read_line(&[command, "--edition", number, "00"]) else { panic!() };
                assert_eq!(drawn, program());
            }
        }
    }

    #[test]
    fn pictures() {
        let line = ["svg", "--steps", "17", "00", "--then", "4,5", "--name", "17=a=b", "--name", "18=filter 2", "-o", "x.svg"];
        assert_eq!(
            read_line(&line),
            Ok(Request::Draw {
                program: first(Source::Text("00".into())),
                form: Form::Svg,
                schedule: Schedule { lowest_first: Some(17), then: vec![4, 5] },
                names: Names::from([(17, "a=b".into()), (18, "filter 2".into())]),
                out: Some("x.svg".into()),
            })
        );
        // Without --steps, chosen vertices step from loading on.
        let Ok(Request::Draw { schedule, .. }) = read_line(&["dot", "--then", "0", "00"]) else { panic!() };
        assert_eq!(schedule, Schedule { lowest_first: Some(0), then: vec![0] });
    }

    #[test]
    fn orders() {
        let order = |jobs| Ok(Request::Order { program: first(Source::Text("00".into())), jobs });
        assert_eq!(read_line(&["order", "00", "--jobs", "4,1,4096"]), order(vec![4, 1, 4096]));
        assert_eq!(read_line(&["order", "--jobs", "0", "00"]), order(vec![0]));
        assert_eq!(read_line(&["order", "--jobs", "", "00"]), order(vec![]));
    }

    #[test]
    fn jobs_and_names() {
        assert_eq!(read_line(&["job", "14074000"]), Ok(Request::Job(14_074_000)));
        assert_eq!(read_line(&["job", "4294967295"]), Ok(Request::Job(u32::MAX)));
        let names = Names::from([(17, "filter 1".into())]);
        let program = first(Source::Text("00".into()));
        assert_eq!(read_line(&["show", "--name", "17=filter 1", "00"]), Ok(Request::Show { program, names }));
    }

    #[test]
    fn help_comes_first() {
        assert_eq!(read_line(&["list", "--bad", "-h"]), Ok(Request::Help));
        assert_eq!(read_line(&["--version"]), Ok(Request::Version));
    }

    #[test]
    fn mistakes() {
        let lines: [(&[&str], &str); 42] = [
            (&[], "a command is missing"),
            (&["draw", "00"], "there is no command 'draw'"),
            (&["list"], "list wants a program"),
            (&["list", "--file", "a", "00"], "the program is given twice, as a file and as text: '00'"),
            (&["list", "--file", "a", "--hex-file", "b"], "the program is given twice"),
            (&["list", "--file"], "--file wants a value behind it"),
            (&["list", "--steps", "3", "00"], "list takes no --steps"),
            (&["check", "-o", "a", "00"], "check takes no -o"),
            (&["list", "--name", "17=a", "00"], "list takes no --name"),
            (&["show", "--steps", "3", "00"], "show takes no --steps"),
            (&["show", "--name", "17=a", "-o", "a", "00"], "show takes no -o"),
            (&["show"], "show wants a program"),
            (&["job"], "job wants a number"),
            (&["job", "1", "2"], "job wants one number, not '1 2'"),
            (&["job", "4294967296"], "a job's number is one of 0 to 4294967295, not '4294967296'"),
            (&["job", "14,074,000"], "a job's number is one of 0 to 4294967295, not '14,074,000'"),
            (&["job", "-1"], "there is no option '-1'"),
            (&["job", "--file", "a"], "job takes no --file"),
            (&["job", "--edition", "2"], "job takes no --edition"),
            (&["list", "--edition", "3", "00"], "--edition is 1 or 2, not '3'"),
            (&["list", "--edition", "second", "00"], "--edition is 1 or 2, not 'second'"),
            (&["list", "--edition", "2", "--edition", "2", "00"], "--edition is given twice"),
            (&["svg", "--steps=3", "00"], "there is no option '--steps=3'"),
            (&["svg", "--steps", "-3", "00"], "--steps: '-3' is no number"),
            (&["svg", "--steps", "3", "--steps", "3", "00"], "--steps is given twice"),
            (&["svg", "--then", "1,,2", "00"], "--then: '' is no number"),
            (&["order", "00"], "order wants --jobs: where each job starts"),
            (&["order", "--jobs", "1"], "order wants a program"),
            (&["order", "00", "--jobs"], "--jobs wants a value behind it"),
            (&["order", "00", "--jobs", "1", "--jobs", "1"], "--jobs is given twice"),
            (&["order", "00", "--jobs", "1,,2"], "--jobs: '' is no number"),
            (&["order", "00", "--jobs", ","], "--jobs: '' is no number"),
            (&["order", "00", "--jobs", "1, 2"], "--jobs: ' 2' is no number"),
            (&["order", "00", "--jobs", "99999999999999999999"], "--jobs: '99999999999999999999' is no number, or too large"),
            (&["order", "00", "--jobs", "1", "--name", "1=a"], "order takes no --name"),
            (&["order", "00", "--jobs", "1", "--steps", "3"], "order takes no --steps"),
            (&["list", "00", "--jobs", "1"], "list takes no --jobs"),
            (&["svg", "00", "--jobs", "1"], "svg takes no --jobs"),
            (&["svg", "--name", "17", "00"], "--name wants JOB=WORDS, not '17'"),
            (&["svg", "--name", "17= ", "00"], "--name: no words in '17= '"),
            (&["svg", "--name", "17=a\nb", "00"], "--name: the words for job 17 have a character"),
            (&["svg", "--name", "17=a", "--name", "17=a", "00"], "job 17 is named twice"),
        ];
        for (line, words) in lines {
            let message = read_line(line).unwrap_err();
            assert!(message.starts_with(words), "{line:?}: {message}");
        }
    }
}
