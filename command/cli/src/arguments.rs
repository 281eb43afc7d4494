//! What the command is asked to do.

use std::ffi::OsString;

pub const USAGE: &str = "\
usage: hirvelan check [--json] FILE..
       hirvelan print [-w] [-l] [-d] [--indent N] [--json] FILE..
       hirvelan nodes [--json] FILE
       hirvelan outline [--json] FILE..
       hirvelan enums [--json] FILE..
       hirvelan help
";

pub const HELP: &str = "\
hirvelan checks and prints files of Thrift definitions.

usage: hirvelan check [--json] FILE..
       hirvelan print [-w] [-l] [-d] [--indent N] [--json] FILE..
       hirvelan nodes [--json] FILE
       hirvelan outline [--json] FILE..
       hirvelan enums [--json] FILE..
       hirvelan help

check         reads each file and says what is wrong with it
print         prints each file's definitions in one style, to standard output
  -w          writes the print over the file, if it differs; a file that is refused stays as it is
  -l          only names the files whose print differs
  -d          only shows how the print differs, as a patch
  --indent N  spaces a level, 0 to 8; 2 if not given
nodes         lists a file's records: counts, then a line for each node, ten numbers, and for each comment, nine
outline       lists each file's definitions, a line for each: file:line:col-line:col kind name, the end one past the last byte;
              a namespace has its scope before its name; control and invisible characters are escaped, a line feed as \\n (--json has them as they are)
enums         lists the members of each file's enums, a line for each: file:line:col Enum.MEMBER = number, the place that of its name;
              a member without a number has the one before it plus one, the first 0; a number that does not fit in signed 32 bits is refused
--json        one line for each file, for other programs

FILE is a file, a folder (all *.thrift in it and below, none whose name starts with a dot), or - for standard input.
Exit status: 0 fine; 1 something is refused, or with -l or -d would change; 2 wrong usage, or a file can't be read or written.
";

pub const STANDARD_INPUT: &str = "-";

#[derive(Clone, Copy, PartialEq, Eq)]
pub enum Verb {
    Check,
    Print,
    Nodes,
    Outline,
    Enums,
}

pub struct Task {
    pub verb: Verb,
    pub write: bool,
    pub list: bool,
    pub diff: bool,
    pub indent: u32,
    pub json: bool,
    pub paths: Vec<OsString>,
}

pub enum Request {
    Help,
    Run(Task),
}

/// The indent that a word gives.
fn indent(word: Option<&str>) -> Result<u32, String> {
    match word.and_then(|w| w.parse().ok()) {
        Some(spaces @ 0..=8) => Ok(spaces),
        _ => Err("--indent takes a number from 0 to 8".to_string()),
    }
}

fn verb(word: &OsString) -> Result<Option<Verb>, String> {
    match word.to_str() {
        Some("check") => Ok(Some(Verb::Check)),
        Some("print") => Ok(Some(Verb::Print)),
        Some("nodes") => Ok(Some(Verb::Nodes)),
        Some("outline") => Ok(Some(Verb::Outline)),
        Some("enums") => Ok(Some(Verb::Enums)),
        Some("help" | "--help" | "-h") => Ok(None),
        _ => Err(format!("there is no command {word:?}; say check, print, nodes, outline or enums")),
    }
}

/// The request, or what is wrong with it.
pub fn parse(words: Vec<OsString>) -> Result<Request, String> {
    let mut words = words.into_iter();
    let first = words.next().ok_or("say what to do")?;
    let Some(verb) = verb(&first)? else {
        return Ok(Request::Help);
    };
    let mut task = Task { verb, write: false, list: false, diff: false, indent: 2, json: false, paths: Vec::new() };
    let mut options = true;
    while let Some(word) = words.next() {
        let option = match word.to_str() {
            Some(w) if options && w.len() > 1 && w.starts_with('-') => w,
            _ => {
                task.paths.push(word);
                continue;
            }
        };
        match option {
            "--" => options = false,
            "--help" | "-h" => return Ok(Request::Help),
            "--json" => task.json = true,
            "-w" if verb == Verb::Print => task.write = true,
            "-l" if verb == Verb::Print => task.list = true,
            "-d" if verb == Verb::Print => task.diff = true,
            "--indent" if verb == Verb::Print => task.indent = indent(words.next().as_deref().and_then(|w| w.to_str()))?,
            o if verb == Verb::Print && o.starts_with("--indent=") => task.indent = indent(o.strip_prefix("--indent="))?,
            _ => return Err(format!("{} has no option {option:?}", first.to_string_lossy())),
        }
    }
    agreed(task).map(Request::Run)
}

/// The task, if its parts go together.
fn agreed(task: Task) -> Result<Task, String> {
    let inputs = task.paths.iter().filter(|p| *p == STANDARD_INPUT).count();
    if task.paths.is_empty() {
        return Err("name a file, a folder, or - for standard input".to_string());
    }
    if inputs > 1 {
        return Err("standard input (-) can be read only once".to_string());
    }
    if task.write && inputs > 0 {
        return Err("-w needs a file to write to; standard input (-) is none".to_string());
    }
    if task.verb == Verb::Nodes && task.paths.len() > 1 {
        return Err("nodes takes one file".to_string());
    }
    Ok(task)
}
