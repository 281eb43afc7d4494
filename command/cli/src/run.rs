//! One run over all files.

use crate::arguments::{Task, Verb};
use crate::diff;
use crate::enums;
use crate::files::{self, Input, Trouble};
use crate::nodes;
use crate::outline;
use crate::output::{Output, REFUSED, TROUBLE};
use crate::replace;
use crate::report;
use hirvelan::Refusal;
use std::path::Path;

/// The exit status.
pub fn run(task: &Task) -> u8 {
    let mut out = Output::new();
    let (inputs, mut troubles) = files::find(&task.paths);
    let folder = task.paths.iter().find(|p| Path::new(p).is_dir());
    if let (Verb::Nodes, Some(folder)) = (task.verb, folder) {
        troubles = vec![Trouble { name: folder.clone(), why: "this is a folder; nodes takes one file".to_string() }];
    }
    for trouble in &troubles {
        tell_trouble(task, trouble, &mut out);
    }
    if task.verb == Verb::Nodes && !troubles.is_empty() {
        return out.status();
    }
    for (done, input) in inputs.iter().enumerate() {
        if out.is_closed() {
            break;
        }
        out.progress(done, inputs.len());
        one(task, input, &mut out);
    }
    out.clear();
    out.status()
}

fn tell_trouble(task: &Task, trouble: &Trouble, out: &mut Output) {
    out.set(TROUBLE);
    if task.json {
        out.write(&report::trouble_json(trouble));
    } else {
        out.complain(&report::trouble(trouble));
    }
}

fn tell_refusal(task: &Task, input: &Input, text: &[u8], refusal: &Refusal, out: &mut Output) {
    out.set(REFUSED);
    if task.json {
        out.write(&report::refusal_json(input.name(), text, refusal));
    } else {
        out.complain(&report::refusal(input.name(), text, refusal));
    }
}

fn one(task: &Task, input: &Input, out: &mut Output) {
    let text = match input.read() {
        Ok(text) => text,
        Err(error) => {
            let why = format!("can't be read: {}", files::told(&error));
            return tell_trouble(task, &Trouble { name: input.name().to_os_string(), why }, out);
        }
    };
    match task.verb {
        Verb::Check => check(task, input, &text, out),
        Verb::Nodes => list_nodes(task, input, &text, out),
        Verb::Outline => list_definitions(task, input, &text, out),
        Verb::Enums => list_members(task, input, &text, out),
        Verb::Print => print(task, input, &text, out),
    }
}

fn check(task: &Task, input: &Input, text: &[u8], out: &mut Output) {
    match hirvelan::read(text) {
        Ok(reading) if task.json => {
            let object = report::named(input.name(), "fine");
            out.write(&object.number("nodes", reading.nodes.len() as u64).number("comments", reading.comments.len() as u64).line());
        }
        Ok(_) => {}
        Err(refusal) => tell_refusal(task, input, text, &refusal, out),
    }
}

fn list_nodes(task: &Task, input: &Input, text: &[u8], out: &mut Output) {
    match hirvelan::read(text) {
        Ok(reading) if task.json => out.write(&report::named(input.name(), "fine").rows("nodes", &reading.nodes).rows("comments", &reading.comments).line()),
        Ok(reading) => out.write(&nodes::listing(&reading)),
        Err(refusal) => {
            if !task.json {
                out.write(&nodes::refused(&refusal));
            }
            tell_refusal(task, input, text, &refusal, out);
        }
    }
}

fn list_definitions(task: &Task, input: &Input, text: &[u8], out: &mut Output) {
    match hirvelan::read(text) {
        Ok(reading) if task.json => out.write(&outline::json(input.name(), text, &reading)),
        Ok(reading) => out.write(&outline::listing(input.name(), text, &reading)),
        Err(refusal) => tell_refusal(task, input, text, &refusal, out),
    }
}

fn list_members(task: &Task, input: &Input, text: &[u8], out: &mut Output) {
    match hirvelan::enum_numbers(text) {
        Ok(members) if task.json => out.write(&enums::json(input.name(), text, &members)),
        Ok(members) => out.write(&enums::listing(input.name(), text, &members)),
        Err(refusal) => tell_refusal(task, input, text, &refusal, out),
    }
}

/// Why a print is no good in the file's place: it would not stay as it is when printed again.
/// By claim 3 that is so only of a print that is too long to be read; it is tried all the same before a file is written.
fn unstable(printed: &[u8], indent: u32) -> Option<&'static str> {
    if hirvelan::print(printed, indent).is_ok_and(|again| again == printed) {
        None
    } else if printed.len() > hirvelan::LONGEST {
        Some("its print has more than 65536 bytes and could not be read again; split the file")
    } else {
        Some("its print would not stay as it is when printed again; this can't be the file's fault, please report it")
    }
}

fn print(task: &Task, input: &Input, text: &[u8], out: &mut Output) {
    let printed = match hirvelan::print(text, task.indent) {
        Ok(printed) => printed,
        Err(refusal) => return tell_refusal(task, input, text, &refusal, out),
    };
    let changed = printed != text;
    let empty = task.write && changed && printed.is_empty();
    let lossy = if empty { Some("it has no definition, so its print is empty and its comments would be lost") } else { unstable(&printed, task.indent) };
    let mut written = false;
    if let (true, true, None, Input::File(path)) = (task.write, changed, lossy, input) {
        if let Err(failed) = replace::replace(path, text, &printed) {
            let after = if failed.written { "it is written, but " } else { "not written, the file is as it was: " };
            let why = format!("{after}{}", failed.why);
            return tell_trouble(task, &Trouble { name: input.name().to_os_string(), why }, out);
        }
        written = true;
    }
    if changed && !task.write && (task.list || task.diff) {
        out.set(REFUSED);
    }
    let plain = !task.write && !task.list && !task.diff;
    let patch = if task.diff { diff::unified(&report::shown(input.name()), text, &printed) } else { Vec::new() };
    if task.json {
        let mut object = report::named(input.name(), if lossy.is_some() { "lossy" } else { "fine" }).truth("changed", changed).truth("written", written);
        if let Some(why) = lossy {
            object = object.text("message", why);
        }
        if plain {
            object = object.text("print", &String::from_utf8_lossy(&printed));
        }
        if task.diff {
            object = object.text("diff", &String::from_utf8_lossy(&patch));
        }
        out.write(&object.line());
    } else {
        if task.list && changed {
            out.write(&[input.name().as_encoded_bytes(), b"\n"].concat());
        }
        out.write(&patch);
        if plain {
            out.write(&printed);
        }
    }
    if let Some(why) = lossy {
        out.set(REFUSED);
        if !task.json {
            let end = if task.write { "; not written, the file is as it was" } else { "" };
            out.complain(&format!("{}: {why}{end}\n", report::shown(input.name())));
        }
    }
}
