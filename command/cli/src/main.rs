//! `hirvelan`: checks and prints files of Thrift definitions. All reading, printing and numbering is the proved library's.

#![forbid(unsafe_code)]

mod arguments;
mod diff;
mod enums;
mod explain;
mod files;
mod json;
mod nodes;
mod outline;
mod output;
mod replace;
mod report;
mod run;

use arguments::Request;
use std::process::ExitCode;

fn main() -> ExitCode {
    let words = std::env::args_os().skip(1).collect();
    let status = match arguments::parse(words) {
        Ok(Request::Help) => output::write_plain(arguments::HELP.as_bytes()),
        Ok(Request::Run(task)) => run::run(&task),
        Err(trouble) => {
            output::complain(&format!("hirvelan: {trouble}\n\n{}", arguments::USAGE));
            output::TROUBLE
        }
    };
    ExitCode::from(status)
}
