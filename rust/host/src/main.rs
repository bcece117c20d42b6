use host::commands::{self, Failed};
use host::log::printable;
use host::options::{self, Known, Written};
use host::{args, help, rmt, server, trial};
use std::ffi::OsString;
use std::io::{Write, stdout};
use std::process::ExitCode;

struct Command {
    name: &'static str,
    help: &'static str,
    known: &'static [Known],
    run: fn(&Written) -> Result<(), Failed>,
}

fn serve(w: &Written) -> Result<(), Failed> {
    Ok(server::run(args::serve(w).map_err(Failed::Words)?)?)
}

const COMMANDS: [Command; 8] = [
    Command { name: "serve", help: help::SERVE, known: &args::SERVE, run: serve },
    Command { name: "new", help: help::NEW, known: &[], run: commands::new },
    Command { name: "list", help: help::LIST, known: &[], run: commands::list },
    Command { name: "check", help: help::CHECK, known: &[], run: commands::check },
    Command { name: "library", help: help::LIBRARY, known: &commands::LIBRARY, run: commands::library },
    Command { name: "accounts", help: help::ACCOUNTS, known: &[], run: commands::accounts },
    Command { name: "rmt", help: help::RMT, known: &rmt::RMT, run: rmt::run },
    Command { name: "try", help: help::TRY, known: &trial::TRY, run: trial::run },
];

/// A text for standard output, whose end may be closed.
fn print(text: &str) -> ExitCode {
    let _ = stdout().write_all(text.as_bytes());
    ExitCode::SUCCESS
}

/// One line: what is wrong, and where to read on.
fn wrong(command: &str, why: &str) -> ExitCode {
    eprintln!("mossgoblin{command}: {why}; `mossgoblin{command} --help` has examples");
    ExitCode::from(2)
}

fn main() -> ExitCode {
    let mut words = std::env::args_os().skip(1);
    let first = words.next().unwrap_or_default();
    match first.to_str() {
        Some("") => wrong("", "a command is missing: serve, new, list, check, library, accounts, rmt or try"),
        Some("--version" | "-V") => print(&format!("mossgoblin {} (NDMP version 4)\n", env!("CARGO_PKG_VERSION"))),
        Some("--help" | "-h") => print(help::PROGRAM),
        Some("help") => match words.next().map(|w| COMMANDS.iter().find(|c| w == c.name)) {
            Some(Some(command)) => print(command.help),
            _ => print(help::PROGRAM),
        },
        Some(name) => match COMMANDS.iter().find(|c| c.name == name) {
            Some(command) => run(command, words),
            None => {
                let near = options::nearest(name, COMMANDS.iter().map(|c| c.name));
                wrong("", &format!("no command {name}{near}"))
            }
        },
        None => wrong("", &format!("no command {first:?}")),
    }
}

fn run(command: &Command, words: impl Iterator<Item = OsString>) -> ExitCode {
    let name = format!(" {}", command.name);
    let written = match options::parse(words, command.known) {
        Ok(written) => written,
        Err(why) => return wrong(&name, &why),
    };
    if written.help {
        return print(command.help);
    }
    match (command.run)(&written) {
        Ok(()) => ExitCode::SUCCESS,
        Err(Failed::Words(why)) => wrong(&name, &why),
        Err(Failed::Work(why)) => {
            // Names of files are in it, and may hold anything.
            eprintln!("mossgoblin{name}: {}", printable(&why));
            ExitCode::from(1)
        }
    }
}
