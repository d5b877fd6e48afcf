//! `play --schedule FILE | --text FILE [--all]`: runs a schedule through the proved library and says what each record
//! did.

use std::io::{self, BufWriter};
use std::process::ExitCode;
use tools::input::{self, Source};
use tools::play;

const USAGE: &str = "usage: play --schedule FILE | --text FILE [--all]";
const MORE: &str = "FILE is a schedule as bytes or as text, and - is standard input. Each record is shown with
what it did or why it was refused, and with the processes that it changed; with --all every process is shown.";

fn main() -> ExitCode {
    match run() {
        Ok(()) => ExitCode::SUCCESS,
        Err(reason) => {
            eprintln!("play: {reason}");
            ExitCode::FAILURE
        }
    }
}

fn run() -> Result<(), String> {
    let arguments = input::arguments()?;
    let words: Vec<&str> = arguments.iter().map(String::as_str).collect();
    let (source, all) = match words[..] {
        ["--help" | "-h"] => return help(),
        ["--all", flag, name] | [flag, name, "--all"] => (source(flag, name)?, true),
        [flag, name] => (source(flag, name)?, false),
        _ => return Err(USAGE.into()),
    };
    let bytes = input::read(&source)?;
    let mut out = BufWriter::new(io::stdout().lock());
    play::play(&bytes, all, &mut out).map_err(|error| error.to_string())
}

fn source(flag: &str, name: &str) -> Result<Source, String> {
    match flag {
        "--schedule" => Ok(Source::Schedule(name.into())),
        "--text" => Ok(Source::Text(name.into())),
        _ => Err(USAGE.into()),
    }
}

fn help() -> Result<(), String> {
    use io::Write;
    let mut out = io::stdout();
    writeln!(out, "{USAGE}\n{MORE}")
        .and_then(|()| out.flush())
        .map_err(|error| play::Error::Write(error).to_string())
}
