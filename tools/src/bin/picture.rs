//! Draws a schedule: `picture --schedule FILE | --text FILE --out FILE.svg [--title WORDS]`.

use std::ffi::OsString;
use std::fs;
use std::io::{self, Write};
use std::path::{Path, PathBuf};
use std::process::ExitCode;
use tools::input::{self, Source};
use tools::picture;

const USAGE: &str = "usage: picture --schedule FILE | --text FILE --out FILE.svg [--title WORDS]";

struct Arguments {
    source: Source,
    out: String,
    title: Option<String>,
}

fn main() -> ExitCode {
    let done = parse(std::env::args_os().skip(1)).and_then(|arguments| match arguments {
        Some(arguments) => make(&arguments),
        None => put(&format!("{USAGE}\nFILE may be - for standard input, and for standard output.\n")),
    });
    match done {
        Ok(()) => ExitCode::SUCCESS,
        Err(message) => {
            // Where the message cannot be written either, the exit status still tells.
            let _ = writeln!(io::stderr(), "picture: {message}");
            ExitCode::FAILURE
        }
    }
}

/// None for `--help`.
fn parse(arguments: impl Iterator<Item = OsString>) -> Result<Option<Arguments>, String> {
    let (mut source, mut out, mut title) = (None, None, None);
    let mut words = arguments.map(OsString::into_string);
    while let Some(word) = words.next() {
        let option = word.map_err(not_text)?;
        let mut value = || match words.next() {
            Some(value) => value.map_err(not_text),
            None => Err(format!("{option} wants a word after it; {USAGE}")),
        };
        let repeated = match option.as_str() {
            "--schedule" => source.replace(Source::Schedule(value()?)).is_some(),
            "--text" => source.replace(Source::Text(value()?)).is_some(),
            "--out" => out.replace(value()?).is_some(),
            "--title" => title.replace(value()?).is_some(),
            "--help" => return Ok(None),
            _ => return Err(format!("unknown argument {option}; {USAGE}")),
        };
        if repeated {
            return Err(format!("{option} is one too many; {USAGE}"));
        }
    }
    let source = source.ok_or_else(|| format!("no schedule is given; {USAGE}"))?;
    let out = out.ok_or_else(|| format!("no --out is given; {USAGE}"))?;
    Ok(Some(Arguments { source, out, title }))
}

fn not_text(word: OsString) -> String {
    format!("the argument {} is not UTF-8 text", word.to_string_lossy())
}

/// The whole picture is made before anything is written.
fn make(arguments: &Arguments) -> Result<(), String> {
    let bytes = input::read(&arguments.source)?;
    let picture = picture::draw(&bytes, arguments.title.as_deref())?;
    if arguments.out == "-" {
        put(&picture)
    } else {
        write(&arguments.out, &picture)
    }
}

fn put(text: &str) -> Result<(), String> {
    let mut out = io::stdout().lock();
    let written = out.write_all(text.as_bytes()).and_then(|()| out.flush());
    written.map_err(|error| format!("standard output: {error}"))
}

/// Writes beside the file and renames, so that a failure leaves what was there.
fn write(out: &str, picture: &str) -> Result<(), String> {
    let message = |error: io::Error| format!("{out}: {error}");
    let target = target(out)?;
    let beside = beside(&target).ok_or_else(|| format!("{out} is no name of a file"))?;
    let mut file = fs::File::create_new(&beside).map_err(message)?;
    let written = file.write_all(picture.as_bytes()).and_then(|()| file.sync_all());
    drop(file);
    let renamed = written.and_then(|()| fs::rename(&beside, &target));
    renamed.map_err(|error| {
        // What failed is said; that the rest cannot be removed either would not help.
        let _ = fs::remove_file(&beside);
        message(error)
    })
}

/// The file to write: where `out` is a link to one, that one. A device or a folder is not renamed over.
fn target(out: &str) -> Result<PathBuf, String> {
    match fs::metadata(out) {
        Ok(found) if !found.is_file() => {
            Err(format!("{out} is not a file (for standard output give --out -)"))
        }
        Ok(_) => fs::canonicalize(out).map_err(|error| format!("{out}: {error}")),
        Err(_) => Ok(PathBuf::from(out)),
    }
}

/// A name in the same folder.
fn beside(target: &Path) -> Option<PathBuf> {
    let mut name = OsString::from(".");
    name.push(target.file_name()?);
    name.push(format!(".{}", std::process::id()));
    Some(target.with_file_name(name))
}
