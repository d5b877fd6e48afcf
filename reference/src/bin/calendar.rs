//! `calendar encode < text > bytes`, `calendar decode < bytes > text` and `calendar week WEEK < bytes`, where WEEK is
//! a number, or a date such as 2024-09-02, which lies in it.

use reference::tool::{convert, Tool};
use reference::{calendar_text, text};
use std::process::ExitCode;

const TOOL: Tool = Tool { name: "calendar", call: "calendar encode|decode|week WEEK < input > output" };

fn main() -> ExitCode {
    TOOL.run(|words| match *words {
        ["encode"] => convert(encode),
        ["decode"] => convert(decode),
        ["week", week] => {
            let week = calendar_text::week(week)?;
            convert(|input| show(input, week))
        }
        _ => Err(TOOL.usage()),
    })
}

fn encode(input: &[u8]) -> Result<Vec<u8>, String> {
    let given = text::given_text(input, "calendar")?;
    calendar_text::encode(given).map_err(|error| error.to_string())
}

fn decode(input: &[u8]) -> Result<Vec<u8>, String> {
    text::given_bytes(input).and_then(calendar_text::decode).map(String::into_bytes)
}

/// A calendar without records is one too: nobody takes part.
fn show(input: &[u8], week: u16) -> Result<Vec<u8>, String> {
    let bytes = if input.is_empty() { input } else { text::given_bytes(input)? };
    calendar_text::show(bytes, week).map(String::into_bytes)
}
