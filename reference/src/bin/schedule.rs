//! `schedule encode < text > bytes` and `schedule decode < bytes > text`.

use reference::text;
use reference::tool::{convert, Tool};
use std::process::ExitCode;

const TOOL: Tool = Tool { name: "schedule", call: "schedule encode|decode < input > output" };

fn main() -> ExitCode {
    TOOL.run(|words| match *words {
        ["encode"] => convert(encode),
        ["decode"] => convert(decode),
        _ => Err(TOOL.usage()),
    })
}

fn encode(input: &[u8]) -> Result<Vec<u8>, String> {
    let given = text::given_text(input, "schedule")?;
    text::encode(given).map_err(|error| error.to_string())
}

fn decode(input: &[u8]) -> Result<Vec<u8>, String> {
    text::given_bytes(input).map(|bytes| text::decode(bytes).into_bytes())
}
