//! The program of the paper, on standard input and output. Any bytes are an input, also none.

use reference::simulate::simulate;
use reference::tool::{convert, Tool};
use std::process::ExitCode;

const TOOL: Tool = Tool { name: "simulate_reference", call: "simulate_reference < bytes > lines" };

fn main() -> ExitCode {
    TOOL.run(|words| match *words {
        [] => convert(|input| Ok(simulate(input).into_bytes())),
        _ => Err(TOOL.usage()),
    })
}
