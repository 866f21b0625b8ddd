//! The help texts.

use crate::arguments::Choice;
use crate::commands::{Command, COMMANDS};

const STATUS: &str = "
Status 0: nothing was found. 1: something is refused, missing or different.
2: the arguments or a file could not be used.
";

/// What `checker --help` prints.
pub fn of_all() -> String {
    let mut text = "A second implementation of document 01, and tools for the first.

usage: checker COMMAND [ARGUMENT ..]

"
    .to_string();
    for Command { name, summary, .. } in COMMANDS {
        text.push_str(&format!("  {name:<12} {summary}\n"));
    }
    text.push_str(
        "\n'checker COMMAND --help' tells more of a command, 'checker --version' the version.\n",
    );
    text + STATUS
}

/// What `checker COMMAND --help` prints.
pub fn of(command: &Command) -> String {
    let Command {
        name, usage, help, ..
    } = command;
    let usage = format!("checker {name} {usage}");
    let mut text = format!("usage: {}\n\n{help}\n", usage.trim_end());
    if !command.choices.is_empty() {
        text.push('\n');
    }
    for Choice { name, value, help } in command.choices {
        let option = format!("{name} {}", value.unwrap_or_default());
        text.push_str(&format!("  {option:<22} {help}\n"));
    }
    text + STATUS
}
