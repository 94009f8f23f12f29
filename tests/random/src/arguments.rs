//! The arguments of a command.

use std::process::exit;

/// Ends the command for a wrong argument.
pub fn usage(complaint: &str, help: &str) -> ! {
    eprintln!("{complaint}\n{help}");
    exit(2)
}

/// The number after an option, if it is given.
pub fn option(arguments: &[String], name: &str, help: &str) -> Option<u64> {
    let at = arguments.iter().position(|argument| argument == name)?;
    let number = arguments.get(at + 1).and_then(|number| number.parse().ok());
    Some(number.unwrap_or_else(|| usage(&format!("{name} takes a number"), help)))
}
