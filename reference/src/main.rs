//! Answers a script or whole telegrams from standard input line by line on standard output, or checks an order form.

use reference::{form, office, script};
use std::io::{self, ErrorKind};
use std::process::ExitCode;

fn main() -> ExitCode {
    let arguments: Vec<_> = std::env::args_os().skip(1).collect();
    match arguments.as_slice() {
        [] => answered(script::run(io::stdin().lock(), io::stdout().lock())),
        [argument] if argument == "office" => answered(office::run(io::stdin().lock(), io::stdout().lock())),
        [argument] if argument == "order" => check_form(),
        [argument] if argument == "help" => {
            print!("{}", script::HELP);
            ExitCode::SUCCESS
        }
        _ => {
            eprintln!(
                "reference: the only argument is 'help', 'office' or 'order'; all else comes from standard input"
            );
            ExitCode::from(2)
        }
    }
}

fn answered(outcome: io::Result<()>) -> ExitCode {
    match outcome {
        Ok(()) => ExitCode::SUCCESS,
        // Whoever read the answers has seen enough.
        Err(error) if error.kind() == ErrorKind::BrokenPipe => ExitCode::SUCCESS,
        Err(error) => failure(&error),
    }
}

fn check_form() -> ExitCode {
    match form::run(io::stdin().lock(), io::stdout().lock()) {
        Ok(true) => ExitCode::SUCCESS,
        Ok(false) => failure(&"the form is not accepted"),
        Err(error) => failure(&error),
    }
}

fn failure(reason: &dyn std::fmt::Display) -> ExitCode {
    eprintln!("reference: {reason}");
    ExitCode::FAILURE
}
