//! Puts random scripts, order forms and office texts to the reference and to other programs and compares the answers.

mod answers;
mod comparison;
mod form_lines;
mod form_rows;
mod forms;
mod generator;
mod office_texts;
mod program;
mod random;
mod sheets;
mod shrink;
mod telegrams;
mod text;

use comparison::{compare, Kind};
use generator::LINES;
use program::Program;
use std::process::ExitCode;

const USAGE: &str = "\
usage: compare [SEED] [COUNT]
Compares the reference with the programs that the environment variables SIMULATE, ORDER, OFFICE
and BENCH name (their words separated by blanks; './run --built simulate', './run --built order'
and so on if there are none) over COUNT random scripts, COUNT random order forms and COUNT random
office texts, made from SEED; BENCH is fed the telegrams of the office texts as raw bytes.
1 and 200 if they are not given.";

const SCRIPTS: Kind = Kind {
    name: "Script",
    make: generator::script,
    expected: answers::reference_script,
    answers: answers::program_script,
    shrink: shrink::shrink_script,
};

const FORMS: Kind = Kind {
    name: "Form",
    make: forms::form,
    expected: answers::reference_form,
    answers: answers::program_form,
    shrink: shrink::shrink_form,
};

const OFFICE_TEXTS: Kind = Kind {
    name: "Office text",
    make: office_texts::office_text,
    expected: answers::reference_office,
    answers: answers::program_office,
    shrink: shrink::shrink_office_text,
};

/// The same texts, of which a program hears the telegrams byte by byte.
const BENCH_TEXTS: Kind = Kind {
    name: "Office text as raw bytes",
    expected: answers::reference_bench,
    answers: answers::program_bench,
    ..OFFICE_TEXTS
};

fn main() -> ExitCode {
    let arguments: Vec<String> = std::env::args().skip(1).collect();
    let numbers: Option<Vec<u64>> = arguments.iter().map(|word| word.parse().ok()).collect();
    let (seed, count) = match numbers.as_deref() {
        Some([]) => (1, 200),
        Some(&[seed]) => (seed, 200),
        Some(&[seed, count]) => (seed, count),
        _ => {
            eprintln!("{USAGE}");
            return ExitCode::from(2);
        }
    };
    match compare_all(seed, count) {
        Ok(true) => ExitCode::SUCCESS,
        Ok(false) => ExitCode::FAILURE,
        Err(complaint) => {
            eprintln!("compare: {complaint}");
            ExitCode::from(2)
        }
    }
}

/// Whether all gave the same answers; after a kind with a difference no other is tried.
fn compare_all(seed: u64, count: u64) -> Result<bool, String> {
    let comparisons = [
        (SCRIPTS, "SIMULATE", "./run --built simulate", format!("scripts of {LINES} lines")),
        (FORMS, "ORDER", "./run --built order", "order forms".to_string()),
        (OFFICE_TEXTS, "OFFICE", "./run --built office", "office texts".to_string()),
        (BENCH_TEXTS, "BENCH", "./run --built bench", "office texts as raw bytes".to_string()),
    ];
    for (kind, variable, otherwise, what) in comparisons {
        if !compare(&kind, &named(variable, otherwise), seed, count)? {
            return Ok(false);
        }
        println!("{count} {what}: no difference");
    }
    Ok(true)
}

fn named(variable: &str, otherwise: &str) -> Program {
    Program::new(std::env::var(variable).unwrap_or_else(|_| otherwise.to_string()))
}
