//! What the reference and a program answer, as lines to compare; how the program ended is one of them.

use crate::program::{Program, Run};
use reference::{form, office, script};
use std::io::{self, Write};

const ACCEPTED: &str = "(exit status 0, nothing on standard error)";
const NOT_ACCEPTED: &str = "(exit status 1, one line on standard error)";

pub fn reference_script(script: &[u8]) -> Vec<String> {
    let mut output = Vec::new();
    script::run(script, &mut output).expect("memory can be read and written");
    split(&output)
}

pub fn program_script(program: &Program, script: Vec<u8>) -> Result<Vec<String>, String> {
    let run = program.run(script)?;
    // No answer to a script stands there, but whoever compares may want to know.
    let _ = io::stderr().write_all(&run.errors);
    let mut lines = split(&run.output);
    if !run.status.success() {
        lines.push(format!("(ended with {})", run.status));
    }
    Ok(lines)
}

pub fn reference_form(form: &[u8]) -> Vec<String> {
    let mut output = Vec::new();
    let is_accepted = form::run(form, &mut output).expect("memory can be read and written");
    let mut lines = split(&output);
    lines.push(if is_accepted { ACCEPTED } else { NOT_ACCEPTED }.to_string());
    lines
}

pub fn program_form(program: &Program, form: Vec<u8>) -> Result<Vec<String>, String> {
    let run = program.run(form)?;
    let mut lines = split(&run.output);
    lines.extend(acceptance(&run));
    Ok(lines)
}

pub fn reference_office(text: &[u8]) -> Vec<String> {
    let mut output = Vec::new();
    office::run(text, &mut output).expect("memory can be read and written");
    split(&output)
}

/// Nothing stands on standard error for an office text, whatever its lines are.
pub fn program_office(program: &Program, text: Vec<u8>) -> Result<Vec<String>, String> {
    Ok(quiet_answers(&program.run(text)?))
}

/// The replies alone, which are those to the telegrams as raw bytes.
pub fn reference_bench(text: &[u8]) -> Vec<String> {
    let is_reply = |answer: &String| answer != "silence" && !answer.starts_with("error at line ");
    reference_office(text).into_iter().filter(is_reply).collect()
}

/// To the telegrams of an office text as raw bytes; its other lines are nothing that could be fed.
pub fn program_bench(program: &Program, text: Vec<u8>) -> Result<Vec<String>, String> {
    let telegram = |line: &[u8]| match office::meaning(line) {
        office::Meaning::Telegram(bytes) => Some(bytes),
        office::Meaning::PassedOver | office::Meaning::Error => None,
    };
    let bytes = text.split(|&byte| byte == b'\n').filter_map(telegram).flatten().collect();
    Ok(quiet_answers(&program.run(bytes)?))
}

/// What a program wrote; that it said anything on standard error or did not end well is told behind it.
fn quiet_answers(run: &Run) -> Vec<String> {
    let mut lines = split(&run.output);
    if !run.status.success() || !run.errors.is_empty() {
        lines.extend(how_it_ended(run));
    }
    lines
}

/// Whether a program accepted a form, which its exit status and standard error have to say alike. The words
/// there are its own, so they are told only if something else is wrong.
fn acceptance(run: &Run) -> Vec<String> {
    let errors = split(&run.errors);
    match (run.status.code(), errors.as_slice()) {
        (Some(0), []) => vec![ACCEPTED.to_string()],
        (Some(1), [line]) if !line.is_empty() => vec![NOT_ACCEPTED.to_string()],
        _ => how_it_ended(run),
    }
}

fn how_it_ended(run: &Run) -> Vec<String> {
    let told = split(&run.errors).into_iter().map(|line| format!("(on standard error: {line})"));
    told.chain([format!("(ended with {})", run.status)]).collect()
}

fn split(output: &[u8]) -> Vec<String> {
    let mut lines: Vec<String> =
        output.split(|&byte| byte == b'\n').map(|line| line.escape_ascii().to_string()).collect();
    match lines.last().is_some_and(String::is_empty) {
        true => {
            lines.pop();
        }
        false => lines.push("(no newline at the end)".to_string()),
    }
    lines
}

#[cfg(test)]
mod tests {
    use super::*;
    use std::os::unix::process::ExitStatusExt;
    use std::process::ExitStatus;

    fn acceptance_of(code: i32, errors: &str) -> Vec<String> {
        let status = ExitStatus::from_raw(code << 8);
        acceptance(&Run { output: Vec::new(), errors: errors.into(), status })
    }

    #[test]
    fn every_line_of_the_output_is_one_to_compare() {
        let lines = reference_form(b"4711,1\n4711,2\n");
        let told =
            ["line 2: serial 4711 stands already in line 1", "the lowest free number is 3", NOT_ACCEPTED];
        assert_eq!(lines, told);
        let program = Program::new(r"printf one\ntwo\n".to_string());
        assert_eq!(program_form(&program, Vec::new()).unwrap(), ["one", "two", ACCEPTED]);
    }

    #[test]
    fn exit_status_and_standard_error_have_to_agree() {
        assert_eq!(acceptance_of(0, ""), [ACCEPTED]);
        assert_eq!(acceptance_of(1, "order: no\n"), [NOT_ACCEPTED]);
        for (code, errors) in
            [(0, "no\n"), (1, ""), (1, "no\nno\n"), (1, "no"), (1, "\n"), (2, "no\n"), (2, "")]
        {
            let lines = acceptance_of(code, errors);
            assert!(!lines.contains(&ACCEPTED.to_string()), "{code} {errors}");
            assert!(!lines.contains(&NOT_ACCEPTED.to_string()), "{code} {errors}");
        }
    }

    #[test]
    fn an_office_text_wants_quiet_programs() {
        let status = ExitStatus::from_raw(0);
        let run = |errors: &str| Run { output: b"silence\n".to_vec(), errors: errors.into(), status };
        assert_eq!(quiet_answers(&run("")), ["silence"]);
        assert_eq!(
            quiet_answers(&run("no\n"))[1..],
            ["(on standard error: no)", "(ended with exit status: 0)"]
        );
        let failed = Run { status: ExitStatus::from_raw(1 << 8), ..run("") };
        assert_eq!(quiet_answers(&failed)[1..], ["(ended with exit status: 1)"]);
    }

    /// A sound read of 20h, one for another node, one too short, and 90 for 04h; `cat` hands out what it is fed.
    #[test]
    fn the_bench_is_fed_the_telegrams_alone() {
        let text = b"# x\n001f200000000000003f\r\n00012000000000000021\n001F\n\n 011F0400000000005A40";
        assert_eq!(reference_bench(text), ["001F200000000000053A", "011FFD00000000028263"]);
        let fed = program_bench(&Program::new("cat".to_string()), text.to_vec()).unwrap();
        let telegrams =
            b"\0\x1F \0\0\0\0\0\0?\0\x01 \0\0\0\0\0\0!\x01\x1F\x04\0\0\0\0\0Z@".escape_ascii().to_string();
        assert_eq!(fed, [telegrams, "(no newline at the end)".to_string()]);
        assert_eq!(program_bench(&Program::new("cat".to_string()), Vec::new()).unwrap(), [""; 0]);
    }
}
