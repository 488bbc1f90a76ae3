//! Looks for a difference between the reference and a program, and shows it as short as it can be made.

use crate::program::Program;
use crate::shrink::StillDiffers;
use crate::text::Text;

/// What is put to both, and what counts as the answers to it.
pub struct Kind {
    pub name: &'static str,
    /// From a seed and a number.
    pub make: fn(u64, u64) -> Text,
    pub expected: fn(&[u8]) -> Vec<String>,
    pub answers: fn(&Program, Vec<u8>) -> Result<Vec<String>, String>,
    pub shrink: fn(Text, StillDiffers<Text>) -> Text,
}

/// Whether all gave the same answers.
pub fn compare(kind: &Kind, program: &Program, seed: u64, count: u64) -> Result<bool, String> {
    for number in 1..=count {
        let text = (kind.make)(seed, number);
        let is_different = differs(kind, program, &text)
            .map_err(|message| format!("{} {number} of seed {seed}: {message}", kind.name.to_lowercase()))?;
        if is_different {
            println!("{} {number} of seed {seed} gives different answers.", kind.name);
            report(kind, program, &shortest(kind, program, text)?)?;
            return Ok(false);
        }
    }
    Ok(true)
}

fn differs(kind: &Kind, program: &Program, text: &Text) -> Result<bool, String> {
    let bytes = text.bytes();
    let expected = (kind.expected)(&bytes);
    Ok((kind.answers)(program, bytes)? != expected)
}

fn shortest(kind: &Kind, program: &Program, text: Text) -> Result<Text, String> {
    let mut complaint = None;
    let shrunk = (kind.shrink)(text, &mut |text| {
        // After a complaint nothing more is tried, so that shrinking comes to its end.
        complaint.is_none()
            && differs(kind, program, text).unwrap_or_else(|message| {
                complaint = Some(message);
                false
            })
    });
    complaint.map_or(Ok(shrunk), Err)
}

fn report(kind: &Kind, program: &Program, text: &Text) -> Result<(), String> {
    let bytes = text.bytes();
    let expected = (kind.expected)(&bytes);
    let answers = (kind.answers)(program, bytes)?;
    println!("The shortest {} that still does:", kind.name.to_lowercase());
    for line in &text.lines {
        println!("    {}", readable(line));
    }
    if text.lines.is_empty() {
        println!("    (nothing)");
    } else if !text.ends_in_newline {
        println!("    (no newline at the end)");
    }
    println!("The reference answers:");
    for line in &expected {
        println!("    {line}");
    }
    println!("{} answers:", program.command_line());
    for line in &answers {
        println!("    {line}");
    }
    Ok(())
}

/// Bytes that a terminal would not show as they are, as their hex digits after a backslash. Of a line that
/// is too long to count them, their number too.
fn readable(line: &[u8]) -> String {
    const COUNTABLE: usize = 100;
    let shown: String = line
        .iter()
        .map(|&byte| match byte {
            b' '..=b'~' => char::from(byte).to_string(),
            _ => format!("\\x{byte:02X}"),
        })
        .collect();
    match line.len() {
        0..=COUNTABLE => shown,
        length => format!("{shown} ({length} bytes)"),
    }
}
