//! What the program says of an order form, and how it ends.

use std::io::Write;
use std::process::{Command, Output, Stdio};

fn order(form: &[u8]) -> Output {
    let mut child = Command::new(env!("CARGO_BIN_EXE_reference"))
        .arg("order")
        .stdin(Stdio::piped())
        .stdout(Stdio::piped())
        .stderr(Stdio::piped())
        .spawn()
        .unwrap();
    child.stdin.take().unwrap().write_all(form).unwrap();
    child.wait_with_output().unwrap()
}

#[test]
fn an_accepted_form_ends_well_and_quietly() {
    for form in [&b""[..], b"4711,12\n"] {
        let output = order(form);
        assert!(output.stdout.starts_with(b"accepted: "));
        assert_eq!(output.stderr, b"");
        assert_eq!(output.status.code(), Some(0));
    }
}

#[test]
fn any_other_is_told_in_one_line_on_standard_error_too_and_fails() {
    let too_many = "1,1\n".repeat(128);
    let all_numbers: String = (1..=127).map(|node| format!("1,{node}\n")).collect();
    let forms = [
        ("1,1\n1,2\n", "line 2: serial 1 stands already in line 1\nthe lowest free number is 3\n"),
        ("1,1\n2,1\n", "line 2: node number 1 stands already in line 1\nthe lowest free number is 2\n"),
        (&all_numbers, "line 2: serial 1 stands already in line 1\nno number from 1 to 127 is free\n"),
        ("1,0\n", "refused 7: line 1: node number 0 is not 1 to 127\n"),
        (&too_many, "refused 8: more than 127 rows\n"),
        ("1\n", "error at line 1: not a serial and a node number\n"),
    ];
    for (form, answer) in forms {
        let output = order(form.as_bytes());
        assert_eq!(String::from_utf8_lossy(&output.stdout), answer);
        assert_eq!(output.stderr.iter().filter(|&&byte| byte == b'\n').count(), 1);
        assert_eq!(output.stderr.last(), Some(&b'\n'));
        assert_eq!(output.status.code(), Some(1));
    }
}
