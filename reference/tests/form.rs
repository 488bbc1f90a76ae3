//! The answers to order forms, sentence by sentence of what a form is.

use reference::form;

const ERROR_AT_1: &str = "error at line 1: not a serial and a node number";
const ERROR_AT_2: &str = "error at line 2: not a serial and a node number";
const NO_ROWS: &str = "accepted: 0 rows, all serials and all numbers differ";
const ONE_ROW: &str = "accepted: 1 row, all serials and all numbers differ";
const TWO_ROWS: &str = "accepted: 2 rows, all serials and all numbers differ";
const NODE_1_TWICE: &str = "line 2: node number 1 stands already in line 1\nthe lowest free number is 2";

/// The answer is these lines and no more; only one that begins with 'accepted' is given for a form that is.
#[track_caller]
fn assert_answer(form: impl AsRef<[u8]>, expected: &str) {
    let mut output = Vec::new();
    let is_accepted = form::run(form.as_ref(), &mut output).unwrap();
    let shown = form.as_ref()[..form.as_ref().len().min(80)].escape_ascii().to_string();
    assert_eq!(String::from_utf8(output).unwrap(), format!("{expected}\n"), "{shown}");
    assert_eq!(is_accepted, expected.starts_with("accepted"), "{shown}");
}

/// The answer is the repeat, and in a second line the lowest free number.
#[track_caller]
fn assert_sent_back(form: impl AsRef<[u8]>, repeat: &str, lowest_free: u32) {
    assert_answer(form, &format!("{repeat}\nthe lowest free number is {lowest_free}"));
}

/// The answer is the repeat, and in a second line that there is no free number.
#[track_caller]
fn assert_none_free(form: impl AsRef<[u8]>, repeat: &str) {
    assert_answer(form, &format!("{repeat}\nno number from 1 to 127 is free"));
}

/// Rows with serials from 1001 on, and the numbers 1 to 127 in turn.
fn rows(count: u32) -> String {
    (0..count).map(|row| format!("{},{}\n", 1_001 + row, 1 + row % 127)).collect()
}

// Rows and their spelling.

#[test]
fn a_row_is_a_serial_and_a_node_number() {
    assert_answer("4711,12\n4712,13\n", TWO_ROWS);
    // A serial may be any row's node number, its own too.
    assert_answer("1,2\n2,1\n3,3\n", "accepted: 3 rows, all serials and all numbers differ");
}

#[test]
fn a_serial_is_0_to_4294967295() {
    assert_answer("0,1\n4294967295,2\n", TWO_ROWS);
    for serial in ["4294967296", "4294967297", "42949672950", "18446744073709551616", "18446744073709551617"]
    {
        assert_answer(format!("{serial},1\n"), ERROR_AT_1);
    }
}

#[test]
fn a_node_number_that_fits_32_bits_makes_a_row() {
    assert_answer("5,4294967295\n", "refused 7: line 1: node number 4294967295 is not 1 to 127");
    for node in ["4294967296", "4294967297", "18446744073709551617"] {
        assert_answer(format!("5,{node}\n"), ERROR_AT_1);
    }
}

#[test]
fn only_decimal_digits_make_a_number() {
    for row in
        ["0x1,2", "1,2F", "1e3,2", "1.0,2", "1,2.", "1_000,2", "l,2", "1,O2", "\"1\",\"2\"", "1,\u{662}"]
    {
        assert_answer(format!("{row}\n"), ERROR_AT_1);
    }
    for byte in [b"1\0,2\n", b"1,2\0\n", b"1\xFF,2\n", b"1,\xA02\n", b"1,2\x0B\n", b"1,2\x0C\n"] {
        assert_answer(byte, ERROR_AT_1);
    }
}

#[test]
fn leading_zeros_are_allowed_and_not_told() {
    assert_answer("007,001\n00000000000000000000000000000008,1\n", NODE_1_TWICE);
    assert_sent_back("0004711,1\n4711,2\n", "line 2: serial 4711 stands already in line 1", 3);
    assert_sent_back("00,1\n0,2\n", "line 2: serial 0 stands already in line 1", 3);
    assert_answer("1,00200\n", "refused 7: line 1: node number 200 is not 1 to 127");
    assert_answer("00004294967295,0127\n", ONE_ROW);
    assert_answer("00004294967296,1\n", ERROR_AT_1);
}

#[test]
fn one_comma_semicolon_or_tab_stands_between_them() {
    assert_answer("1,1\n2;2\n3\t3\n", "accepted: 3 rows, all serials and all numbers differ");
    for row in ["1 2", "1:2", "1|2", "1/2", "12", "1,,2", "1;;2", "1\t\t2", "1,;2", "1,\t2", "1\t,2", "1, ,2"]
    {
        assert_answer(format!("{row}\n"), ERROR_AT_1);
    }
}

#[test]
fn spaces_are_allowed_around_each() {
    for row in [" 5,6", "5 ,6", "5, 6", "5,6 ", "   5   ;   6   ", " 5 \t 6 "] {
        assert_answer(format!("{row}\n"), ONE_ROW);
    }
    for row in ["5 5,6", "5,6 6", "5 , 6 6", "4 711;12"] {
        assert_answer(format!("{row}\n"), ERROR_AT_1);
    }
}

#[test]
fn a_sign_makes_a_line_malformed() {
    for row in ["+1,2", "-1,2", "1,+2", "1,-2", "-0,1", "1,-0", "+ 1,2", "- 1,2"] {
        assert_answer(format!("{row}\n"), ERROR_AT_1);
    }
}

#[test]
fn a_third_column_or_a_separator_at_an_end_makes_a_line_malformed() {
    for row in
        ["1,2,3", "1;2;3", "1\t2\t3", "1,2,x", "1,2,", "1;2;", "1\t2\t", "1,2, ", "1,2\t ", ",1,2", "\t1,2"]
    {
        assert_answer(format!("{row}\n"), ERROR_AT_1);
    }
    for row in ["1", "1,", ",1", "1;", "\t1", "1\t "] {
        assert_answer(format!("{row}\n"), ERROR_AT_1);
    }
}

// The ends of lines and of the form.

#[test]
fn a_carriage_return_goes_first_and_then_spaces() {
    assert_answer("1,2\r\n3,4\r\n", TWO_ROWS);
    assert_answer("1,2  \r\n  3,4 \r\n", TWO_ROWS);
    // The carriage return is not at the end, so it stays, and the spaces after it go.
    assert_answer("1,2\r \n", ERROR_AT_1);
    assert_answer("1,2 \r \n", ERROR_AT_1);
    assert_answer("1,2 \r \r\n", ERROR_AT_1);
}

#[test]
fn one_carriage_return_is_dropped() {
    assert_answer("1,2\r\r\n", ERROR_AT_1);
    assert_answer("\r1,2\n", ERROR_AT_1);
    assert_answer("1\r,2\n", ERROR_AT_1);
    assert_answer("1,\r2\n", ERROR_AT_1);
    // Alone it ends no line.
    assert_answer("1,2\r3,4\n", ERROR_AT_1);
}

#[test]
fn a_byte_order_mark_is_fine_at_the_very_start() {
    assert_answer(b"\xEF\xBB\xBF1,1\n2,1\n", NODE_1_TWICE);
    assert_answer(b"\xEF\xBB\xBF 1,1\n", ONE_ROW);
    assert_answer(b"\xEF\xBB\xBF# 1\n1,1\n", ONE_ROW);
    assert_answer(b"\xEF\xBB\xBF\r\n1,1\n", ONE_ROW);
    assert_answer(b"\xEF\xBB\xBF", NO_ROWS);
    // It is no line and makes none blank: a heading may follow, and only one.
    assert_answer(b"\xEF\xBB\xBFserial,node\n1,1\n", ONE_ROW);
    assert_answer(b"\xEF\xBB\xBF\nserial,node\n1,1\n", ONE_ROW);
    assert_answer(b"\xEF\xBB\xBFserial,node\nserial,node\n", ERROR_AT_2);
}

#[test]
fn a_byte_order_mark_anywhere_else_is_not() {
    assert_answer(b" \xEF\xBB\xBF1,1\n", ERROR_AT_1);
    assert_answer(b"\xEF\xBB\xBF\xEF\xBB\xBF1,1\n", ERROR_AT_1);
    assert_answer(b"\n\xEF\xBB\xBF1,1\n", ERROR_AT_2);
    assert_answer(b"1,1\n\xEF\xBB\xBF2,2\n", ERROR_AT_2);
    assert_answer(b"1,1\n\xEF\xBB\xBF# x\n", ERROR_AT_2);
    assert_answer(b"1,1\n\xEF\xBB\xBF", ERROR_AT_2);
    assert_answer(b"\xEF\xBB1,1\n", ERROR_AT_1);
    assert_answer(b"\xFE\xFF1,1\n", ERROR_AT_1);
}

#[test]
fn the_last_line_may_lack_its_newline() {
    assert_answer("1,1\n2,2", TWO_ROWS);
    assert_answer("1,1\n2,2\r", TWO_ROWS);
    assert_answer("1,1\n2,2 ", TWO_ROWS);
    assert_answer("1,1\n2,1", NODE_1_TWICE);
    assert_answer("1,1\n2", ERROR_AT_2);
    assert_answer("1,1\n# x", ONE_ROW);
    assert_answer("1,1\n  ", ONE_ROW);
    assert_answer("1,1\n\r", ONE_ROW);
    assert_answer("serial,node", NO_ROWS);
}

// Lines that are passed over.

#[test]
fn blank_lines_are_passed_over() {
    assert_answer("\n   \n\r\n  \r\n1,1\n\n\n2,2\n\n", TWO_ROWS);
    // A tab is a separator, and a carriage return before spaces stays.
    assert_answer("1,1\n\t\n", ERROR_AT_2);
    assert_answer("1,1\n\r \n", ERROR_AT_2);
    assert_answer("1,1\n\r\r\n", ERROR_AT_2);
    assert_answer("1,1\n\0\n", ERROR_AT_2);
}

#[test]
fn lines_that_start_with_a_hash_are_passed_over() {
    assert_answer(b"#\n# 1,1\n#1,1\r\n  # 1,1\n#\xFF\0\r\r\n1,1\n#\n2,2\n", TWO_ROWS);
    assert_answer("1,1\n2,2 # x\n", ERROR_AT_2);
    assert_answer("1,1\n2,2#\n", ERROR_AT_2);
    assert_answer("1,1\n\t# x\n", ERROR_AT_2);
    assert_answer("1,1\n\r# x\n", ERROR_AT_2);
}

#[test]
fn a_heading_is_passed_over() {
    for heading in
        ["serial,node", "Serial;Node number", "serial\tnode", "x", "a,b,c", ",", "\t", "-", "\"\"", "N\u{b0}"]
    {
        assert_sent_back(
            format!("{heading}\n1,1\n2,1\n"),
            "line 3: node number 1 stands already in line 2",
            2,
        );
        assert_answer(format!("{heading}\r\n"), NO_ROWS);
    }
    for heading in [&b"\0"[..], b"\xFF", b"\r ", b"\r\r", b" \xEF\xBB\xBF", b"m\xC2\xB2", b"\t#"] {
        assert_answer([heading, b"\n1,1\n"].concat(), ONE_ROW);
    }
}

#[test]
fn a_heading_may_follow_blank_lines_and_comments() {
    assert_answer("\n# 12 heads\n  \n\r\nserial,node\n1,1\n", ONE_ROW);
}

#[test]
fn a_heading_is_the_first_line_that_is_neither_or_none() {
    assert_answer("serial,node\nserial,node\n1,1\n", ERROR_AT_2);
    assert_answer("1,1\nserial,node\n2,2\n", ERROR_AT_2);
    assert_answer("x\n\n# y\nz\n", "error at line 4: not a serial and a node number");
}

#[test]
fn a_first_row_that_is_mistyped_is_an_error() {
    for row in ["4711,x", "x,1", "4711", "4711.12", "serial 1,node", "serial,node2", "1,-2", "0"] {
        assert_answer(format!("{row}\n1,1\n"), ERROR_AT_1);
        assert_answer(format!("# x\n{row}\n1,1\n"), ERROR_AT_2);
    }
}

// The length of a line.

#[test]
fn a_line_has_up_to_4096_bytes() {
    for (length, is_short) in [(4_095, true), (4_096, true), (4_097, false), (4_098, false), (60_000, false)]
    {
        for ending in ["\n", "\r\n", "", "\r"] {
            let forms = [
                (format!("{:<length$}{ending}", "1,1"), ONE_ROW),
                (format!("{:>length$}{ending}", "1,1"), ONE_ROW),
                (format!("1,{:0length$}{ending}", 1, length = length - 2), ONE_ROW),
                (format!("{:length$}{ending}", ""), NO_ROWS),
                (format!("{:-<length$}{ending}", "#"), NO_ROWS),
                (format!("{:-<length$}{ending}", "serial"), NO_ROWS),
            ];
            for (form, expected) in forms {
                assert_answer(form, if is_short { expected } else { ERROR_AT_1 });
            }
        }
    }
}

#[test]
fn one_carriage_return_at_the_end_of_a_line_is_none_of_its_bytes() {
    assert_answer(format!("{:-<4095}\r\r\n", "#"), NO_ROWS);
    assert_answer(format!("{:-<4096}\r\r\n", "#"), ERROR_AT_1);
    assert_answer(format!("{:-<4095}\r \n", "#"), ERROR_AT_1);
}

#[test]
fn a_byte_order_mark_is_none_of_the_bytes_of_the_first_line() {
    assert_answer(format!("\u{feff}{:<4096}\r\n", "1,1"), ONE_ROW);
    assert_answer(format!("\u{feff}{:<4097}\r\n", "1,1"), ERROR_AT_1);
}

#[test]
fn a_line_that_is_too_long_is_found_wherever_it_stands() {
    assert_answer(format!("1,1\n{:4097}\n2,1\n", ""), ERROR_AT_2);
    assert_answer(format!("1,1\n{:-<4097}", "#"), ERROR_AT_2);
    assert_answer(format!("1\n{:-<4097}", "#"), ERROR_AT_1);
}

// Which answer.

#[test]
fn rows_are_counted_in_the_answer() {
    assert_answer("", NO_ROWS);
    assert_answer("\n", NO_ROWS);
    assert_answer("# nothing\n\n", NO_ROWS);
    assert_answer("1,1", ONE_ROW);
    assert_answer(rows(2), TWO_ROWS);
    assert_answer(rows(12), "accepted: 12 rows, all serials and all numbers differ");
}

#[test]
fn all_lines_count_for_the_numbering() {
    let form = "\n# rows\nserial,node\n4711,12\n\n4712,13\r\n  # more\n   \n4713,12\n";
    assert_sent_back(form, "line 9: node number 12 stands already in line 4", 1);
    let form = "\n# rows\nserial,node\n4711,12\n\n4712,13\r\n  # more\n   \n4711,14\n";
    assert_sent_back(form, "line 9: serial 4711 stands already in line 4", 1);
    assert_answer("\n#\nx\n\n1,1\n\n2,200\n", "refused 7: line 7: node number 200 is not 1 to 127");
    assert_answer("\n#\nx\n\n1,1\n\n2\n", "error at line 7: not a serial and a node number");
}

#[test]
fn the_first_row_that_repeats_an_earlier_one_is_named() {
    assert_sent_back("1,1\n2,2\n3,2\n4,1\n1,5\n", "line 3: node number 2 stands already in line 2", 3);
    assert_sent_back("1,1\n2,2\n1,3\n2,4\n5,1\n", "line 3: serial 1 stands already in line 1", 5);
    // What is repeated later stands earlier.
    assert_sent_back("1,1\n2,2\n3,3\n4,3\n5,1\n", "line 4: node number 3 stands already in line 3", 4);
}

#[test]
fn the_serial_goes_first_if_both_are_repeated() {
    assert_sent_back("1,1\n2,2\n2,2\n", "line 3: serial 2 stands already in line 2", 3);
    // Of two rows, in either order.
    assert_sent_back("1,1\n2,2\n2,1\n", "line 3: serial 2 stands already in line 2", 3);
    assert_sent_back("1,1\n2,2\n1,2\n", "line 3: serial 1 stands already in line 1", 3);
    // A serial that an even later row repeats does not go before this row's number.
    assert_answer("1,1\n2,1\n1,3\n", NODE_1_TWICE);
}

#[test]
fn serials_differ_by_any_of_their_32_bits() {
    let serials = (0..32).map(|bit| 1_u32 << bit).chain([0, u32::MAX]);
    let form: String = serials.enumerate().map(|(row, serial)| format!("{serial},{}\n", row + 1)).collect();
    assert_answer(form, "accepted: 34 rows, all serials and all numbers differ");
}

#[test]
fn refusal_7_names_the_first_row_outside_1_to_127() {
    assert_answer("1,1\n2,127\n", TWO_ROWS);
    for node in ["0", "128", "129", "200", "255", "256", "257", "65537", "2147483649", "4294967295"] {
        let expected = format!("refused 7: line 2: node number {node} is not 1 to 127");
        assert_answer(format!("1,1\n2,{node}\n3,128\n"), &expected);
    }
}

#[test]
fn refusal_7_goes_before_any_search() {
    assert_answer("1,1\n1,1\n1,200\n", "refused 7: line 3: node number 200 is not 1 to 127");
    assert_answer("1,200\n2,200\n", "refused 7: line 1: node number 200 is not 1 to 127");
}

#[test]
fn refusal_8_is_for_more_than_127_rows() {
    assert_answer(rows(126), "accepted: 126 rows, all serials and all numbers differ");
    assert_answer(rows(127), "accepted: 127 rows, all serials and all numbers differ");
    assert_answer(
        format!("serial,node\n\n{}# end\n\n", rows(127)),
        "accepted: 127 rows, all serials and all numbers differ",
    );
    assert_answer(rows(128), "refused 8: more than 127 rows");
    assert_answer(rows(1_000), "refused 8: more than 127 rows");
}

#[test]
fn all_of_127_rows_are_searched() {
    let form = rows(126) + "9,1\n";
    assert_sent_back(form, "line 127: node number 1 stands already in line 1", 127);
    let form = rows(126) + "1126,127\n";
    assert_none_free(form, "line 127: serial 1126 stands already in line 126");
}

#[test]
fn refusal_8_goes_before_7() {
    assert_answer(format!("9,200\n{}", rows(126)), "refused 7: line 1: node number 200 is not 1 to 127");
    assert_answer(format!("9,200\n{}", rows(127)), "refused 8: more than 127 rows");
    assert_answer(rows(127) + "9,0\n", "refused 8: more than 127 rows");
}

#[test]
fn a_malformed_line_goes_before_everything_else() {
    assert_answer("1,1\n1,1\n3\n", "error at line 3: not a serial and a node number");
    assert_answer("1,200\n2\n", ERROR_AT_2);
    assert_answer(rows(128) + "x\n", "error at line 129: not a serial and a node number");
    assert_answer(rows(1_000) + "1,4294967296\n", "error at line 1001: not a serial and a node number");
}

#[test]
fn the_first_malformed_line_is_named() {
    assert_answer("1,1\nx\ny\n", ERROR_AT_2);
    assert_answer("1,1\n2,2,\n3\n", ERROR_AT_2);
}

// The lowest free number.

#[test]
fn the_lowest_free_number_is_1_if_no_row_has_it() {
    assert_sent_back("1,2\n2,2\n", "line 2: node number 2 stands already in line 1", 1);
    assert_sent_back("1,127\n1,126\n", "line 2: serial 1 stands already in line 1", 1);
    assert_sent_back("9,3\n8,2\n7,3\n6,4\n", "line 3: node number 3 stands already in line 1", 1);
    // A serial is no number, and what is passed over is no row.
    assert_sent_back("# 5,1\n1,2\n1,3\n\n# 1\n", "line 3: serial 1 stands already in line 2", 1);
}

#[test]
fn the_lowest_free_number_may_stand_between_others() {
    assert_sent_back("1,1\n2,2\n3,4\n4,4\n", "line 4: node number 4 stands already in line 3", 3);
    assert_sent_back("1,4\n2,1\n3,2\n4,4\n", "line 4: node number 4 stands already in line 1", 3);
    assert_sent_back("1,127\n2,2\n1,1\n", "line 3: serial 1 stands already in line 1", 3);
}

#[test]
fn the_lowest_of_several_free_numbers_is_told() {
    assert_sent_back("1,1\n2,3\n3,5\n4,3\n", "line 4: node number 3 stands already in line 2", 2);
    assert_sent_back("1,1\n2,2\n1,100\n3,50\n", "line 3: serial 1 stands already in line 1", 3);
}

#[test]
fn rows_after_the_repeat_have_their_numbers_too() {
    assert_sent_back("1,1\n2,1\n3,2\n4,3\n", "line 2: node number 1 stands already in line 1", 4);
    assert_sent_back("1,3\n1,2\n2,5\n3,1\n", "line 2: serial 1 stands already in line 1", 4);
    // Rows that repeat something too.
    assert_sent_back("1,1\n2,1\n3,2\n4,2\n1,3\n", "line 2: node number 1 stands already in line 1", 4);
}

#[test]
fn what_is_repeated_stays_used() {
    assert_sent_back("1,1\n2,2\n3,1\n", "line 3: node number 1 stands already in line 1", 3);
    assert_sent_back("1,1\n2,1\n3,1\n", "line 2: node number 1 stands already in line 1", 2);
    // So do the numbers of both rows with a serial.
    assert_sent_back("1,2\n1,1\n", "line 2: serial 1 stands already in line 1", 3);
    assert_sent_back("1,1\n1,1\n", "line 2: serial 1 stands already in line 1", 2);
}

#[test]
fn a_number_with_leading_zeros_is_used() {
    assert_sent_back("1,001\n1,02\n", "line 2: serial 1 stands already in line 1", 3);
}

#[test]
fn the_lowest_free_number_follows_those_used_from_1_on() {
    assert_sent_back(rows(62) + "9,1\n", "line 63: node number 1 stands already in line 1", 63);
    assert_sent_back(rows(63) + "9,1\n", "line 64: node number 1 stands already in line 1", 64);
    assert_sent_back(rows(64) + "9,1\n", "line 65: node number 1 stands already in line 1", 65);
    assert_sent_back(rows(65) + "9,1\n", "line 66: node number 1 stands already in line 1", 66);
    assert_sent_back(rows(125) + "9,1\n", "line 126: node number 1 stands already in line 1", 126);
    assert_sent_back(rows(126) + "9,1\n", "line 127: node number 1 stands already in line 1", 127);
    // The repeat comes first, so that most of the numbers stand after it.
    for used in 1..=126 {
        let form = format!("9,1\n{}", rows(used));
        assert_sent_back(form, "line 2: node number 1 stands already in line 1", used + 1);
    }
}

#[test]
fn the_only_free_number_is_found_wherever_it_is() {
    for free in 2..=127 {
        let form = rows(127).replace(&format!(",{free}\n"), ",1\n");
        assert_sent_back(form, &format!("line {free}: node number 1 stands already in line 1"), free);
    }
    let form = rows(127).replace(",1\n", ",127\n");
    assert_sent_back(form, "line 127: node number 127 stands already in line 1", 1);
}

#[test]
fn with_all_numbers_and_a_repeated_serial_none_is_free() {
    assert_none_free(rows(127).replace("1127,", "1001,"), "line 127: serial 1001 stands already in line 1");
    assert_none_free(rows(127).replace("1002,", "1001,"), "line 2: serial 1001 stands already in line 1");
    let upwards: String = (1..=127).map(|node| format!("5,{node}\n")).collect();
    assert_none_free(upwards, "line 2: serial 5 stands already in line 1");
    let downwards: String = (1..=127).rev().map(|node| format!("5,{node}\n")).collect();
    assert_none_free(downwards, "line 2: serial 5 stands already in line 1");
}

#[test]
fn only_a_form_that_is_sent_back_is_told_of_a_free_number() {
    assert_answer("1,2\n2,3\n", TWO_ROWS);
    assert_answer(rows(127), "accepted: 127 rows, all serials and all numbers differ");
    // A repeat draws no second line where something else goes before it.
    assert_answer("1,2\n1,2\n3,128\n", "refused 7: line 3: node number 128 is not 1 to 127");
    assert_answer("1,2\n".repeat(128), "refused 8: more than 127 rows");
    assert_answer("1,2\n1,2\n3,\n", "error at line 3: not a serial and a node number");
}
