//! The text program to the byte: document 01's example, and what makes a line unreadable.

use std::io::Write;
use std::process::{Command, Stdio};

use second::generate::{damaged_text, good_text, text, Random, TextDamage};
use second::run_text;

const HEADER: &str = "slot output input entered tag\n";
const EXAMPLE: &str = "2 3 4\n0:10 0:11\n1:12 -\n- -\n";
const EXAMPLE_OUTPUT: &str = "slot output input entered tag\n\
    0 0 0 0 10\n\
    1 0 1 0 11\n\
    1 1 0 1 12\n\
    held 0\n";

fn run(input: impl AsRef<[u8]>) -> String {
    String::from_utf8(run_text(input.as_ref())).expect("plain text")
}

/// The output after the header of a two-port switch with room for four cells.
fn after_header(lines: &str) -> String {
    let output = run(format!("2 3 4\n{lines}"));
    let rest = output.strip_prefix(HEADER);
    rest.expect("a header").to_string()
}

#[test]
fn the_example() {
    assert_eq!(run(EXAMPLE), EXAMPLE_OUTPUT);
}

#[test]
fn the_example_through_the_program_itself() {
    let mut program = Command::new(env!("CARGO_BIN_EXE_second"))
        .stdin(Stdio::piped())
        .stdout(Stdio::piped())
        .spawn()
        .expect("the program starts");
    let mut stdin = program.stdin.take().expect("its standard input");
    stdin.write_all(EXAMPLE.as_bytes()).expect("it reads");
    drop(stdin);
    let output = program.wait_with_output().expect("it ends");
    assert!(output.status.success());
    assert_eq!(output.stdout, EXAMPLE_OUTPUT.as_bytes());
}

#[test]
fn a_first_line_alone() {
    assert_eq!(run("2 3 4\n"), format!("{HEADER}held 0\n"));
    assert_eq!(
        run("0002 03 00000000000000000004\n"),
        format!("{HEADER}held 0\n")
    );
}

#[test]
fn an_unreadable_first_line_stands_by_itself() {
    let lines = [
        "",
        "2 3",
        "2 3 4 5",
        "2 3 x",
        "17 3 x",
        " 2 3 4",
        "2 3 4 ",
        "2  3 4",
        "2\t3 4",
        "2 3 4\r",
        "+2 3 4",
        "2 3 4294967296",
        "-",
        "2 3 1:2",
    ];
    for line in lines {
        assert_eq!(run(format!("{line}\n- -\n")), "unreadable\n", "{line:?}");
    }
}

#[test]
fn a_missing_first_line_is_unreadable() {
    for input in ["", "2 3 4", "17 3 4", "\n"] {
        assert_eq!(run(input), "unreadable\n", "{input:?}");
    }
}

#[test]
fn a_refused_fresh_start_stands_by_itself() {
    let cases = [
        ("0 3 4", 1),
        ("17 9 0", 1),
        ("4294967295 3 4", 1),
        ("2 0 4", 2),
        ("2 9 0", 2),
        ("2 3 0", 3),
        ("2 3 1025", 3),
        ("2 3 4294967295", 3),
    ];
    for (line, number) in cases {
        assert_eq!(
            run(format!("{line}\n- -\nx\n")),
            format!("refused {number}\n")
        );
    }
}

#[test]
fn a_refused_slot_is_tried_again_at_the_same_slot() {
    assert_eq!(
        after_header("2:1 -\n0:1 -\n"),
        "refused 6\n0 0 0 0 1\nheld 0\n"
    );
    assert_eq!(
        run("2 3 1\n0:1 1:2\n- 1:2\n"),
        format!("{HEADER}refused 8\n0 1 1 0 2\nheld 0\n")
    );
}

#[test]
fn an_unreadable_line_ends_the_reading_and_the_held_cells_are_told() {
    let lines = [
        "",
        "-",
        "- - -",
        "-  -",
        " - -",
        "- - ",
        "-\t-",
        "- -\r",
        "- x",
        "7:5 x",
        "- 1",
        "- 1:",
        "- :1",
        "- 1:2:3",
        "- +1:2",
        "- 0x1:2",
        "- --",
        "- 4294967295:0",
        "- 0:4294967296",
        "- 18446744073709551616:0",
        "- 1:2\0",
    ];
    for line in lines {
        let output = after_header(&format!("0:10 0:11\n{line}\n- -\n"));
        assert_eq!(output, "0 0 0 0 10\nunreadable\nheld 1\n", "{line:?}");
    }
}

#[test]
fn bytes_after_the_last_newline_are_an_unreadable_line() {
    for bytes in ["- -", "-", " ", "2:1 -"] {
        let output = after_header(&format!("0:10 0:11\n{bytes}"));
        assert_eq!(output, "0 0 0 0 10\nunreadable\nheld 1\n", "{bytes:?}");
    }
}

#[test]
fn the_largest_readable_numbers() {
    let zeros = "0".repeat(100_000);
    assert_eq!(
        after_header("4294967294:1 -\n0:4294967295 -\n"),
        "refused 6\n0 0 0 0 4294967295\nheld 0\n"
    );
    assert_eq!(
        after_header(&format!("{zeros}1:{zeros}4294967295 -\n")),
        "0 1 0 0 4294967295\nheld 0\n"
    );
}

#[test]
fn good_texts_are_readable() {
    let mut random = Random::new(2);
    for _ in 0..3_000 {
        let input = good_text(&mut random);
        assert!(!run(&input).contains("unreadable"), "{input:?}");
    }
}

#[test]
fn damaged_texts_are_unreadable() {
    let mut random = Random::new(3);
    for damage in TextDamage::ALL {
        for _ in 0..500 {
            let input = damaged_text(&mut random, damage);
            let output = run(&input);
            let refused_at_once = output.starts_with("refused");
            assert!(
                refused_at_once || output.contains("unreadable"),
                "{input:?}"
            );
        }
    }
}

#[test]
fn every_output_has_the_form_of_an_output() {
    let mut random = Random::new(4);
    for _ in 0..10_000 {
        let output = run(text(&mut random));
        let alone = output == "unreadable\n" || output.starts_with("refused ");
        if alone {
            assert_eq!(output.lines().count(), 1);
            continue;
        }
        assert!(output.starts_with(HEADER) && output.ends_with('\n'));
        assert!(output.lines().last().expect("a line").starts_with("held "));
        assert!(output.matches("unreadable\n").count() <= 1);
    }
}
