//! What is written is read again, and what is not in the format is refused with its line.

use cases::case::Case;
use cases::mix::MIXTURES;
use cases::{families, mix, parse, script};

fn written(cases: &[Case]) -> String {
    cases.iter().map(Case::to_string).collect()
}

#[test]
fn generated_cases_are_read_as_they_were_written() {
    let mut cases = [families::small(3, 10), families::markers(), families::io_kinds(), families::calls()].concat();
    for mixture in MIXTURES {
        cases.extend(mix::cases(mixture, 3, 200));
    }
    let file = written(&cases);
    let read = parse::cases(&file).expect("generated cases are in the format");
    assert_eq!(written(&read), file);
}

#[test]
fn lines_outside_the_format_are_refused() {
    let head = "case a\nhost table\nerror 0 plain none \"x\"\n";
    for line in [
        "error 2 plain none \"x\"",
        "error 1 plain 1 \"x\"",
        "error 1 plain 00 \"x\"",
        "error 1 plain none x",
        "error 1 message 3 \"x\"",
        "error 1 message Broken \"x\"",
        "error 1 reserve none \"x\"",
        "error 1 io Missing none \"x\"",
        "new r0 0",
        "new r0  0 1",
        "new r0 0 1 ",
        "new r0 0 4294967296",
        "new r0 65536 1",
        "new r1024 0 1",
        "new b0 0 1",
        "layer plain",
        "mark 0 Cancelled 1",
        "",
    ] {
        let why = parse::cases(&format!("{head}{line}\n")).expect_err(line);
        assert!(why.starts_with("case a line 4: "), "{line}: {why}");
    }
    assert!(parse::cases(&format!("{head}new r0 0 1\n")).is_ok());
    assert!(parse::cases(&format!("{head}new r0 0 1")).is_err(), "the last line ends with a newline too");
    assert!(parse::cases("new r0 0 1\n").is_err(), "a line belongs to a case");
    assert!(parse::cases("case A\nhost drive\n").is_err(), "names are small letters, digits and hyphens");
}

#[test]
fn a_text_of_255_bytes_is_the_longest() {
    let file = |length| format!("case a\nhost table\nerror 0 plain none \"{}\"\n", "x".repeat(length));
    assert!(parse::cases(&file(255)).is_ok());
    assert!(parse::cases(&file(256)).is_err());
}

#[test]
fn a_script_becomes_the_calls_that_it_stands_for() {
    let case = script::case("s", "new 6\nnew 1\nall 19\ndrain\nchain\n").expect("every line is granted");
    let calls = "basket b0\nnew r0 6 1\ncollect b0 r0\nnew r0 1 2\ncollect b0 r0\n\
        raise_all r0 b0 19 3\nbasket b0\ncollect b0 r0\n\
        take b0 r0\ndrain_children r0 b1\ntake b1 r1\ncollect b0 r1\ntake b1 r1\ncollect b0 r1\ndiscard b1\ncollect b0 r0\n\
        take b0 r0\ntake b0 r1\nchain r0 r1\ncollect b0 r0\n";
    assert_eq!(case.to_string(), format!("case s\nhost drive\n{calls}"));
    for refused in ["raise 1\n", "new 48\n", "new 01\n", "new 1\nchain\n", "drop", "jump\n"] {
        assert!(script::case("s", refused).is_err(), "{refused}");
    }
}
