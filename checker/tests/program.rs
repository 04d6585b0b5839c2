//! The program's lines: which are lines of the paper, and what they answer.

use checker::model::{respond, run_program, State};

/// The answers to lines, from the idle state.
fn answers(input: &str) -> String {
    String::from_utf8(run_program(input.as_bytes())).unwrap()
}

/// Lines that are none of the papers'.
const OTHERS: [&[u8]; 32] = [
    b"",
    b" ",
    b"B",
    b"l",
    b"L,",
    b"L,1",
    b"P,0",
    b"R",
    b"R,",
    b"R0",
    b"R,0,",
    b"R,,0",
    b"R,0,0",
    b"R, 0",
    b"R,0 ",
    b" R,0",
    b"R,00",
    b"R,01",
    b"R,+0",
    b"R,-1",
    b"R,\"0\"",
    b"R,0\r",
    b"R,0\0",
    b"R,4294967296",
    b"R,99999999999999999999999999",
    b"A,0,0,10",
    b"A,0,0,10,0",
    b"A,0,0,10,0,6,0",
    b"S,3,100,0,6,0,0,0,0,0,0",
    b"S,3,100,0,6,0,0,0,0,0,0,0,0",
    b"M,0,1000,400",
    b"\xFF\xFE",
];

#[test]
fn any_other_line_answers_14_and_changes_nothing() {
    let (state, _) = respond(State::idle(), b"S,3,100,0,6,0,0,0,0,0,0,0");
    let long_line = format!("R,{}", "0".repeat(199));
    for line in OTHERS.into_iter().chain([long_line.as_bytes()]) {
        let (after, answer) = respond(state.clone(), line);
        assert_eq!(answer, "E,14", "{}", String::from_utf8_lossy(line));
        assert_eq!(after, state);
    }
}

#[test]
fn the_largest_field_is_a_field() {
    assert_eq!(answers("R,4294967295\nN,4294967295\n"), "E,2\nE,11\n");
}

#[test]
fn lines_stand_between_line_ends() {
    assert_eq!(answers(""), "");
    assert_eq!(answers("\n"), "E,14\n");
    assert_eq!(answers("T"), "U\n");
    assert_eq!(answers("T\n"), "U\n");
    assert_eq!(answers("T\n\nT"), "U\nE,14\nU\n");
    assert_eq!(answers("T\r\n"), "E,14\n");
}

#[test]
fn a_refused_setup_keeps_the_old_state() {
    let input = "S,3,100,0,6,0,0,0,0,0,0,0\nS,0,100,0,6,0,0,0,0,0,0,0\nA,0,0,10,0,6\n";
    assert_eq!(answers(input), "O\nE,1\nO\n");
}

#[test]
fn every_answer_has_its_form() {
    let input =
        "S,1,100,0,2,0,0,0,0,0,0,3\nL\nQ\nC,7\nC,6\nP\nA,0,7,10,0,3\nA,1,7,10,0,3\nQ\nR,0\nR,1\n\
                 X,7,1\nR,0\nI,7,1\nP\nI,7,2\nT\nT\nD,0\nD,1\nA,2,0,1,0,2\nN,64\nR,2\nC,0\n";
    let output = "O\nL,0\nQ,0\nC,0\nE,3\nU\nO\nO\nQ,3,7,1,7,2,7,3\nF,7,1\nW,7,1\n\
                  O\nF,7,1\nI\nF,7,2\nI,7,1\nS,7,2\nU\nO\nO\nO\nN,2,2\nZ\nC,1,2,2\n";
    assert_eq!(answers(input), output);
}

/// The repository's example, with the answers that go with it.
#[test]
fn the_example_is_answered_as_written() {
    let input = include_str!("../../examples/handover.txt");
    let output = include_str!("../../examples/handover.expected");
    assert_eq!(answers(input), output);
}
